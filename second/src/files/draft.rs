//! Right files, made from one table of edges: types, places, counts, shifts.

use crate::board::FLASH;
use crate::dice::Dice;
use crate::srecord::record::{Kind, TYPES};

/// The place behind the last byte of flash.
const END: i64 = FLASH.bytes as i64;

/// The numbers of data bytes at the edges; any other number may come too.
const COUNTS: [usize; 7] = [0, 1, 2, 16, 32, 249, MOST];

/// The most data bytes of an S3 record.
const MOST: usize = 250;

/// The shifts at the edges; any other may come too.
const SHIFTS: [i16; 8] = [0, 0, i16::MIN, i16::MIN, i16::MAX, i16::MAX, -1, 1];

/// The addresses at edges, whatever the shift; any other may come too.
const ADDRESSES: [u32; 6] = [0, 0xFFFF, 0x00FF_FFFF, u32::MAX, FLASH.first - 1, FLASH.first];

/// The widths of lines that fill much of flash, one byte seldom.
const WIDTHS: [usize; 8] = [16, 16, 32, 32, 250, 250, 250, 1];

/// Of so many hex digits one is small: none, each, or each other one.
const CASES: [usize; 4] = [usize::MAX, usize::MAX, 1, 2];

/// A shift.
pub fn shift(dice: &mut Dice) -> i16 {
    let any = dice.number() as i16;
    let near = dice.below(300) as i16;
    let edge = dice.one_of(&SHIFTS);
    dice.one_of(&[edge, edge, edge, any, near, -near])
}

/// The line of a record, with the right count and checksum, in capital digits.
pub fn line(digit: u8, bytes: &[u8]) -> Vec<u8> {
    let count = bytes.len() as u8 + 1;
    let sum = bytes.iter().fold(count, |sum, byte| sum.wrapping_add(*byte));
    let digits: String = bytes.iter().map(|byte| format!("{byte:02X}")).collect();
    format!("S{digit}{count:02X}{digits}{:02X}", !sum).into_bytes()
}

/// A number of data bytes.
fn count(dice: &mut Dice) -> usize {
    let any = dice.below(MOST + 1);
    let edge = dice.one_of(&COUNTS);
    dice.one_of(&[edge, edge, any])
}

/// So many data bytes: of any value, or all the same.
fn data(count: usize, dice: &mut Dice) -> Vec<u8> {
    let same = dice.once_in(4);
    let value = dice.one_of(&[0x00, 0xFF, 0xA5]);
    let byte = |dice: &mut Dice| if same { value } else { dice.number() as u8 };
    (0..count).map(|_| byte(dice)).collect()
}

/// The line of an S3 record whose data lie at a place after the shift.
fn s3(place: i64, data: &[u8], shift: i16) -> Vec<u8> {
    let address = (i64::from(FLASH.first) + place - i64::from(shift)) as u32;
    line(3, &[&address.to_be_bytes(), data].concat())
}

/// The line of a record of any type that loads nothing, at any address.
fn other(is_wanted: fn(Kind) -> bool, dice: &mut Dice) -> Vec<u8> {
    let types: Vec<_> = TYPES.iter().filter(|(_, kind, _)| is_wanted(*kind)).collect();
    let (digit, kind, address_bytes) = *dice.one_of(&types);
    let count = if kind == Kind::Header { count(dice) } else { 0 };
    let data = data(count, dice);
    anywhere(digit, address_bytes, &data, dice)
}

/// The line of a record at an edge of the addresses, or at any address.
fn anywhere(digit: u8, address_bytes: usize, data: &[u8], dice: &mut Dice) -> Vec<u8> {
    let any = dice.number() as u32;
    let edge = dice.one_of(&ADDRESSES);
    let address = dice.one_of(&[any, edge]).to_be_bytes();
    line(digit, &[&address[4 - address_bytes..], data].concat())
}

/// A line that is right by itself, wherever it lies: at an edge of flash or anywhere, of any type.
pub fn stray(shift: i16, dice: &mut Dice) -> Vec<u8> {
    let data = data(count(dice).max(1), dice);
    let (count, any) = (data.len() as i64, dice.below(FLASH.bytes) as i64);
    let over = END - count;
    let place = dice.one_of(&[-count, -1, -1, 0, any, over, over + 1, over + 1, END]);
    let (digit, _, address_bytes) = dice.one_of(&TYPES[1..4]);
    match dice.below(9) {
        0 => anywhere(digit, address_bytes, &data, dice),
        1..5 => other(|_| true, dice),
        _ => s3(place, &data, shift),
    }
}

/// The lines of a right file: data anywhere or in a run, others between, and an ending record.
pub fn lines(shift: i16, dice: &mut Dice) -> Vec<Vec<u8>> {
    let mut lines = match dice.below(50) {
        0..24 => few(shift, dice),
        24..48 => run(shift, dice),
        _ => {
            let width = dice.one_of(&WIDTHS);
            of_width(0, FLASH.bytes, width, shift, dice)
        }
    };
    if dice.once_in(5) {
        lines.reverse();
    }
    while dice.once_in(2) {
        let at = dice.below(lines.len() + 1);
        lines.insert(at, other(|kind| kind != Kind::Ending, dice));
    }
    lines.push(other(|kind| kind == Kind::Ending, dice));
    let case = dice.one_of(&CASES);
    let digits = lines.iter_mut().flat_map(|line| &mut line[1..]);
    digits.filter(|_| dice.once_in(case)).for_each(u8::make_ascii_lowercase);
    lines
}

/// A few lines anywhere in flash that share no byte, often at its edges or touching.
fn few(shift: i16, dice: &mut Dice) -> Vec<Vec<u8>> {
    let mut is_taken = vec![false; FLASH.bytes];
    let mut lines = Vec::new();
    let mut next = 0;
    for _ in 0..dice.below(10) {
        let data = data(count(dice), dice);
        let last = FLASH.bytes - data.len();
        let any = dice.below(last + 1);
        let place = dice.one_of(&[0, last, any, next.min(last)]);
        next = place + data.len();
        if !is_taken[place..next].contains(&true) {
            is_taken[place..next].fill(true);
            lines.push(s3(place as i64, &data, shift));
        }
    }
    lines
}

/// A run of touching lines, as compilers write it, at an edge of flash or anywhere.
fn run(shift: i16, dice: &mut Dice) -> Vec<Vec<u8>> {
    let width = count(dice).max(1);
    let bytes = 1 + dice.below(40 * width);
    let last = FLASH.bytes - bytes;
    let any = dice.below(last + 1);
    let first = dice.one_of(&[0, last, any]);
    of_width(first, bytes, width, shift, dice)
}

/// So many bytes from a place on, in lines of one width.
fn of_width(first: usize, bytes: usize, width: usize, shift: i16, dice: &mut Dice) -> Vec<Vec<u8>> {
    let data = data(bytes, dice);
    let places = (first as i64..).step_by(width);
    let parts = places.zip(data.chunks(width));
    parts.map(|(place, part)| s3(place, part, shift)).collect()
}
