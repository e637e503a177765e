//! What spoils a file: characters, lines and their ends.

use super::draft::{line, stray};
use crate::dice::Dice;
use crate::srecord::record::TYPES;

/// Characters that are no capital hex digits, among them the neighbours of those.
const STRANGE: &[u8] = b"  \0\t\r\x1A/:@G`gSsaf-\x80\xFF";

/// Ends of lines, and what may stand where one should.
const ENDS: [[&[u8]; 2]; 3] = [[b"\n", b"\n"], [b"\r\n", b"\r\n"], [b"\n", b"\r\n"]];
const NO_ENDS: [&[u8]; 6] = [b"\r", b"\r\r\n", b"\n\r", b"\n\n", b"", b"\n\x1A"];

/// What spoils a line.
type Spoil = fn(&mut Vec<u8>, &mut Dice);

/// The ways to spoil a line.
const SPOILS: [Spoil; 14] = [
    |line, dice| change(line, dice.one_of(STRANGE), dice),
    |line, dice| change(line, dice.one_of(STRANGE), dice),
    |line, dice| change(line, dice.one_of(STRANGE), dice),
    |line, dice| change(line, dice.one_of(b"0123456789ABCDEF"), dice),
    |line, dice| insert(line, dice.one_of(b"0A \r\0"), dice),
    |line, dice| line.retain(|_| !dice.once_in(10)),
    |line, dice| line.truncate(1 + dice.below(3)),
    |line, dice| line.truncate(line.len().saturating_sub(1 + dice.below(2))),
    |line, dice| line.insert(0, dice.one_of(STRANGE)),
    |line, dice| line.push(dice.one_of(STRANGE)),
    |line, _| line.extend_from_slice(b"00"),
    |line, _| line.make_ascii_lowercase(),
    |line, dice| wrong_checksum(line, dice),
    |line, dice| wrong_checksum(line, dice),
];

/// Spoils the lines once: one more, one spoilt, one twice, elsewhere or empty, or fewer.
pub fn spoil(lines: &mut Vec<Vec<u8>>, shift: i16, dice: &mut Dice) {
    let at = dice.below(lines.len() + 1);
    if at == lines.len() || !dice.once_in(8) {
        lines.insert(at, further(shift, dice));
    }
    let other = dice.below(lines.len());
    match dice.below(20) {
        0 => lines.insert(other, lines[at].clone()),
        1 => lines.swap(at, other),
        2 => drop(lines.pop()),
        3 => lines.truncate(at),
        4 => lines[at].clear(),
        5..14 if !lines[at].is_empty() => dice.one_of(&SPOILS)(&mut lines[at], dice),
        _ => {}
    }
}

/// One more line, right by itself, or of any type with too few or too many bytes for it.
fn further(shift: i16, dice: &mut Dice) -> Vec<u8> {
    let (digit, _, _) = dice.one_of(&TYPES);
    let bytes = dice.number().to_be_bytes();
    match dice.below(30) {
        0 => format!("S{digit}00").into_bytes(),
        1..7 => line(digit, &bytes[..dice.below(7)]),
        _ => stray(shift, dice),
    }
}

/// Puts another character in the place of one, which it may be itself.
fn change(line: &mut [u8], character: u8, dice: &mut Dice) {
    line[dice.below(line.len())] = character;
}

/// Inserts a character.
fn insert(line: &mut Vec<u8>, character: u8, dice: &mut Dice) {
    line.insert(dice.below(line.len() + 1), character);
}

/// Changes a bit of the last digit, by which a right checksum becomes a wrong one.
fn wrong_checksum(line: &mut [u8], dice: &mut Dice) {
    let last = line.len() - 1;
    let digits = b"0123456789ABCDEF";
    let value = digits.iter().position(|digit| *digit == line[last]).unwrap_or_default();
    line[last] = digits[value ^ 1 << dice.below(4)];
}

/// No text, or one of any characters.
pub fn junk(dice: &mut Dice) -> Vec<u8> {
    let count = dice.one_of(&[0, 1, 300]);
    (0..count).map(|_| dice.number() as u8).collect()
}

/// The lines as one text, its last line ended or not, seldom with an end that is none.
pub fn joined(lines: &[Vec<u8>], dice: &mut Dice) -> Vec<u8> {
    let usual = dice.one_of(&ENDS);
    let mut ends: Vec<&[u8]> = lines.iter().map(|_| dice.one_of(&usual)).collect();
    if let Some(last) = ends.last_mut().filter(|_| dice.once_in(2)) {
        *last = b"";
    }
    if !ends.is_empty() && dice.once_in(20) {
        let any = dice.below(ends.len());
        let at = dice.one_of(&[any, ends.len() - 1]);
        ends[at] = dice.one_of(&NO_ENDS);
    }
    let parts = lines.iter().zip(ends);
    parts.flat_map(|(line, end)| [line, end].concat()).collect()
}
