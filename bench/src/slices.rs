//! The exported call that takes a slice of UART bytes, beside its single calls and the second program's of both kinds.

use std::time::Instant;

use linked::{Lent, SESSION_BYTES};
use second::{take_uart_byte, take_uart_bytes, Session, Store};

use crate::calls::counting;
use crate::workload::Commands;

/// How many bytes go there and back in a run, and how often it is run; the shortest run counts.
const BYTES: usize = 16_000_000;
const RUNS: usize = 5;

/// The most bytes of a slice, the room for its replies, and the room for a single one.
const SLICE: usize = 65_536;
const ROOM: usize = 65_536;
const SINGLE: usize = 257;

/// A board that is given a talk and tells the sum of its replies' bytes.
type Run = fn(&[u8]) -> u64;

/// The sum of a reply's bytes.
fn sum_of(reply: &[u8]) -> u64 {
    reply.iter().map(|&byte| u64::from(byte)).sum()
}

/// What is lent to an exported call.
fn lend<'a>(store: &'a mut Store, buffer: &'a mut [u8]) -> Lent<'a> {
    Lent { flash: &mut store.flash, sram: &mut store.sram, usd: &mut store.usd, buffer }
}

/// Gives a talk to the exported slice call, again and again what is left of a slice.
fn linked_slices(talk: &[u8]) -> u64 {
    let (mut session, mut store, mut buffer) = ([0; SESSION_BYTES], counting(), vec![0; ROOM]);
    linked::power_on(&mut session);
    let mut lent = lend(&mut store, &mut buffer);
    let (mut rest, mut sum) = (talk, 0);
    while !rest.is_empty() {
        let taken = linked::take_bytes(&mut session, &rest[..rest.len().min(SLICE)], &mut lent);
        assert!(taken.taken > 0, "the board takes no more");
        sum += sum_of(&lent.buffer[..taken.length]);
        rest = &rest[taken.taken..];
    }
    sum
}

/// Gives a talk to the exported call for a byte.
fn linked_bytes(talk: &[u8]) -> u64 {
    let (mut session, mut store, mut buffer) = ([0; SESSION_BYTES], counting(), [0; SINGLE]);
    linked::power_on(&mut session);
    let mut lent = lend(&mut store, &mut buffer);
    let mut sum = 0;
    for byte in talk {
        let taken = linked::take_byte(&mut session, *byte, &mut lent);
        sum += sum_of(&lent.buffer[..taken.length]);
    }
    sum
}

/// Gives a talk to the second program's slice call, again and again what is left of a slice.
fn second_slices(talk: &[u8]) -> u64 {
    let (mut session, mut store, mut buffer) = (Session::power_on(), counting(), vec![0; ROOM]);
    let (mut rest, mut sum) = (talk, 0);
    while !rest.is_empty() {
        let slice = &rest[..rest.len().min(SLICE)];
        let outcome = take_uart_bytes(session, slice, &mut store.lend(), &mut buffer);
        assert!(outcome.taken > 0, "the board takes no more");
        session = outcome.session;
        sum += sum_of(&buffer[..outcome.length]);
        rest = &rest[outcome.taken..];
    }
    sum
}

/// Gives a talk to the second program's call for a byte.
fn second_bytes(talk: &[u8]) -> u64 {
    let (mut session, mut store, mut buffer) = (Session::power_on(), counting(), [0; SINGLE]);
    let mut sum = 0;
    for byte in talk {
        let outcome = take_uart_byte(session, *byte, &mut store.lend(), &mut buffer);
        session = outcome.session;
        sum += sum_of(&buffer[..outcome.length]);
    }
    sum
}

/// The shortest run of each board, by turns, in seconds; their replies are the same.
fn shortest<const N: usize>(runs: [Run; N], talk: &[u8]) -> [f64; N] {
    let mut shortest = [f64::INFINITY; N];
    let mut told = [0; N];
    for _ in 0..RUNS {
        for (place, run) in runs.iter().enumerate() {
            let begun = Instant::now();
            told[place] = run(talk);
            shortest[place] = shortest[place].min(begun.elapsed().as_secs_f64());
        }
    }
    assert!(told.iter().all(|sum| *sum == told[0]), "the replies differ");
    shortest
}

/// Prints a table of the bytes that go there and back in a second.
pub fn table() {
    println!("| Bytes there and back a second | linked, slices | linked, single bytes | second, slices | second, single bytes | linked / second, slices |");
    println!("|---|---|---|---|---|---|");
    for commands in Commands::ALL {
        let (talk, bytes) = commands.talk(BYTES);
        let seconds = shortest([linked_slices, linked_bytes, second_slices, second_bytes], &talk);
        let [slices, single, second, second_single] = seconds.map(|seconds| bytes as f64 / seconds);
        let name = commands.name();
        println!("| {name} | {slices:.0} | {single:.0} | {second:.0} | {second_single:.0} | {:.2} |", slices / second);
    }
}
