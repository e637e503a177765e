//! The exported calls alone, beside the second program's, on the same inputs.

use std::time::Instant;

use linked::{Lent, SESSION_BYTES};
use second::frame::frame_bytes;
use second::{take_can_frame, take_uart_byte, Session, Store};

use crate::workload::{Said, Workload};

/// How many rounds are run, how often, and the room for a reply; the shortest run counts.
const ROUNDS: usize = 20_000;
const RUNS: usize = 3;
const ROOM: usize = 363;

/// The bytes of a sector, and how many bytes are summed in a run.
const SECTOR: usize = 1_024;
const SUMMED: usize = 64 << 20;

/// Inputs as they are given to a board, one call each.
enum Input {
    Byte(u8),
    Frame(Vec<u8>),
}

/// The calls of a workload.
fn inputs(workload: Workload) -> Vec<Input> {
    let rounds = (0..ROUNDS).flat_map(|round| workload.round(round));
    let said = std::iter::once(workload.connect()).chain(rounds);
    said.flat_map(|said| match said {
        Said::Bytes(bytes) => bytes.into_iter().map(Input::Byte).collect::<Vec<_>>(),
        Said::Frame(id, bytes) => vec![Input::Frame(frame_bytes(u16::from(id), &bytes).to_vec())],
    })
    .collect()
}

/// The calls that connect on CAN and ask for the checksum of the first sectors of flash, until SUMMED bytes have been summed.
fn checksums(sectors: usize) -> Vec<Input> {
    let frame = |id, bytes: &[u8]| Input::Frame(frame_bytes(id, bytes).to_vec());
    let asked = [0x08, 0x00, 0x00, 0x00, 0x00, (sectors - 1) as u8];
    let sums = (0..SUMMED / (sectors * SECTOR)).map(|_| frame(0xAC, &asked));
    std::iter::once(frame(0x79, &[])).chain(sums).collect()
}

/// A board whose flash holds 00 01 .. FF over and over.
pub fn counting() -> Store {
    let mut store = Store::fresh();
    store.flash.iter_mut().enumerate().for_each(|(place, byte)| *byte = place as u8);
    store
}

/// The sum of a reply's bytes.
fn sum_of(reply: &[u8]) -> usize {
    reply.iter().map(|&byte| usize::from(byte)).sum()
}

/// Gives all inputs to the exported calls, and tells the sum of their replies' bytes.
fn linked_run(inputs: &[Input]) -> usize {
    let mut session = [0; SESSION_BYTES];
    linked::power_on(&mut session);
    let mut store = counting();
    let mut buffer = [0; ROOM];
    let mut lent = Lent { flash: &mut store.flash, sram: &mut store.sram, usd: &mut store.usd, buffer: &mut buffer };
    let mut sum = 0;
    for input in inputs {
        let length = match input {
            Input::Byte(byte) => linked::take_byte(&mut session, *byte, &mut lent).length,
            Input::Frame(frame) => linked::take_frame(&mut session, frame, &mut lent).length,
        };
        sum += sum_of(&lent.buffer[..length]);
    }
    sum
}

/// Gives all inputs to the second program's calls, and tells the sum of their replies' bytes.
fn second_run(inputs: &[Input]) -> usize {
    let mut session = Session::power_on();
    let mut store = counting();
    let mut buffer = [0; ROOM];
    let mut sum = 0;
    for input in inputs {
        let outcome = match input {
            Input::Byte(byte) => take_uart_byte(session, *byte, &mut store.lend(), &mut buffer),
            Input::Frame(frame) => take_can_frame(session, frame, &mut store.lend(), &mut buffer),
        };
        session = outcome.session;
        sum += sum_of(&buffer[..outcome.length]);
    }
    sum
}

/// The shortest of some runs, in seconds, and what the runs tell.
fn shortest(run: fn(&[Input]) -> usize, inputs: &[Input]) -> (f64, usize) {
    let mut best = f64::INFINITY;
    let mut told = 0;
    for _ in 0..RUNS {
        let begun = Instant::now();
        told = run(inputs);
        best = best.min(begun.elapsed().as_secs_f64());
    }
    (best, told)
}

/// The shortest run of the exported calls and that of the second program's, in seconds; their replies are the same.
fn both(inputs: &[Input]) -> (f64, f64) {
    let (linked, said) = shortest(linked_run, inputs);
    let (second, told) = shortest(second_run, inputs);
    assert_eq!(said, told, "the replies differ");
    (linked, second)
}

/// Prints a table of bytes and frames in a second.
pub fn table() {
    println!("| Exported calls | linked (a second) | second (a second) | linked / second |");
    println!("|---|---|---|---|");
    for (workload, name) in [(Workload::Uart, "UART bytes"), (Workload::Can, "CAN frames")] {
        let inputs = inputs(workload);
        let (linked, second) = both(&inputs);
        let calls = inputs.len() as f64;
        println!("| {name} | {:.0} | {:.0} | {:.2} |", calls / linked, calls / second, second / linked);
    }
}

/// Prints a table of the nanoseconds that a byte of a checksum takes, the call that asks for it included.
pub fn checksum_table() {
    println!("| Firmware CRC | linked (ns a byte) | second (ns a byte) | second / linked |");
    println!("|---|---|---|---|");
    for (sectors, name) in [(1, "one sector"), (32, "whole flash")] {
        let (linked, second) = both(&checksums(sectors));
        let each = 1e9 / SUMMED as f64;
        println!("| {name} | {:.2} | {:.2} | {:.2} |", linked * each, second * each, second / linked);
    }
}
