//! What can come of a text, by names: what its lines did, what refused it, and how much it loaded.

use super::lines;
use super::load::{Answer, Cause, Refusal};
use super::record::{Flaw, Kind, Record, TYPES};
use crate::board::FLASH;
use std::collections::BTreeSet;

/// The shifts that are told apart at the edges of flash.
const SHIFTS: [&str; 5] = ["the least", "below 0", "0", "above 0", "the greatest"];

/// The edges of flash that the first or the last byte of data can meet.
const EDGES: [&str; 4] = ["one byte below", "the first byte", "the last byte", "one byte above"];

/// The letters among the hex digits of a line.
const LETTERS: [&str; 3] = ["small", "capital", "small and capital"];

/// The ends of lines, by how many characters they have.
const ENDS: [&str; 3] = ["nothing", "LF", "CR LF"];

/// How much an accepted text loads.
const AMOUNTS: [&str; 3] = ["nothing", "some bytes", "all of flash"];

/// The names of all that came of a text that was loaded with this shift and answer.
pub fn met(text: &[u8], shift: i16, answer: &Answer) -> BTreeSet<String> {
    let (taken, placed, came) = match answer {
        Ok(loaded) => (usize::MAX, usize::MAX, format!("loads {}", AMOUNTS[amount(loaded.bytes)])),
        Err(Refusal { cause, line }) => match cause {
            Cause::WrongImageLength => (0, 0, named(*cause)),
            Cause::NoEndingRecord => (usize::MAX, usize::MAX, named(*cause)),
            Cause::AddressOutsideFlash(_) | Cause::Overlap(_) => (line - 1, *line, named(*cause)),
            Cause::BadLine(_) | Cause::BadChecksum(_) => (line - 1, line - 1, named(*cause)),
        },
    };
    let mut names = BTreeSet::from([came]);
    let ended = text.split_inclusive(|character| *character == b'\n');
    for (line, ended) in lines(text).zip(ended).take(taken) {
        names.extend(of_line(line));
        names.insert(format!("taken, ended by {}", ENDS[ended.len() - line.len()]));
    }
    let placed = lines(text).take(placed).filter_map(|line| Record::read(line).ok());
    names.extend(placed.flat_map(|record| at_edges(&record, shift)));
    names
}

/// The name of a cause, with the type of the line that decides.
fn named(cause: Cause) -> String {
    format!("{cause:?}")
}

/// Which amount so many bytes are.
fn amount(bytes: usize) -> usize {
    usize::from(bytes > 0) + usize::from(bytes == FLASH.bytes)
}

/// What a line that was taken did, and the letters among its digits.
fn of_line(line: &[u8]) -> Vec<String> {
    let Ok(record) = Record::read(line) else { return Vec::new() };
    let has_data = record.kind == Kind::Data && !record.data.is_empty();
    let small = line.iter().any(u8::is_ascii_lowercase);
    let capital = line[1..].iter().any(u8::is_ascii_uppercase);
    let letters = [(true, false), (false, true), (true, true)].iter().position(|both| *both == (small, capital));
    let letters = letters.map(|letters| format!("taken, letters {}", LETTERS[letters]));
    [did(record.digit, has_data)].into_iter().chain(letters).collect()
}

/// The name of what a line of a type did.
fn did(digit: u8, has_data: bool) -> String {
    format!("S{digit} {}", if has_data { "stored" } else { "passed" })
}

/// The edges of flash that the data of a record meet.
fn at_edges(record: &Record, shift: i16) -> Vec<String> {
    let first = i64::from(record.address) + i64::from(shift) - i64::from(FLASH.first);
    let over = first + record.count() as i64 - FLASH.bytes as i64;
    let is_data = record.kind == Kind::Data && !record.data.is_empty();
    let is_met = [first == -1, first == 0, over == 0, over == 1];
    let edges = EDGES.iter().zip(is_met).filter(|(_, is_met)| is_data && *is_met);
    let place = usize::from(shift > i16::MIN) + usize::from(shift >= 0) + usize::from(shift > 0);
    let shift = SHIFTS[place + usize::from(shift == i16::MAX)];
    edges.map(|(edge, _)| format!("data at {edge}, shift {shift}")).collect()
}

/// The names of all that can come of a text.
pub fn all() -> BTreeSet<String> {
    let flaws = [Flaw::Empty, Flaw::Letter, Flaw::Type, Flaw::After(None)];
    let causes = [Cause::WrongImageLength, Cause::NoEndingRecord];
    let mut names: BTreeSet<String> = causes.into_iter().chain(flaws.map(Cause::BadLine)).map(named).collect();
    names.extend(TYPES.iter().flat_map(|(digit, kind, address_bytes)| of_type(*digit, *kind, *address_bytes)));
    names.extend(LETTERS.map(|letters| format!("taken, letters {letters}")));
    names.extend(ENDS.map(|end| format!("taken, ended by {end}")));
    names.extend(AMOUNTS.map(|amount| format!("loads {amount}")));
    names.extend(EDGES.iter().flat_map(|edge| SHIFTS.map(|shift| format!("data at {edge}, shift {shift}"))));
    names
}

/// The names of what can come of a line of a type; no S1 or S2 record with data can reach flash.
fn of_type(digit: u8, kind: Kind, address_bytes: usize) -> Vec<String> {
    let flaws = [Flaw::Count, Flaw::Small, Flaw::Cut, Flaw::Long, Flaw::Digit].map(|flaw| flaw(digit));
    let mut causes: Vec<Cause> = flaws.into_iter().chain([Flaw::After(Some(digit))]).map(Cause::BadLine).collect();
    causes.push(Cause::BadChecksum(digit));
    let mut names = vec![did(digit, false)];
    match kind {
        Kind::Header => {}
        Kind::Number | Kind::Ending => causes.push(Cause::BadLine(Flaw::Data(digit))),
        Kind::Data if address_bytes == size_of_val(&FLASH.first) => {
            causes.extend([Cause::AddressOutsideFlash(digit), Cause::Overlap(digit)]);
            names.push(did(digit, true));
        }
        Kind::Data => causes.push(Cause::AddressOutsideFlash(digit)),
    }
    names.extend(causes.into_iter().map(named));
    names
}
