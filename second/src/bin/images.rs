//! The program `images`: loads S-record files one after the other into one array, and prints what
//! is said of each and the rows of the array that it has changed.

use second::board::{ERASED, FLASH};
use second::srecord::{load, said};
use std::env;
use std::io::{self, Write};
use std::process::ExitCode;

const USAGE: &str = "images [FILE SHIFT BYTES]...

Loads each FILE, SHIFT added to each address, into the first BYTES of one array of 32769 bytes, which is
erased at first. Says of each what image says, and prints the rows of 16 bytes that it has changed.";
const MISUSED: u8 = 2;

/// The words of one loading.
const WORDS: usize = 3;

/// The bytes of the array, one more than an image has.
const ARRAY_BYTES: usize = FLASH.bytes + 1;

/// The bytes of a row.
const ROW_BYTES: usize = 16;

/// Does every loading in order, and gives what is to be printed; nothing where the words are no loadings.
fn printed(words: &[String]) -> Option<String> {
    let mut array = [ERASED; ARRAY_BYTES];
    let mut printed = String::new();
    for loading in words.chunks(WORDS) {
        let [file, shift, bytes] = loading else { return None };
        let before = array;
        let (shift, image) = (shift.parse().ok()?, array.get_mut(..bytes.parse().ok()?)?);
        let said = match said::read_text(file.as_ref()) {
            Ok(text) => said::said(&load(&text, shift, image)),
            Err(why) => why,
        };
        printed += &format!("{file}{said}\n{}", changed(&before, &array));
    }
    Some(printed)
}

/// The rows of the array that differ from what they were.
fn changed(before: &[u8], array: &[u8]) -> String {
    let rows = before.chunks(ROW_BYTES).zip(array.chunks(ROW_BYTES));
    let mut text = String::new();
    for (offset, (_, row)) in (0..).step_by(ROW_BYTES).zip(rows).filter(|(_, (old, new))| old != new) {
        let fields: String = row.iter().map(|byte| format!(" {byte:02X}")).collect();
        text += &format!("{offset:04X}:{fields}\n");
    }
    text
}

/// Does what the words behind the program's name say, or prints how the program is run.
fn main() -> ExitCode {
    let words: Vec<String> = env::args().skip(1).collect();
    let Some(printed) = printed(&words) else {
        eprintln!("{USAGE}");
        return ExitCode::from(MISUSED);
    };
    let said = io::stdout().write_all(printed.as_bytes());
    ExitCode::from(u8::from(said.is_err()))
}
