//! What the programs say of a text that was loaded or refused, and of a file that was not read.

use super::load::{Answer, Cause};
use crate::board::FLASH;
use std::fs::File;
use std::io::{self, Read};
use std::path::Path;

/// The most characters that a text may have.
const MOST_CHARACTERS: usize = 2_097_152;

/// What is added where an S1 or S2 record lies outside flash.
const USE_S3: &str = ": S1 and S2 records cannot reach it; link at 0x08000000 and write S3 records";

/// Says what came of loading a text; what is said follows the name of the text's file, or, where
/// the image's length is wrong, of the image's.
pub fn said(answer: &Answer) -> String {
    let refusal = match answer {
        Ok(loaded) => return format!(": {} in {}", counted(loaded.bytes, "byte"), counted(loaded.sectors, "sector")),
        Err(refusal) => refusal,
    };
    let line = refusal.line;
    match refusal.cause {
        Cause::WrongImageLength => format!(": wrong image length: {} bytes wanted", FLASH.bytes),
        Cause::BadLine(_) => format!(":{line}: bad line"),
        Cause::BadChecksum(_) => format!(":{line}: bad checksum"),
        Cause::AddressOutsideFlash(1 | 2) => format!(":{line}: address outside flash{USE_S3}"),
        Cause::AddressOutsideFlash(_) => format!(":{line}: address outside flash"),
        Cause::Overlap(_) => format!(":{line}: overlap with an earlier line"),
        Cause::NoEndingRecord => String::from(": no ending record"),
    }
}

/// A number of things, of which one has no plural.
fn counted(number: usize, name: &str) -> String {
    let plural = if number == 1 { "" } else { "s" };
    format!("{number} {name}{plural}")
}

/// Reads a text from a file, or says why that cannot be; what is said follows the file's name.
pub fn read_text(path: &Path) -> Result<Vec<u8>, String> {
    let text = read(path, MOST_CHARACTERS)?;
    if text.len() > MOST_CHARACTERS {
        return Err(format!(": longer than {MOST_CHARACTERS} characters"));
    }
    Ok(text)
}

/// Reads an image from a file, a longer one as one byte too long, or says why that cannot be.
pub fn read_image(path: &Path) -> Result<Vec<u8>, String> {
    read(path, FLASH.bytes)
}

/// Reads at most one byte more of a file than is allowed.
fn read(path: &Path, most: usize) -> Result<Vec<u8>, String> {
    let mut bytes = Vec::new();
    let read = File::open(path).and_then(|file| file.take(most as u64 + 1).read_to_end(&mut bytes));
    read.map(|_| bytes).map_err(|error| failed(&error))
}

/// Says what the system says of an error.
pub fn failed(error: &io::Error) -> String {
    let text = error.to_string();
    let words = text.split(" (os error").next().unwrap_or_default();
    format!(": {words}")
}
