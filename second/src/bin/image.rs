//! The program `image`: loads the S-records of a file into an image of flash, and writes the image.

use second::board::{ERASED, FLASH};
use second::srecord::{load, said};
use std::env;
use std::ffi::{OsStr, OsString};
use std::fs;
use std::io::{self, Write};
use std::os::unix::ffi::OsStrExt;
use std::process::ExitCode;

const USAGE: &str = "image FILE NEW SHIFT [OLD]

Loads the S-records of FILE, SHIFT (-32768 to 32767) added to each address, into an erased image or into that
of OLD, and writes its 32768 bytes to NEW. Says how much was loaded, or, on standard error and with exit
status 1, in which line of FILE what is wrong; then NEW is neither made nor changed.";
const MISUSED: u8 = 2;

/// Loads the file into the old image, or an erased one, and writes the new one; the line to say, whether that was done or not.
fn image(file: &OsStr, new: &OsStr, shift: i16, old: Option<&OsStr>) -> Result<Vec<u8>, Vec<u8>> {
    let mut image = match old {
        None => vec![ERASED; FLASH.bytes],
        Some(old) => said::read_image(old.as_ref()).map_err(|why| line(old, &why))?,
    };
    let text = said::read_text(file.as_ref()).map_err(|why| line(file, &why))?;
    let answer = load(&text, shift, &mut image);
    let of_old = old.filter(|_| image.len() != FLASH.bytes);
    let said = line(of_old.unwrap_or(file), &said::said(&answer));
    if answer.is_err() {
        return Err(said);
    }
    fs::write(new, &image).map_err(|error| line(new, &said::failed(&error)))?;
    Ok(said)
}

/// A line to say: the name of a file, and what follows it.
fn line(name: &OsStr, said: &str) -> Vec<u8> {
    [name.as_bytes(), said.as_bytes(), b"\n"].concat()
}

/// Does what the words behind the program's name say, or prints how the program is run.
fn main() -> ExitCode {
    let words: Vec<OsString> = env::args_os().skip(1).collect();
    let shift = words.get(2).and_then(|shift| shift.to_str()?.parse().ok());
    let ended = match (&words[..], shift) {
        ([file, new, _], Some(shift)) => image(file, new, shift, None),
        ([file, new, _, old], Some(shift)) => image(file, new, shift, Some(old)),
        _ => {
            eprintln!("{USAGE}");
            return ExitCode::from(MISUSED);
        }
    };
    let said = match &ended {
        Ok(line) => io::stdout().write_all(line),
        Err(line) => io::stderr().write_all(line),
    };
    ExitCode::from(u8::from(ended.is_err() || said.is_err()))
}
