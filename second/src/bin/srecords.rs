//! The program `srecords`: prints the random S-record file of a seed, and how it is to be loaded on
//! standard error; or prints what the files of some seeds reach.

use second::files::{RandomFile, Reached};
use std::env;
use std::io::{self, Write};
use std::process::ExitCode;

const USAGE: &str = "srecords SEED
srecords SEED COUNT [covered]

Prints the random S-record file of SEED and, on standard error, how it is to be loaded: the shift, and the
image to load it onto, which is erased, old (random bytes), or one of a wrong length: short (32767 bytes),
long (32769) or empty. With COUNT it tells how many of so many files reached each thing that can come of
one; with the word covered, a thing that was not reached gives exit status 1.";
const MISUSED: u8 = 2;

/// Prints the file of a seed, and on standard error its shift and image.
fn print(seed: u64) -> ExitCode {
    let file = RandomFile::of(seed);
    eprintln!("{} {}", file.shift, file.onto);
    ExitCode::from(u8::from(io::stdout().write_all(&file.text).is_err()))
}

/// Prints what so many files reach; with `covered`, what is not reached is a failure.
fn count(first: u64, count: u64, covered: bool) -> ExitCode {
    match Reached::by(first..first.saturating_add(count)) {
        Ok(reached) => {
            print!("{reached}");
            ExitCode::from(u8::from(covered && !reached.missing().is_empty()))
        }
        Err(why) => {
            eprintln!("{why}");
            ExitCode::FAILURE
        }
    }
}

/// Does what the words behind the program's name say, or prints how the program is run.
fn main() -> ExitCode {
    let words: Vec<String> = env::args().skip(1).collect();
    let numbers: Vec<Option<u64>> = words.iter().map(|word| word.parse().ok()).collect();
    match (&numbers[..], words.get(2).map(String::as_str)) {
        ([Some(seed)], _) => print(*seed),
        ([Some(first), Some(files)], _) => count(*first, *files, false),
        ([Some(first), Some(files), None], Some("covered")) => count(*first, *files, true),
        _ => {
            eprintln!("{USAGE}");
            ExitCode::from(MISUSED)
        }
    }
}
