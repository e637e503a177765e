//! The program `script`: prints a random script for `desk`, random raw bytes for `port` or a script that tries every character, or counts
//! what an input on standard input reaches.

use second::ends::Kind;
use second::reached::Reached;
use second::{raw, script};
use std::env;
use std::io::{self, Read, Write};
use std::process::ExitCode;

const USAGE: &str = "script uart|mixed SEED LINES [covered]
script raw SEED BYTES [covered]
script uart|mixed|raw count [covered]
script characters

The first prints a script for desk of exactly LINES lines, which SEED determines, and on standard error how often it
reaches each pair of a step and an end; the second prints exactly BYTES raw bytes for port, from one power on, with one
obeyed Jump near their end; the third counts the same of an input on standard input. A pair that the table does not have
gives exit status 1, and with the word covered so does one that was not reached. The last prints right lines with each
character replaced by each one but LF, the last line without an end.";
const MISUSED: u8 = 2;

/// The random input of a seed.
fn random(kind: Kind, seed: u64, count: usize) -> Vec<u8> {
    match kind {
        Kind::Raw => raw::random(seed, count),
        _ => script::random(kind, seed, count).iter().flat_map(|line| [line, &b"\n"[..]].concat()).collect(),
    }
}

/// What an input reaches.
fn reached(kind: Kind, input: &[u8]) -> Reached {
    let lines = input.strip_suffix(b"\n").unwrap_or(input);
    match kind {
        Kind::Raw => raw::reached(input),
        _ if input.is_empty() => Reached::nothing(kind),
        _ => script::reached(kind, lines.split(|byte| *byte == b'\n')),
    }
}

/// The input on standard input.
fn given() -> io::Result<Vec<u8>> {
    let mut input = Vec::new();
    io::stdin().read_to_end(&mut input)?;
    Ok(input)
}

/// The input that the words behind the kind ask for, and whether it is to be printed.
fn input(kind: Kind, words: &[&str]) -> Option<(io::Result<Vec<u8>>, bool)> {
    match words {
        ["count"] => Some((given(), false)),
        [seed, count] => Some((Ok(random(kind, seed.parse().ok()?, count.parse().ok()?)), true)),
        _ => None,
    }
}

/// Prints the input, and what it reaches on standard error; tells whether it reaches what it should.
fn print(kind: Kind, input: &[u8], printed: bool, covered: bool) -> io::Result<bool> {
    if printed {
        io::stdout().write_all(input)?;
    }
    let reached = reached(kind, input);
    io::stderr().write_all(reached.to_string().as_bytes())?;
    Ok(reached.holds(covered))
}

/// Does what is wanted, or prints how the program is run.
fn main() -> ExitCode {
    let words: Vec<String> = env::args().skip(1).collect();
    let mut words: Vec<&str> = words.iter().map(String::as_str).collect();
    let covered = words.pop_if(|word| *word == "covered").is_some();
    let wanted = match words[..] {
        ["characters"] if !covered => return ExitCode::from(u8::from(io::stdout().write_all(&script::characters()).is_err())),
        ["uart", ref words @ ..] => input(Kind::Uart, words).map(|input| (Kind::Uart, input)),
        ["mixed", ref words @ ..] => input(Kind::Mixed, words).map(|input| (Kind::Mixed, input)),
        ["raw", ref words @ ..] => input(Kind::Raw, words).map(|input| (Kind::Raw, input)),
        _ => None,
    };
    let Some((kind, (input, printed))) = wanted else {
        eprintln!("{USAGE}");
        return ExitCode::from(MISUSED);
    };
    match input.and_then(|input| print(kind, &input, printed, covered)) {
        Ok(true) => ExitCode::SUCCESS,
        _ => ExitCode::FAILURE,
    }
}
