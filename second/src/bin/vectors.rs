//! The program `vectors`: prints random vectors of single calls, answers vectors, or counts what they reach.

use second::ends::Kind;
use second::reached::Reached;
use second::sweep::sweep;
use second::vector::{each, run, Vector};
use second::vectors::{random, reached};
use std::env;
use std::io::{self, Write};
use std::process::ExitCode;

const USAGE: &str = "vectors generate SEED COUNT [covered]
vectors sweep SEED
vectors run
vectors count [covered]

The first prints COUNT vectors, which SEED determines, and counts what they reach as script does; the second prints
vectors of a seed that are obeyed, one for each step, command and effect, and each of them with one thing wrong; the third
answers the vectors on standard input; the last counts what they reach. A line that is no vector gives exit status 1.";
const MISUSED: u8 = 2;

/// Prints vectors, and tells what they reach.
fn print(vectors: &[Vector]) -> io::Result<Reached> {
    let text: Vec<u8> = vectors.iter().flat_map(|vector| vector.line()).collect();
    io::stdout().write_all(&text)?;
    Ok(reached(vectors))
}

/// Tells what the vectors on standard input reach.
fn count() -> io::Result<Reached> {
    let mut reached = Reached::nothing(Kind::Calls);
    each(&mut io::stdin().lock(), |vector| {
        reached.count(&[vector.met()]);
        Ok(())
    })?;
    Ok(reached)
}

/// Does what the words ask for; what vectors reach, if that is to be said.
fn done(words: &[&str]) -> Option<io::Result<Option<Reached>>> {
    match words {
        ["generate", seed, count] => {
            let (seed, count) = (seed.parse().ok()?, count.parse().ok()?);
            Some(print(&random(seed, count)).map(Some))
        }
        ["sweep", seed] => Some(print(&sweep(seed.parse().ok()?)).map(Some)),
        ["count"] => Some(count().map(Some)),
        ["run"] => Some(run(&mut io::stdin().lock(), &mut io::stdout().lock()).map(|()| None)),
        _ => None,
    }
}

/// Does what is wanted, or prints how the program is run.
fn main() -> ExitCode {
    let words: Vec<String> = env::args().skip(1).collect();
    let mut words: Vec<&str> = words.iter().map(String::as_str).collect();
    let covered = words.len() > 1 && words.pop_if(|word| *word == "covered").is_some();
    match done(&words) {
        None => {
            eprintln!("{USAGE}");
            ExitCode::from(MISUSED)
        }
        Some(Err(error)) => {
            eprintln!("{error}");
            ExitCode::FAILURE
        }
        Some(Ok(None)) => ExitCode::SUCCESS,
        Some(Ok(Some(reached))) => {
            eprint!("{reached}");
            ExitCode::from(u8::from(!reached.holds(covered)))
        }
    }
}
