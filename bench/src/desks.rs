//! Two programs `desk` on the same inputs, timed and compared.

use std::fs::{self, File};
use std::io::{self, BufWriter, Write};
use std::path::Path;
use std::process::Command;
use std::time::Instant;

use crate::workload::Workload;

/// How often each program is run; the shortest run counts.
const RUNS: usize = 15;

/// The bytes of a megabyte.
pub const MEGABYTE: usize = 1_000_000;

/// Writes an input that is this much work.
fn write(workload: Workload, work: usize, path: &Path) -> io::Result<()> {
    let mut out = BufWriter::new(File::create(path)?);
    out.write_all(workload.connect().line().as_bytes())?;
    let mut done = 0;
    for round in 0.. {
        if work <= done {
            break;
        }
        let said = workload.round(round);
        for said in &said {
            out.write_all(said.line().as_bytes())?;
        }
        done += workload.work(&said);
    }
    out.flush()
}

/// Runs a program, words of which the first is its path, from one file to another, and tells how many seconds it took.
fn run(program: &str, input: &Path, output: &Path) -> io::Result<f64> {
    let (from, to) = (File::open(input)?, File::create(output)?);
    let mut words = program.split(' ');
    let mut command = Command::new(words.next().unwrap_or_default());
    command.args(words).stdin(from).stdout(to);
    let begun = Instant::now();
    let status = command.status()?;
    let seconds = begun.elapsed().as_secs_f64();
    if status.success() {
        Ok(seconds)
    } else {
        Err(io::Error::other(format!("{program} ended with {status}")))
    }
}

/// Runs two programs by turns on one input, requires that they print the same, and tells the shortest run of each.
pub fn both(programs: &[&str; 2], input: &Path, folder: &Path) -> io::Result<[f64; 2]> {
    let outputs = [folder.join("first"), folder.join("second")];
    let mut shortest = [f64::INFINITY; 2];
    for _ in 0..RUNS {
        for turn in 0..2 {
            let seconds = run(programs[turn], input, &outputs[turn])?;
            shortest[turn] = shortest[turn].min(seconds);
        }
    }
    if fs::read(&outputs[0])? != fs::read(&outputs[1])? {
        return Err(io::Error::other("the two programs do not print the same"));
    }
    Ok(shortest)
}

/// Prints a table of every workload at every size, in megabytes.
pub fn table(programs: &[&str; 2], folder: &Path, sizes: &[usize]) -> io::Result<()> {
    println!("| Workload | MB | desk (s) | second (s) | second / desk | desk, ms for each MB |");
    println!("|---|---|---|---|---|---|");
    let input = folder.join("input");
    for workload in Workload::ALL {
        for &size in sizes {
            write(workload, size * MEGABYTE, &input)?;
            let [desk, second] = both(programs, &input, folder)?;
            let (name, ratio, each) = (workload.name(), second / desk, desk * 1000.0 / size as f64);
            println!("| {name} | {size} | {desk:.3} | {second:.3} | {ratio:.2} | {each:.2} |");
        }
    }
    Ok(())
}
