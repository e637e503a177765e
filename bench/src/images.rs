//! Programs that load S-record files, on the same files: the proved one, the second one, and srec_cat.

use std::fs;
use std::io;
use std::path::Path;
use std::process::{Command, Stdio};
use std::time::Instant;

/// How often each program is run on a file; the shortest run counts.
const RUNS: usize = 101;

/// Where flash begins, and its bytes.
const FLASH: u32 = 0x0800_0000;
const FLASH_BYTES: usize = 32 * 1024;

/// The most characters of a file.
const MOST_CHARACTERS: usize = 2 * 1024 * 1024;

/// The record that ends each file.
const END: &str = "S70508000000F2\n";

/// The data bytes of a long header, which makes a line of 514 characters.
const HEADER_BYTES: usize = 252;

/// The name of the file that loads nothing.
const HEADERS: &str = "2 MiB of headers";

/// The milliseconds of a second, and what rates are told in.
const MILLI: f64 = 1e3;
const MILLION: f64 = 1e6;

/// The file that is as good as empty: loading it is starting the program.
const SMALLEST: &str = END;

/// A program that loads a file: what it is called, and its words, in which `FILE` and `NEW` stand for the two files.
pub struct Loader<'w> {
    pub name: &'w str,
    pub words: Vec<&'w str>,
}

/// A record of a type whose address has so many bytes.
fn record(digit: char, address: &[u8], data: &[u8]) -> String {
    let count = (address.len() + data.len() + 1) as u8;
    let mut bytes = [&[count], address, data].concat();
    bytes.push(!bytes.iter().fold(0, |sum: u8, byte| sum.wrapping_add(*byte)));
    let digits: String = bytes.iter().map(|byte| format!("{byte:02X}")).collect();
    format!("S{digit}{digits}\n")
}

/// All of flash in S3 records of so many data bytes.
fn whole_flash(width: usize) -> String {
    let data: Vec<u8> = (0..FLASH_BYTES).map(|place| (place * 7 + place / 256) as u8).collect();
    let lines = data.chunks(width).enumerate();
    let line = |(line, part): (usize, &[u8])| record('3', &(FLASH + (line * width) as u32).to_be_bytes(), part);
    lines.map(line).collect::<String>() + END
}

/// As many long headers as a file of 2 MiB holds.
fn headers() -> String {
    let header = record('0', &[0, 0], &[b'-'; HEADER_BYTES]);
    header.repeat((MOST_CHARACTERS - END.len()) / header.len()) + END
}

/// The files, each with its name.
fn files() -> [(&'static str, String); 4] {
    [
        ("all of flash, 32 bytes a line", whole_flash(32)),
        ("all of flash, 1 byte a line", whole_flash(1)),
        (HEADERS, headers()),
        ("all of flash, 250 bytes a line", whole_flash(250)),
    ]
}

/// Runs a program on a file, and tells how many seconds it took.
fn run(loader: &Loader, file: &Path, new: &Path) -> io::Result<f64> {
    let words = loader.words.iter().map(|word| match *word {
        "FILE" => file.as_os_str().to_owned(),
        "NEW" => new.as_os_str().to_owned(),
        word => word.into(),
    });
    let words: Vec<_> = words.collect();
    let mut command = Command::new(&words[0]);
    command.args(&words[1..]).stdout(Stdio::null()).stderr(Stdio::null());
    let begun = Instant::now();
    let status = command.status()?;
    let seconds = begun.elapsed().as_secs_f64();
    if status.success() {
        Ok(seconds)
    } else {
        Err(io::Error::other(format!("{} ended with {status}", loader.name)))
    }
}

/// The shortest run of each program on a file, by turns; those that load all of flash must write the same image.
fn shortest(loaders: &[Loader], file: &Path, folder: &Path, is_whole: bool) -> io::Result<Vec<f64>> {
    let mut shortest = vec![f64::INFINITY; loaders.len()];
    for _ in 0..RUNS {
        for (loader, best) in loaders.iter().zip(&mut shortest) {
            *best = best.min(run(loader, file, &folder.join(loader.name))?);
        }
    }
    let images = loaders.iter().map(|loader| fs::read(folder.join(loader.name)));
    let images = images.collect::<io::Result<Vec<_>>>()?;
    if is_whole && images.iter().any(|image| *image != images[0]) {
        return Err(io::Error::other("the programs do not write the same image"));
    }
    Ok(shortest)
}

/// Prints a table of every file: its characters, and for each program the milliseconds of a run, those of its start among them, and how
/// many millions of characters it takes in a second, its start not counted.
pub fn table(loaders: &[Loader], folder: &Path) -> io::Result<()> {
    print!("| S-record file | Characters |");
    for loader in loaders {
        print!(" {} (ms) | {} (M/s) |", loader.name, loader.name);
    }
    println!("\n|---|---|{}", "---|---|".repeat(loaders.len()));
    let file = folder.join("file.s37");
    fs::write(&file, SMALLEST)?;
    let starts = shortest(loaders, &file, folder, false)?;
    print!("| the start: an ending record alone | {} |", SMALLEST.len());
    starts.iter().for_each(|start| print!(" {:.2} | |", start * MILLI));
    println!();
    for (name, text) in files() {
        fs::write(&file, &text)?;
        let times = shortest(loaders, &file, folder, name != HEADERS)?;
        print!("| {name} | {} |", text.len());
        for (seconds, start) in times.iter().zip(&starts) {
            let millions = text.len() as f64 / MILLION;
            print!(" {:.2} | {:.0} |", seconds * MILLI, millions / (seconds - start));
        }
        println!();
    }
    Ok(())
}
