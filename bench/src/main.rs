//! How fast the proved board is beside the second program.
//!
//!     bench desks FIRST SECOND FOLDER MEGABYTES...
//!     bench ports FIRST SECOND FOLDER MEGABYTES...
//!     bench calls
//!     bench images FIRST SECOND FOLDER [SREC_CAT]

mod calls;
mod desks;
mod images;
mod ports;
mod slices;
mod workload;

use std::env;
use std::io;
use std::path::Path;
use std::process::ExitCode;

/// What the program is called with.
const USAGE: &str = "bench desks|ports FIRST SECOND FOLDER MEGABYTES... | bench calls | bench images FIRST SECOND FOLDER [SREC_CAT]";

/// The words of a program `image` behind its own, and those of srec_cat: it begins at flash, so that its output has 32,768 bytes.
const OF_IMAGE: [&str; 3] = ["FILE", "NEW", "0"];
const OF_SREC_CAT: [&str; 7] = ["FILE", "-motorola", "-offset", "-0x08000000", "-o", "NEW", "-binary"];

/// Tells that something went wrong.
fn fail(why: &str) -> ExitCode {
    eprintln!("bench: {why}");
    ExitCode::FAILURE
}

/// A table of two programs on inputs of some sizes, in megabytes.
type Table = fn(&[&str; 2], &Path, &[usize]) -> io::Result<()>;

/// Measures two programs `desk`, or two programs `port`.
fn programs(table: Table, first: &str, second: &str, folder: &str, sizes: &[String]) -> ExitCode {
    let Ok(sizes) = sizes.iter().map(|word| word.parse()).collect::<Result<Vec<usize>, _>>() else {
        return fail("a size is a number of megabytes");
    };
    match table(&[first, second], Path::new(folder), &sizes) {
        Ok(()) => ExitCode::SUCCESS,
        Err(error) => fail(&error.to_string()),
    }
}

/// A program of this name, which is started by these words and given others.
fn loader<'w>(name: &'w str, program: &'w str, words: &[&'w str]) -> images::Loader<'w> {
    let words = program.split(' ').chain(words.iter().copied()).collect();
    images::Loader { name, words }
}

/// Measures two programs `image`, and srec_cat where it is there.
fn images(first: &str, second: &str, folder: &str, srec_cat: Option<&str>) -> ExitCode {
    let mut loaders = vec![loader("image", first, &OF_IMAGE), loader("second", second, &OF_IMAGE)];
    match srec_cat {
        Some(program) => loaders.push(loader("srec_cat", program, &OF_SREC_CAT)),
        None => println!("srec_cat is missing (Debian package srecord): its columns are left out\n"),
    }
    match images::table(&loaders, Path::new(folder)) {
        Ok(()) => ExitCode::SUCCESS,
        Err(error) => fail(&error.to_string()),
    }
}

/// Measures what its words say.
fn main() -> ExitCode {
    let words: Vec<String> = env::args().skip(1).collect();
    match words.iter().map(String::as_str).collect::<Vec<_>>()[..] {
        ["desks", first, second, folder, ..] => programs(desks::table, first, second, folder, &words[4..]),
        ["ports", first, second, folder, ..] => programs(ports::table, first, second, folder, &words[4..]),
        ["calls"] => {
            calls::table();
            println!();
            slices::table();
            println!();
            calls::checksum_table();
            ExitCode::SUCCESS
        }
        ["images", first, second, folder] => images(first, second, folder, None),
        ["images", first, second, folder, srec_cat] => images(first, second, folder, Some(srec_cat)),
        _ => fail(USAGE),
    }
}
