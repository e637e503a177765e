//! How a program talks on its streams: what each read brings is answered at once, by at most one write, and kept in a file before that.

use crate::keep::Kept;
use crate::memories::Store;
use crate::srecord::said::failed;
use std::env;
use std::ffi::{OsStr, OsString};
use std::fs::File;
use std::io::{self, ErrorKind, Read, Write};
use std::os::fd::AsFd;
use std::os::unix::ffi::OsStrExt;
use std::process::ExitCode;

/// The most bytes taken by one read.
const CHUNK_BYTES: usize = 65_536;

/// The exit status of a program that was given other words than its own.
const MISUSED: u8 = 2;

/// A board that answers what comes in.
pub trait Answers {
    /// Takes a chunk of input and adds the answers to it.
    fn take(&mut self, chunk: &[u8], answers: &mut Vec<u8>);

    /// Takes the end of the input, and adds what it still brings.
    fn finish(&mut self, answers: &mut Vec<u8>);

    /// The memories as they are.
    fn store(&self) -> &Store;
}

/// Why a program ended before its input did.
#[derive(Debug)]
pub enum Broken {
    /// A stream cannot be read or written.
    Stream(io::Error),
    /// The memories cannot be kept.
    File(io::Error),
}

/// Answers to the end of the input, with at most one write for each read; memories that are to be kept are so before that write.
pub fn serve(board: &mut impl Answers, mut kept: Option<Kept>, input: &mut impl Read, output: &mut impl Write) -> Result<(), Broken> {
    let mut chunk = vec![0; CHUNK_BYTES];
    let mut answers = Vec::new();
    loop {
        let length = read(input, &mut chunk).map_err(Broken::Stream)?;
        match length {
            0 => board.finish(&mut answers),
            _ => board.take(&chunk[..length], &mut answers),
        }
        if let Some(kept) = &mut kept {
            kept.keep(board.store()).map_err(Broken::File)?;
        }
        send(&mut answers, output).map_err(Broken::Stream)?;
        if length == 0 {
            return Ok(());
        }
    }
}

/// Reads a chunk; an interrupted read is tried again.
fn read(input: &mut impl Read, chunk: &mut [u8]) -> io::Result<usize> {
    loop {
        match input.read(chunk) {
            Err(error) if error.kind() == ErrorKind::Interrupted => {}
            read => return read,
        }
    }
}

/// Writes the answers gathered so far, if any, and forgets them.
fn send(answers: &mut Vec<u8>, output: &mut impl Write) -> io::Result<()> {
    if !answers.is_empty() {
        output.write_all(answers)?;
        output.flush()?;
        answers.clear();
    }
    Ok(())
}

/// Runs a program whose words are its flag or not and then `--keep` and a file or not; other words bring its usage.
pub fn run<B: Answers>(flag: &str, usage: &str, board: impl FnOnce(Store, bool) -> B) -> ExitCode {
    let words: Vec<OsString> = env::args_os().skip(1).collect();
    let flagged = words.first().is_some_and(|word| word == flag);
    match &words[usize::from(flagged)..] {
        [] => ended(OsStr::new(""), on_standard_streams(&mut board(Store::fresh(), flagged), None)),
        [keep, file] if keep == "--keep" => ended(file, keeping(file, |store| board(store, flagged))),
        _ => {
            eprintln!("{usage}");
            ExitCode::from(MISUSED)
        }
    }
}

/// Runs a board on the standard streams with the memories that a file keeps.
fn keeping<B: Answers>(file: &OsStr, board: impl FnOnce(Store) -> B) -> Result<(), Option<String>> {
    let kept = Kept::open(file.as_ref()).map_err(Some)?;
    on_standard_streams(&mut board(kept.store().clone()), Some(kept))
}

/// The exit status of a program that ended so; what is wrong with its file is said on standard error behind the file's name.
fn ended(file: &OsStr, ended: Result<(), Option<String>>) -> ExitCode {
    if let Err(Some(why)) = &ended {
        let _ = io::stderr().write_all(&[file.as_bytes(), why.as_bytes(), b"\n"].concat());
    }
    ExitCode::from(u8::from(ended.is_err()))
}

/// Answers on the standard streams, without the buffer that would cut an answer behind its last LF; a broken stream has no words.
fn on_standard_streams(board: &mut impl Answers, kept: Option<Kept>) -> Result<(), Option<String>> {
    let output = io::stdout().as_fd().try_clone_to_owned();
    let mut output = output.map(File::from).map_err(|_| None)?;
    serve(board, kept, &mut io::stdin().lock(), &mut output).map_err(|broken| match broken {
        Broken::Stream(_) => None,
        Broken::File(error) => Some(failed(&error)),
    })
}
