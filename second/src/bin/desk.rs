//! The program `desk`: lines in on standard input, answers out on standard output.

use second::desk::Desk;
use second::stream;
use std::process::ExitCode;

const USAGE: &str = "desk [--why] [--keep FILE]

Answers the lines on standard input. With --why the answer to a line that brought NACKs is followed by a line for each of
them: !, the number of the reason, the place where it fell, and the reason in words. With --keep the board's memories are
those of FILE (flash, SRAM, user system data one behind the other, 41024 bytes), which is made if it is missing and
written before the answers to lines that changed them.";

/// Runs the desk on the standard streams; a broken stream or file ends it with a failure.
fn main() -> ExitCode {
    stream::run("--why", USAGE, Desk::with)
}
