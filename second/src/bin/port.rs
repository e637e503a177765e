//! The program `port`: UART bytes in on standard input, the board's replies out on standard output, as they are.

use second::port::Port;
use second::stream;
use std::process::ExitCode;

const USAGE: &str = "port [--st] [--keep FILE]

Answers the raw UART bytes on standard input by raw bytes on standard output, each read at once. The board has just been
powered. With --st the count in the reply to Get Commands is one less and the first two product bytes are 04 12, as ST's
host tools expect them. With --keep the board's memories are those of FILE (flash, SRAM, user system data one behind the
other, 41024 bytes), which is made if it is missing and written before each answer to bytes that changed them.";

/// Runs the port on the standard streams; a broken stream or file ends it with a failure.
fn main() -> ExitCode {
    stream::run("--st", USAGE, Port::with)
}
