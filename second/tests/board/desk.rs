//! The lines of `desk`: what is no line, how long one may be, and when answers are written.

use crate::bench::{self, Parts, Writes};
use second::desk::Desk;
use second::stream::{serve, Broken};
use second::Store;
use std::io::{self, BufRead, BufReader, Read, Write};
use std::path::Path;
use std::process::{Command, Stdio};

/// The five-line example of document 01, and what it prints, whole.
const EXAMPLE_INPUT: &str = include_str!("../../../expected/example.in");
const EXAMPLE_OUTPUT: &str = include_str!("../../../expected/example.out");

/// The worked examples of document 01 as one talk.
const WORKED: [&str; 2] = [include_str!("../../../expected/worked-talk.in"), include_str!("../../../expected/worked-talk.out")];

/// Lines of which some bring a NACK, or two, and what is printed of them with `--why`.
const WHY: [&str; 2] = [
    "U 1F\nU 7F 01 FF 03\n1F\nU FC 01 FE\nU 1F 1F 1F 1F 11\nU EE 08 00 00 00\nU 0F\nP\nC 079\nC 7FF\nC FFF\nC 044 FF FD\nC 021 08 00 00 00\nC 7FF",
    ">\n> 79 1F\n! 1 2 bad complement or DLC\n? 3\n> 1F 79 20 01 07 79\n! 2 2 unknown command\n\
     > 1F 1F\n! 1 2 bad complement or DLC\n! 1 2 bad complement or DLC\n> 79\n> 1F\n! 5 7 bad checksum\n>\n> 079:79\n\
     > 7FF:1F\n! 2 0 unknown command\n>\n> 044:79 044:1F\n! 10 0 unsupported erase\n> 021:79\n>\n",
];

/// Lines that are none, one behind each bar: wrong fields, digits, spaces and letters.
const NO_LINES: &str = "||U|U |U 7|U 7f|U 7F |U  7F| U 7F|U7F|u 7F|U 7F\r|U\t7F|U 7F0|U 7F 0|U 7F,80|U 0x7F|U +7|U 7F7F|\
    U 7G|U 7F\0|U 7F #|U\u{A0}7F|U 7F  7F|U 079|U /0|C|C |C 79|C 07|C 079 |C 0079|C  079|C 079 1|C 079 aB|C 07a|C079|c 079|\
    C 079  01|C 079 0102|C 07G|C 079\r|C\t079|C 079 01 02 03 04 05 06 07 08 09| |P | P|P\r|p|PP|P 00|Q|?|>|\0";

/// Runs a desk without reasons on a fresh board.
fn run(input: &mut impl Read, output: &mut impl Write) -> Result<(), Broken> {
    serve(&mut Desk::with(Store::fresh(), false), None, input, output)
}

/// What desk prints for an input.
fn desk(input: impl AsRef<[u8]>) -> String {
    let mut output = Vec::new();
    run(&mut input.as_ref(), &mut output).unwrap();
    String::from_utf8(output).unwrap()
}

/// The examples, with and without their last LF, and no input at all.
#[test]
fn the_examples_byte_for_byte() {
    assert_eq!(desk(EXAMPLE_INPUT), EXAMPLE_OUTPUT);
    assert_eq!(desk(WORKED[0]), WORKED[1]);
    assert_eq!(desk(EXAMPLE_INPUT.trim_end()), EXAMPLE_OUTPUT);
    assert_eq!(desk(""), "");
}

/// With `--why` each NACK of a line has a line of its own behind the answer, in order; a line that is no line and a refused call have none.
#[test]
fn why_a_line_was_refused() {
    let printed = bench::run(Path::new("."), env!("CARGO_BIN_EXE_desk"), "--why", WHY[0]);
    assert_eq!(printed, (WHY[1].to_owned(), String::new(), 0));
    let without: String = WHY[1].split_inclusive('\n').filter(|line| !line.starts_with('!')).collect();
    assert_eq!(desk(WHY[0]), without);
}

/// "Another line prints `?` and its number from 1, and changes nothing."
#[test]
fn other_lines() {
    for line in NO_LINES.split('|').skip(1) {
        let printed = desk(format!("{line}\nU 7F\nU 01\n{line}\nU FE\n"));
        assert_eq!(printed, "? 1\n> 79\n>\n? 4\n> 79 20 01 07 79\n", "{line:?}");
    }
    assert_eq!(desk(b"\xFF\xFE\nU 7F"), "? 1\n> 79\n");
    assert_eq!(desk("\nP\n\nU 7F\n\n"), "? 1\n>\n? 3\n> 79\n? 5\n");
}

/// "at most 800 characters": 266 bytes make 799, and a write of 256 bytes fits; an endless line is one.
#[test]
fn long_lines() {
    let longest = format!("U{}", " 00".repeat(266));
    assert_eq!((longest.len(), desk(&longest)), (799, ">\n".to_string()));
    assert_eq!(desk(format!("{longest} 00\nP")), "? 1\n>\n");
    assert_eq!(desk(format!("U 7F{}\nU 7F", " ".repeat(797))), "? 1\n> 79\n");
    let written = format!("U 7F\nU 31 CE 20 00 00 00 20 FF{} FF\n", " FF".repeat(256));
    assert_eq!(desk(written), "> 79\n> 79 79 79\n");
    let endless = "U 7F ".repeat(1_000_000);
    assert_eq!(desk(format!("{endless}\nU 7F\n{endless}")), "? 1\n> 79\n? 3\n");
}

/// Chunks may end anywhere; each read is followed by at most one write, and none where no line ended.
#[test]
fn chunks_and_writes() {
    for size in 1..EXAMPLE_INPUT.len() {
        let parts = EXAMPLE_INPUT.as_bytes().chunks(size);
        let mut output = Writes(vec![]);
        run(&mut Parts(parts.map(|part| Ok(part.to_vec())).collect()), &mut output).unwrap();
        assert_eq!(output.0.concat(), EXAMPLE_OUTPUT.as_bytes());
    }
    let parts = ["U 7F\nU 01 ", "FE", "\nP\nC 079\nQ\nU", " 7F"];
    let mut output = Writes(vec![]);
    run(&mut Parts(parts.map(|part| Ok(part.into())).into()), &mut output).unwrap();
    let written = ["> 79\n", "> 79 20 01 07 79\n>\n> 079:79\n? 5\n", ">\n"];
    assert_eq!(output.0, written.map(str::as_bytes));
}

/// An interrupted read is tried again, and a broken input ends the run with its error.
#[test]
fn interrupted_and_broken_input() {
    let kinds = [io::ErrorKind::Interrupted, io::ErrorKind::BrokenPipe];
    let mut input = Parts(kinds.map(|kind| Err(kind.into())).into());
    let ended = run(&mut input, &mut Vec::new());
    assert!(matches!(ended, Err(Broken::Stream(error)) if error.kind() == io::ErrorKind::BrokenPipe));
}

/// The built program answers line by line while its input stays open.
#[test]
fn the_program_answers_each_line_when_its_lf_is_read() {
    let mut command = Command::new(env!("CARGO_BIN_EXE_desk"));
    let command = command.stdin(Stdio::piped()).stdout(Stdio::piped());
    let mut child = command.spawn().unwrap();
    let mut input = child.stdin.take().unwrap();
    let mut output = BufReader::new(child.stdout.take().unwrap());
    let lines = EXAMPLE_INPUT.split_inclusive('\n');
    for (line, expected) in lines.zip(EXAMPLE_OUTPUT.split_inclusive('\n')) {
        input.write_all(line.as_bytes()).unwrap();
        let mut answer = String::new();
        output.read_line(&mut answer).unwrap();
        assert_eq!(answer, expected);
    }
    drop(input);
    let mut rest = String::new();
    output.read_to_string(&mut rest).unwrap();
    assert_eq!((rest.as_str(), child.wait().unwrap().success()), ("", true));
}
