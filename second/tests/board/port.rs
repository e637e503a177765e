//! The program `port`: replies as the board gives them, each read answered at once, and two of them as ST's host tools expect them.

use crate::bench::{hex, spaced, Bench, Parts, Writes};
use second::port::Port;
use second::stream::serve;
use second::{Session, Store};
use std::io::{Read, Write};
use std::process::{Command, Stdio};

/// What the board tells of its commands and of itself, and both as ST's host tools expect them.
const COMMANDS: &str = "79 0E 20 00 01 02 11 21 31 44 63 73 82 92 AC D4 79";
const ST_COMMANDS: &str = "79 0D 20 00 01 02 11 21 31 44 63 73 82 92 AC D4 79";
const DEVICE: &str = "79 04 56 78 12 34 5A 79";
const ST_DEVICE: &str = "79 04 04 12 12 34 5A 79";

/// A talk that a host tool for ST's boards would have: what is sent, `>`, and what is answered.
const ST_TALK: &str = include_str!("../../../expected/port-st.hex");

/// What a fresh port answers to bytes that come in parts.
fn port(parts: &[&[u8]], as_st: bool) -> Vec<Vec<u8>> {
    let mut output = Writes(vec![]);
    let mut input = Parts(parts.iter().map(|part| Ok(part.to_vec())).collect());
    serve(&mut Port::with(Store::fresh(), as_st), None, &mut input, &mut output).unwrap();
    output.0
}

/// What a fresh port answers to bytes, in hex.
fn told(bytes: &str, as_st: bool) -> String {
    spaced(&port(&[&hex(bytes)], as_st).concat())
}

/// The worked talk of document 01, as it is and with `--st`: nothing but the count and two product bytes differs.
#[test]
fn two_replies_as_st_expects_them() {
    assert_eq!(told("7F 00 FF 02 FD 01 FE", false), format!("79 {COMMANDS} {DEVICE} 79 20 01 07 79"));
    assert_eq!(told("7F 00 FF 02 FD 01 FE", true), format!("79 {ST_COMMANDS} {ST_DEVICE} 79 20 01 07 79"));
    assert_eq!(told("7F 00 FE 02 FC 00 FF", true), format!("79 1F 1F {ST_COMMANDS}"));
    assert_eq!(told("00 FF 02 FD 7F 02 FD", true), format!("79 {ST_DEVICE}"));
}

/// The talk of `expected/port-st.hex`, line by line and as one read; without `--st` the answers to 00 FF and 02 FD alone are others.
#[test]
fn the_talk_of_an_st_host() {
    let lines = ST_TALK.lines().filter(|line| !line.is_empty() && !line.starts_with('#'));
    let talk: Vec<(Vec<u8>, Vec<u8>)> =
        lines.map(|line| line.split_once('>').unwrap()).map(|(sent, said)| (hex(sent), hex(said))).collect();
    let sent: Vec<&[u8]> = talk.iter().map(|(sent, _)| &sent[..]).collect();
    let said: Vec<Vec<u8>> = talk.iter().map(|(_, said)| said.clone()).filter(|said| !said.is_empty()).collect();
    assert_eq!(port(&sent, true), said);
    assert_eq!(port(&[&sent.concat()], true).concat(), said.concat());
    let turned = [(hex(ST_COMMANDS), hex(COMMANDS)), (hex(ST_DEVICE), hex(DEVICE))];
    let plain = |said: &Vec<u8>| turned.iter().find(|(st, _)| st == said).map_or(said.clone(), |(_, plain)| plain.clone());
    assert_eq!(port(&sent, false), said.iter().map(plain).collect::<Vec<Vec<u8>>>());
}

/// With `--st` data that look like a reply stay as they are, and so does what a command that is refused or not heard brings.
#[test]
fn what_st_does_not_turn() {
    let written = format!("31 CE 20 00 00 00 20 08 {DEVICE} 00 {:02X}", 8 ^ hex(DEVICE).iter().fold(0, |sum, byte| sum ^ byte));
    let talk = format!("7F {written} 11 EE 20 00 00 00 20 07 F8 11 EE 00 00 00 00 00 92 6D 00 FF 02 FD 7F 82 7D 7F 11 EE 02 FD");
    let said = format!("79 79 79 79 79 79 79 {DEVICE} 79 1F 79 79 79 79 79 79 1F");
    assert_eq!(told(&talk, false), format!("{said} {DEVICE}"));
    assert_eq!(told(&talk, true), format!("{said} {ST_DEVICE}"));
}

/// Each read is answered by one write, none where there is no reply; a running board takes bytes and answers nothing.
#[test]
fn each_read_has_one_answer() {
    let parts = ["00", "7F", "00", "FF 02", "FD 01 FF", "21 DE 08 00 00 00", "08", "7F", "01 FE"].map(hex);
    let written = port(&parts.each_ref().map(Vec::as_slice), false);
    let expected = ["79", COMMANDS, &format!("{DEVICE} 1F"), "79", "79"].map(hex);
    assert_eq!(written, expected);
}

/// A byte 0A in an answer does not cut it, and any cuts of the input bring the same bytes as single calls.
#[test]
fn any_cuts() {
    let fill: String = (0..8).map(|_| " 0A 79").collect();
    let talk = hex(&format!("7F 31 CE 20 00 00 00 20 0F{fill} 0F 11 EE 20 00 00 00 20 0F F0 01 FF 02 FD D4 2B 01 FE 7F 01 FE"));
    let mut bench = Bench::at(Session::power_on());
    let expected = bench.uart(&talk);
    for size in 1..=talk.len() {
        let parts: Vec<&[u8]> = talk.chunks(size).collect();
        assert_eq!(spaced(&port(&parts, false).concat()), expected);
    }
}

/// The built program answers while its input stays open.
#[test]
fn the_program_answers_each_read() {
    let mut command = Command::new(env!("CARGO_BIN_EXE_port"));
    let mut child = command.arg("--st").stdin(Stdio::piped()).stdout(Stdio::piped()).spawn().unwrap();
    let (mut input, mut output) = (child.stdin.take().unwrap(), child.stdout.take().unwrap());
    for (bytes, expected) in
        [("7F", "79"), ("00 FF", ST_COMMANDS), ("02 FD", ST_DEVICE), ("11 EE 08 00 00 00 08 03 FC", "79 79 79 FF FF FF FF")]
    {
        input.write_all(&hex(bytes)).unwrap();
        let mut answer = vec![0; hex(expected).len()];
        output.read_exact(&mut answer).unwrap();
        assert_eq!(spaced(&answer), expected);
    }
    drop(input);
    let mut rest = Vec::new();
    output.read_to_end(&mut rest).unwrap();
    assert!(rest.is_empty() && child.wait().unwrap().success());
}
