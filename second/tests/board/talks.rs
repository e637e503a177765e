//! Talks: the lines of `desk` that are typed, each followed by what is printed and what changes.
//!
//! A part of a talk begins with the sentence of document 01 or 02 that it tries, behind `#`, and a fresh
//! board, or with `#U` or `#C` and one that is then connected on UART or CAN. `U`, `C` and `P` type a
//! line of `desk`, and `>` is what that prints. `!` sets memories or the session before. `=` tells what
//! the line has changed: every other byte of the memories must be as it was, and each call accepted unless
//! `refused` tells its cause. `nack` tells the reason and the place of a NACK; in the talk of reasons each NACK
//! is told, in order. `FF*3` stands for three `FF`.
//!
//!     ! MEMORY FIRST BYTES         flash, sram or usd, from an offset on
//!     ! session CARRIER STEP TAKEN EXPECTED ADDRESS SPEED [STAGED BYTES]
//!     = MEMORY ...  = session ...  = fresh  = idle on UART  = idle on CAN  = refused CAUSE  = nack REASON PLACE

use crate::bench::{hex, Bench};
use second::desk::Desk;
use second::line::{Line, LINE_BYTES};
use second::stream::serve;
use second::{Session, Store, ACCEPTED};

/// The talks, which stand in files beside this one.
const TALKS: [&str; 3] = [include_str!("uart.talk"), include_str!("can.talk"), include_str!("sessions.talk")];

/// The talk that tells each NACK: every row of a table of all steps with the reasons that each can give, and what holds together.
const REASONS: &str = include_str!("reasons.talk");

/// The reasons in the words and the order of document 02.
const WORDS: [&str; 11] = [
    "bad complement or DLC",
    "unknown command",
    "access protected",
    "frame of another ID or empty frame",
    "bad checksum",
    "bad address",
    "bad count or range",
    "bad sector number",
    "write-protected sector",
    "unsupported erase",
    "bad speed",
];

/// The marks of what is set, typed, printed and changed.
const MARKS: [&str; 6] = ["!", "U", "C", "P", ">", "="];

/// A board in a talk, what its last line printed, and what must be so after that line.
struct Talk {
    bench: Bench,
    printed: Option<String>,
    store: Store,
    session: Option<Session>,
    number: u8,
    nacks: Vec<(u8, u16)>,
    all_told: bool,
}

impl Talk {
    /// A talk with the fresh board, in which each NACK is told or not.
    fn fresh(all_told: bool) -> Talk {
        let bench = Bench::at(Session::power_on());
        Talk { store: bench.store.clone(), bench, printed: None, session: None, number: ACCEPTED, nacks: vec![], all_told }
    }

    /// Takes what is said.
    fn take(&mut self, said: &str) {
        match said.split_once(' ') {
            Some(("!", what)) => self.set(what),
            Some(("=", what)) => self.expect(what),
            _ if said.starts_with('>') => assert_eq!(self.printed.take().as_deref(), Some(said)),
            _ => self.type_line(said),
        }
    }

    /// Types a line, once what the line before has left is tested.
    fn type_line(&mut self, line: &str) {
        self.test();
        let replies = match Line::read(line.as_bytes(), &mut [0; LINE_BYTES]) {
            Some(Line::Uart(bytes)) => self.bench.uart(bytes),
            Some(Line::Can(id, data)) => self.bench.can(id, data),
            Some(Line::PowerOn) => {
                self.bench.session = Session::power_on();
                String::new()
            }
            None => panic!("no line: {line}"),
        };
        self.printed = Some(format!("> {replies}").trim_end().to_string());
    }

    /// Sets memories or the session.
    fn set(&mut self, what: &str) {
        self.test();
        match what.strip_prefix("session ") {
            Some(numbers) => self.bench.session = session(numbers),
            None => change(what, &mut self.bench.store),
        }
        self.store = self.bench.store.clone();
    }

    /// Notes what must be so after the last line.
    fn expect(&mut self, what: &str) {
        match what.split_once(' ') {
            None => self.session = Some(session("0 0 0 1 0 2")),
            Some(("idle", "on UART")) => self.session = Some(session("1 0 0 2 0 2")),
            Some(("idle", "on CAN")) => self.session = Some(session("2 0 0 1 0 2")),
            Some(("session", numbers)) => self.session = Some(session(numbers)),
            Some(("refused", number)) => self.number = number.parse().unwrap(),
            Some(("nack", told)) => self.nacks.push(nack(told)),
            Some(_) => change(what, &mut self.store),
        }
    }

    /// Tests what the last line has left.
    fn test(&mut self) {
        assert_eq!(self.printed, None, "what is printed is not in the talk");
        assert_eq!(self.bench.number, self.number, "the number of the call");
        assert!(!self.all_told || self.bench.nacks == self.nacks, "told {:?}, and not {:?}", self.nacks, self.bench.nacks);
        assert!(self.bench.store == self.store, "the memories");
        if let Some(session) = self.session.take() {
            assert_eq!(self.bench.session, session);
        }
        (self.bench.number, self.number) = (ACCEPTED, ACCEPTED);
        (self.bench.nacks, self.nacks) = (vec![], vec![]);
    }
}

/// The reason and the place of a NACK.
fn nack(told: &str) -> (u8, u16) {
    let (reason, place) = told.split_once(' ').unwrap();
    (reason.parse().unwrap(), place.parse().unwrap())
}

/// The session of six numbers, the address a hex one, and of staged bytes where they follow.
fn session(numbers: &str) -> Session {
    let fields: Vec<&str> = numbers.splitn(7, ' ').collect();
    let [carrier, step, taken, expected, speed] = [0, 1, 2, 3, 5].map(|field| fields[field].parse::<usize>().unwrap());
    let address = u32::from_str_radix(fields[4], 16).unwrap();
    let mut staged = hex(fields.get(6).unwrap_or(&""));
    staged.resize(257, 0);
    let (carrier, step, speed) = (carrier as u8, step as u8, speed as u8);
    Session { carrier, step, taken, expected, address, speed, staged: staged.try_into().unwrap() }
}

/// Changes the bytes of a memory from an offset on.
fn change(what: &str, store: &mut Store) {
    let (memory, rest) = what.split_once(' ').unwrap();
    let (first, bytes) = rest.split_once(' ').unwrap();
    let (first, bytes): (usize, _) = (first.parse().unwrap(), hex(bytes));
    let memory = match memory {
        "flash" => &mut store.flash,
        "sram" => &mut store.sram,
        "usd" => &mut store.usd,
        _ => panic!("no memory: {memory}"),
    };
    memory[first..first + bytes.len()].copy_from_slice(&bytes);
}

/// What is said in a part of a talk, each with its mark in front, and `T*3` written as three of it.
fn said(part: &str) -> Vec<String> {
    let mut said: Vec<String> = Vec::new();
    for field in part.split_whitespace() {
        let (field, times) = field.split_once('*').unwrap_or((field, "1"));
        match said.last_mut() {
            Some(last) if !MARKS.contains(&field) => *last += &format!(" {field}").repeat(times.parse().unwrap()),
            _ => said.push(field.to_string()),
        }
    }
    said
}

/// The line of `desk` that a mark of a talk stands for, if it stands for one: what is typed, printed, or told of a NACK.
fn line_of(said: &str, typed: bool) -> Option<String> {
    match said.strip_prefix("= nack ").map(nack) {
        Some((reason, place)) if !typed => Some(format!("! {reason} {place} {}\n", WORDS[usize::from(reason) - 1])),
        None if said.starts_with('>') != typed && !said.starts_with('=') => Some(format!("{said}\n")),
        _ => None,
    }
}

/// Tests that `desk` prints what a talk says in which nothing is set, with what it tells of NACKs or without.
fn test_desk(said: &[String], why: bool) {
    let lines = |typed| -> String { said.iter().filter_map(|said| line_of(said, typed)).collect() };
    let (mut printed, all) = (Vec::new(), lines(false));
    serve(&mut Desk::with(Store::fresh(), why), None, &mut lines(true).as_bytes(), &mut printed).unwrap();
    let expected: String = all.split_inclusive('\n').filter(|line| why || !line.starts_with('!')).collect();
    assert_eq!(String::from_utf8(printed).unwrap(), expected);
}

/// Tests each part of a talk, in which each NACK is told or not.
fn test_parts(talk: &str, all_told: bool) {
    for part in talk.split('#').skip(1) {
        let (sentence, part) = part.split_once('\n').unwrap();
        println!("{sentence}");
        let connecting = match &sentence[..1] {
            "U" => "U 7F  > 79  ",
            "C" => "C 079  > 079:79  ",
            _ => "",
        };
        let said = said(&format!("{connecting}{part}"));
        let mut talk = Talk::fresh(all_told);
        said.iter().for_each(|said| talk.take(said));
        talk.test();
        if !said.iter().any(|said| said.starts_with('!')) {
            test_desk(&said, false);
            if all_told {
                test_desk(&said, true);
            }
        }
    }
}

/// Each line of each talk is answered as it says, and changes what it says; `desk` prints each part in which nothing is set.
#[test]
fn each_talk_is_so() {
    TALKS.iter().for_each(|talk| test_parts(talk, false));
}

/// Each NACK has the reason and the place that the talk tells, and nothing else has any; `desk` tells them where it is asked to.
#[test]
fn each_nack_has_its_reason_and_place() {
    test_parts(REASONS, true);
    for reason in 1..=WORDS.len() {
        assert!(REASONS.contains(&format!("= nack {reason} ")), "{reason}");
    }
}
