//! What tests share: a board that is spoken to in hex, as document 01 writes its talks, and a program that is run.

use second::{take_can_frame, take_uart_byte, Outcome, Session, Store, ACCEPTED};
use std::io::{self, Read, Write};
use std::path::Path;
use std::process::{Command, Stdio};

/// What reply buffers hold before a call.
const UNTOUCHED: u8 = 0xC3;

/// What a sent frame holds behind its DLC bytes.
const PADDING: u8 = 0xEE;

/// A store, a session that every call hands on, the number of the last call, and the reason and place of each NACK.
pub struct Bench {
    pub store: Store,
    pub session: Session,
    pub number: u8,
    pub nacks: Vec<(u8, u16)>,
}

impl Bench {
    /// Fresh memories under any session.
    pub fn at(session: Session) -> Bench {
        Bench { store: Store::fresh(), session, number: ACCEPTED, nacks: vec![] }
    }

    /// The fresh board, connected on UART or on CAN.
    pub fn idle_on(carrier: u8) -> Bench {
        Bench::at(session_at(carrier, 0, if carrier == 1 { 2 } else { 1 }))
    }

    /// Gives UART bytes and joins the replies.
    pub fn uart(&mut self, bytes: &[u8]) -> String {
        let mut replies = Vec::new();
        for byte in bytes {
            let mut reply = [UNTOUCHED; 300];
            let outcome = take_uart_byte(self.session, *byte, &mut self.store.lend(), &mut reply);
            replies.extend_from_slice(self.replied(outcome, &reply));
        }
        spaced(&replies)
    }

    /// Gives one frame and joins the reply frames as ID:data.
    pub fn can(&mut self, id: u16, data: &[u8]) -> String {
        let mut reply = [UNTOUCHED; 400];
        let frame = frame(id, data);
        let outcome = take_can_frame(self.session, &frame, &mut self.store.lend(), &mut reply);
        let frames = self.replied(outcome, &reply).chunks(11).map(shown_frame);
        frames.collect::<Vec<String>>().join(" ")
    }

    /// Hands on a call's session and number, and gives its reply; the buffer behind it is untouched, only a reply that ends with NACK has a
    /// reason, and only a reason has a place.
    fn replied<'r>(&mut self, outcome: Outcome, reply: &'r [u8]) -> &'r [u8] {
        let (reply, rest) = reply.split_at(outcome.length);
        assert!(rest.iter().all(|byte| *byte == UNTOUCHED));
        if outcome.reason > 0 {
            assert!(reply == [0x1F] || reply.ends_with(&[1, 0x1F, 0, 0, 0, 0, 0, 0, 0]));
            self.nacks.push((outcome.reason, outcome.place));
        }
        assert!(outcome.reason > 0 || outcome.place == 0);
        (self.session, self.number) = (outcome.session, outcome.number);
        reply
    }
}

/// The 11 bytes of a frame, padded with bytes that must not be used.
pub fn frame(id: u16, data: &[u8]) -> [u8; 11] {
    let mut frame = [PADDING; 11];
    frame[..2].copy_from_slice(&id.to_be_bytes());
    frame[2] = data.len() as u8;
    frame[3..3 + data.len()].copy_from_slice(data);
    frame
}

/// A reply frame as ID:data, with its unused data bytes tested to be 0.
fn shown_frame(frame: &[u8]) -> String {
    let (data, rest) = frame[3..].split_at(usize::from(frame[2]));
    assert!(rest.iter().all(|byte| *byte == 0));
    let id = u16::from_be_bytes([frame[0], frame[1]]);
    format!("{id:03X}:{}", spaced(data).replace(' ', ""))
}

/// Bytes from hex pairs with a space between.
pub fn hex(text: &str) -> Vec<u8> {
    let pairs = text.split_whitespace();
    pairs.map(|pair| u8::from_str_radix(pair, 16).unwrap()).collect()
}

/// Hex pairs with a space between.
pub fn spaced(bytes: &[u8]) -> String {
    let pairs: Vec<String> = bytes.iter().map(|byte| format!("{byte:02X}")).collect();
    pairs.join(" ")
}

/// The bytes followed by the XOR of them all.
pub fn with_xor(bytes: &[u8]) -> Vec<u8> {
    let sum = bytes.iter().fold(0, |sum, byte| sum ^ byte);
    [bytes, &[sum]].concat()
}

/// Every first with every second.
pub fn pairs<A: Copy, B: Copy>(firsts: impl IntoIterator<Item = A>, seconds: impl Iterator<Item = B> + Clone) -> Vec<(A, B)> {
    let firsts = firsts.into_iter();
    firsts.flat_map(|first| seconds.clone().map(move |second| (first, second))).collect()
}

/// A session with nothing taken, nothing staged, address 0 and the fresh speed.
pub fn session_at(carrier: u8, step: u8, expected: usize) -> Session {
    Session { carrier, step, expected, ..Session::power_on() }
}

/// Runs a program in a folder, with words and an input: what it says on both streams, a character for each byte, and its exit status.
pub fn run(folder: &Path, program: &str, words: &str, input: &str) -> (String, String, i32) {
    let mut command = Command::new(program);
    let command = command.current_dir(folder).args(words.split_whitespace());
    let mut started = command.stdin(Stdio::piped()).stdout(Stdio::piped()).stderr(Stdio::piped()).spawn().unwrap();
    // A program that reads no input may have ended before it is written.
    let input: Vec<u8> = input.chars().map(|character| character as u8).collect();
    let _ = started.stdin.take().unwrap().write_all(&input);
    let output = started.wait_with_output().unwrap();
    let text = |bytes: Vec<u8>| bytes.into_iter().map(char::from).collect();
    (text(output.stdout), text(output.stderr), output.status.code().unwrap())
}

/// An input that hands out one part, or fails once, at each read.
pub struct Parts(pub Vec<io::Result<Vec<u8>>>);

impl Read for Parts {
    /// Hands out the next part.
    fn read(&mut self, buffer: &mut [u8]) -> io::Result<usize> {
        if self.0.is_empty() {
            return Ok(0);
        }
        let part = self.0.remove(0)?;
        buffer[..part.len()].copy_from_slice(&part);
        Ok(part.len())
    }
}

/// An output that keeps each write apart.
pub struct Writes(pub Vec<Vec<u8>>);

impl Write for Writes {
    /// Keeps a write.
    fn write(&mut self, bytes: &[u8]) -> io::Result<usize> {
        self.0.push(bytes.to_vec());
        Ok(bytes.len())
    }

    /// Does nothing, since nothing is held.
    fn flush(&mut self) -> io::Result<()> {
        Ok(())
    }
}
