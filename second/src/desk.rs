//! The program `desk`: it takes lines in chunks, talks to one board and prints the answers, and why each NACK fell if that is asked.

use crate::calls::{can_frame_in_place, uart_byte_in_place, Cause, Taken, CAN_REPLY_BYTES};
use crate::frame::{frame_bytes, FRAME_BYTES, FRAME_HEAD_BYTES};
use crate::hex::{print_byte, print_digit, print_fields};
use crate::line::{Line, LINE_BYTES, LINE_CHARACTERS};
use crate::memories::Store;
use crate::refused::Reason;
use crate::session::Session;
use crate::stream::Answers;

/// The character that ends a line.
const LF: u8 = b'\n';

/// A board on the desk, with the line that is still coming in.
#[derive(Debug)]
pub struct Desk {
    store: Store,
    session: Session,
    reply: [u8; CAN_REPLY_BYTES],
    held: Vec<u8>,
    lines: u64,
    /// Tells whether the reasons of NACKs are printed, and those of the line that is answered, each with its place.
    why: bool,
    nacks: Vec<(Reason, u16)>,
}

impl Desk {
    /// A board with these memories, just powered, and no line read yet.
    pub fn with(store: Store, why: bool) -> Desk {
        Desk {
            store,
            session: Session::power_on(),
            reply: [0; CAN_REPLY_BYTES],
            held: Vec::with_capacity(LINE_CHARACTERS + 1),
            lines: 0,
            why,
            nacks: Vec::new(),
        }
    }

    /// Holds part of an unended line, at most one character more than a line may have.
    fn hold(&mut self, part: &[u8]) {
        let room = (LINE_CHARACTERS + 1).saturating_sub(self.held.len());
        self.held.extend_from_slice(&part[..part.len().min(room)]);
    }

    /// Answers the line that ends with these characters.
    fn end_line(&mut self, characters: &[u8], answers: &mut Vec<u8>) {
        if self.held.is_empty() {
            return self.answer(characters, answers);
        }
        self.hold(characters);
        let mut held = std::mem::take(&mut self.held);
        self.answer(&held, answers);
        held.clear();
        self.held = held;
    }

    /// Answers one line.
    fn answer(&mut self, text: &[u8], answers: &mut Vec<u8>) {
        self.lines += 1;
        let mut space = [0; LINE_BYTES];
        let Some(line) = Line::read(text, &mut space) else {
            answers.extend_from_slice(format!("? {}\n", self.lines).as_bytes());
            return;
        };
        answers.push(b'>');
        match line {
            Line::Uart(bytes) => self.talk_uart(bytes, answers),
            Line::Can(id, data) => self.talk_can(id, data, answers),
            Line::PowerOn => self.session = Session::power_on(),
        }
        answers.push(LF);
        self.tell_why(answers);
    }

    /// Prints the reason and the place of each NACK of a line, a line each, if that is asked, and forgets them.
    fn tell_why(&mut self, answers: &mut Vec<u8>) {
        for (reason, place) in self.nacks.drain(..).filter(|_| self.why) {
            answers.extend_from_slice(format!("! {} {place} {}\n", reason.number(), reason.words()).as_bytes());
        }
    }

    /// Keeps why a call's NACK fell, and gives the length of its reply.
    fn replied(&mut self, called: Result<Taken, Cause>) -> usize {
        let Ok(taken) = called else {
            return 0;
        };
        self.nacks.extend(taken.reason().map(|reason| (reason, taken.place)));
        taken.length
    }

    /// Gives the board UART bytes and prints the joined replies; a refused call adds nothing.
    fn talk_uart(&mut self, bytes: &[u8], answers: &mut Vec<u8>) {
        for byte in bytes {
            let called = uart_byte_in_place(&mut self.session, *byte, &mut self.store.lend(), &mut self.reply);
            let length = self.replied(called);
            print_fields(&self.reply[..length], answers);
        }
    }

    /// Gives the board one CAN frame and prints the reply frames; a refused call adds nothing.
    fn talk_can(&mut self, id: u16, data: &[u8], answers: &mut Vec<u8>) {
        let frame = frame_bytes(id, data);
        let called = can_frame_in_place(&mut self.session, &frame, &mut self.store.lend(), &mut self.reply);
        let length = self.replied(called);
        for replied in self.reply[..length].chunks_exact(FRAME_BYTES) {
            print_frame(replied, answers);
        }
    }
}

impl Answers for Desk {
    /// Takes a chunk of input and adds the answer to each line that ends in it.
    fn take(&mut self, chunk: &[u8], answers: &mut Vec<u8>) {
        let mut rest = chunk;
        while let Some(end) = rest.iter().position(|character| *character == LF) {
            self.end_line(&rest[..end], answers);
            rest = &rest[end + 1..];
        }
        self.hold(rest);
    }

    /// Takes the end of the input, which ends a last line that lacks its LF.
    fn finish(&mut self, answers: &mut Vec<u8>) {
        if !self.held.is_empty() {
            self.end_line(&[], answers);
        }
    }

    /// The memories as they are.
    fn store(&self) -> &Store {
        &self.store
    }
}

/// Prints a frame after a space as ID:data, the ID three digits and the DLC bytes unspaced.
fn print_frame(frame: &[u8], answers: &mut Vec<u8>) {
    let (head, data) = frame.split_at(FRAME_HEAD_BYTES);
    answers.push(b' ');
    print_digit(head[0], answers);
    print_byte(head[1], answers);
    answers.push(b':');
    for byte in data.iter().take(usize::from(head[2])) {
        print_byte(*byte, answers);
    }
}
