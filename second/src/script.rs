//! Random scripts for `desk`: a walk along a board of its own, whose every line fits where the board is, or nearly.

use crate::calls::{can_frame_in_place, uart_byte_in_place, CAN_REPLY_BYTES};
use crate::dice::Dice;
use crate::effects::protection_is_on;
use crate::ends::{Effect, End, Given, Kind, Met};
use crate::frame::frame_bytes;
use crate::hex::print_fields;
use crate::inputs::{Input, Known};
use crate::line::{Line, LINE_BYTES};
use crate::memories::Store;
use crate::reached::Reached;
use crate::session::{Session, Step, CARRIER_RUNNING};

/// How many lines are tried, while there is something to reach, for the one that reaches the rarest.
const TRIES: usize = 100;

/// Characters that lines have, and some that they have not; LF ends a line and is not among them.
const CHARACTERS: &[u8] = b"UCP 09AF/:@G`gau\t\r\0\x0B\x0C\x1F\x7F\x80\xD5\xFF";

/// A right line of each kind, with and without bytes.
const RIGHT_LINES: [&[u8]; 5] = [b"U 7F", b"U 00 FF", b"P", b"C 079", b"C 079 0A"];

/// A board that tells what it met.
#[derive(Clone, Debug)]
pub struct Board {
    pub session: Session,
    pub store: Store,
    recent: u32,
}

impl Board {
    /// The fresh board, just powered.
    pub fn fresh() -> Board {
        Board { session: Session::power_on(), store: Store::fresh(), recent: 0 }
    }

    /// Takes a line as `desk` does, and tells what the board met.
    pub fn hear(&mut self, text: &[u8]) -> Vec<Met> {
        let mut space = [0; LINE_BYTES];
        let address = self.session.address;
        self.recent = if address > 0 { address } else { self.recent };
        match Line::read(text, &mut space) {
            Some(Line::Uart(bytes)) => bytes.iter().map(|byte| self.hear_byte(*byte)).collect(),
            Some(Line::Can(id, data)) => vec![self.call(Given::Frame, id, &frame_bytes(id, data))],
            Some(Line::PowerOn) => {
                let met = vec![self.no_call(Given::Power, Effect::PoweredOn)];
                self.session = Session::power_on();
                met
            }
            None => vec![self.no_call(Given::NoLine, Effect::Unheard)],
        }
    }

    /// Takes a UART byte, and tells what the board met.
    pub fn hear_byte(&mut self, byte: u8) -> Met {
        self.call(Given::Byte, u16::from(byte), &[])
    }

    /// Tells whether a Jump was obeyed.
    pub fn is_running(&self) -> bool {
        self.session.carrier == CARRIER_RUNNING
    }

    /// Takes a byte, or the frame with an ID.
    fn call(&mut self, given: Given, first: u16, frame: &[u8]) -> Met {
        let before = self.session;
        let (memories, reply) = (&mut self.store.lend(), &mut [0; CAN_REPLY_BYTES]);
        let called = match given {
            Given::Frame => can_frame_in_place(&mut self.session, frame, memories, reply),
            _ => uart_byte_in_place(&mut self.session, first as u8, memories, reply),
        };
        Met::call(&before, given, first, &called)
    }

    /// What is met by what is no call.
    fn no_call(&self, given: Given, effect: Effect) -> Met {
        Met { given, at: self.session.sound_step().ok(), command: None, end: End::Did(effect) }
    }
}

/// A host, which knows what fits where a board is.
#[derive(Clone, Debug)]
struct Host {
    kind: Kind,
    dice: Dice,
    wanted: Option<u16>,
}

impl Host {
    /// Lines from where a board is to where no command is under way, or to a break on the way there, and what they met.
    fn talk(&mut self, mut board: Board) -> (Vec<Met>, (Vec<Vec<u8>>, Board)) {
        let mut lines = Vec::new();
        let mut met = Vec::new();
        loop {
            let line = self.line(&board);
            met.extend(board.hear(&line));
            lines.push(line);
            let between = board.session.is_between_commands() && self.dice.coin();
            if between || self.dice.once_in(5 + board.session.left()) {
                return (met, (lines, board));
            }
        }
    }

    /// A line for where a board is.
    fn line(&mut self, board: &Board) -> Vec<u8> {
        let step = board.session.sound_step().ok();
        let lines = self.kind != Kind::Raw;
        match (self.dice.below(48 + board.session.left()), step) {
            (0, _) | (8..30, Some(Step::Running)) if lines => b"P".to_vec(),
            (1..5, _) if lines => self.no_line(),
            (5..8, Some(Step::Uart(_))) if self.kind == Kind::Mixed => self.stray(true),
            (5..8, Some(Step::Can(_))) => self.stray(false),
            (_, Some(step @ (Step::Uart(_) | Step::Can(_)))) => self.fitting(board, step),
            _ => {
                let on_can = self.kind == Kind::Mixed && self.dice.coin();
                self.stray(on_can)
            }
        }
    }

    /// A line that continues what a board is at, now and then spoilt.
    fn fitting(&mut self, board: &Board, step: Step) -> Vec<u8> {
        let dice = &mut self.dice;
        let spoilt = dice.once_in(8 + board.session.left() / 2);
        let known = Known { locked: protection_is_on(&board.store.usd), recent: board.recent, wanted: self.wanted };
        let mut input = Input::fitting(step, &board.session, known, dice);
        if spoilt {
            input.spoil(dice);
        }
        line(&input)
    }

    /// A line on a carrier that would connect it, or nearly, wherever the board is.
    fn stray(&mut self, on_can: bool) -> Vec<u8> {
        let frame = Input::connect_frame(&mut self.dice);
        line(&if on_can { frame } else { Input::connect_byte(&mut self.dice) })
    }

    /// A line that is no line: a right one, edited until it is none.
    fn no_line(&mut self) -> Vec<u8> {
        let mut text = match self.dice.below(3) {
            0 => b"P".to_vec(),
            1 => line(&Input::Bytes(self.dice.bytes(3))),
            _ => self.stray(self.kind == Kind::Mixed),
        };
        while Line::read(&text, &mut [0; LINE_BYTES]).is_some() {
            self.edit(&mut text);
        }
        text
    }

    /// Removes, inserts or changes a character, or makes digits small, or a line too long or empty.
    fn edit(&mut self, text: &mut Vec<u8>) {
        let dice = &mut self.dice;
        let place = dice.below(text.len() + 1);
        let character = dice.one_of(CHARACTERS);
        match dice.below(9) {
            0 if place < text.len() => {
                text.remove(place);
            }
            1 => text.iter_mut().skip(1).for_each(|character| character.make_ascii_lowercase()),
            2 => text.extend(b" FF".repeat(dice.one_of(&[1, 8, 9]))),
            6 => *text = line(&Input::Bytes(vec![character; LINE_BYTES + dice.below(3)])),
            3 => text.truncate(place),
            4 => text.push(character),
            5 if place < text.len() => text[place] = character,
            _ => text.insert(place, character),
        }
    }
}

/// A walk along a board, and the lines that led it there.
#[derive(Clone, Debug)]
pub struct Walk {
    pub board: Board,
    host: Host,
    reached: Reached,
    lines: Vec<Vec<u8>>,
    open: Vec<u8>,
}

impl Walk {
    /// A walk that begins with the fresh board.
    pub fn seeded(kind: Kind, seed: u64) -> Walk {
        let host = Host { kind, dice: Dice::seeded(seed), wanted: None };
        Walk { board: Board::fresh(), host, reached: Reached::nothing(kind), lines: Vec::new(), open: Vec::new() }
    }

    /// Goes on by a talk, and writes its lines.
    pub fn go_on(&mut self) {
        self.next_talk().into_iter().for_each(|line| self.write(line));
    }

    /// Goes on by the talk, of some that are tried, that meets what was met most rarely; raw bytes never lead to a board that runs.
    pub fn next_talk(&mut self) -> Vec<Vec<u8>> {
        let may_run = self.host.kind != Kind::Raw;
        let rare = self.reached.wanted();
        let natural = rare.is_empty() || self.host.dice.once_in(6);
        let tries = if natural { 1 } else { TRIES };
        let tried = (0..tries).map(|_| {
            self.host.wanted = if natural { None } else { self.host.dice.one_of(&rare).to_command() };
            self.host.talk(self.board.clone())
        });
        let allowed = tried.filter(|(_, (_, board))| may_run || !board.is_running());
        let Some((lines, board)) = self.reached.take_rarest(allowed) else {
            return Vec::new();
        };
        self.board = board;
        lines
    }

    /// Writes a line; bytes may stay open for those of the next line, and are cut anywhere.
    fn write(&mut self, text: Vec<u8>) {
        let dice = &mut self.host.dice;
        let mut space = [0; LINE_BYTES];
        let bytes = match Line::read(&text, &mut space) {
            Some(Line::Uart(bytes)) => Some(bytes),
            _ => None,
        };
        self.open.extend(bytes.unwrap_or_default());
        let stays = bytes.is_some() && !dice.once_in(4);
        let may_stay = if stays { LINE_BYTES } else { 0 };
        while self.open.len() > may_stay {
            let most = self.open.len().min(LINE_BYTES);
            let some = dice.between(1, most);
            let rest = self.open.split_off(dice.one_of(&[most, most, some]));
            let bytes = std::mem::replace(&mut self.open, rest);
            self.lines.push(line(&Input::Bytes(bytes)));
        }
        if bytes.is_none() {
            self.lines.push(text);
        }
    }
}

/// The `U` line of bytes or the `C` line of a frame.
fn line(input: &Input) -> Vec<u8> {
    let mut text = match input {
        Input::Bytes(_) => b"U".to_vec(),
        Input::Frame(id, _) => format!("C {id:03X}").into_bytes(),
    };
    print_fields(input.data(), &mut text);
    text
}

/// Right lines of each kind, of which each character is replaced by each one but LF; the last line is not ended.
pub fn characters() -> Vec<u8> {
    let replaced = |right: &'static [u8], place: usize| {
        let every = (u8::MIN..=u8::MAX).filter(|character| *character != b'\n');
        every.map(move |character| [&right[..place], &[character], &right[place + 1..]].concat())
    };
    let lines: Vec<Vec<u8>> =
        RIGHT_LINES.into_iter().flat_map(|right| (0..right.len()).flat_map(move |place| replaced(right, place))).collect();
    lines.join(&b'\n')
}

/// The lines of a random script, so many.
pub fn random(kind: Kind, seed: u64, count: usize) -> Vec<Vec<u8>> {
    let mut walk = Walk::seeded(kind, seed);
    while walk.lines.len() < count {
        walk.go_on();
    }
    walk.lines.truncate(count);
    walk.lines
}

/// What the lines of a script reach, heard by a fresh board.
pub fn reached<'l>(kind: Kind, lines: impl Iterator<Item = &'l [u8]>) -> Reached {
    let mut board = Board::fresh();
    Reached::by(kind, lines.flat_map(|line| board.hear(line)))
}
