//! Inputs that are right for where a board is, with values at the edges, and how they are spoilt.

use crate::board::{ACCESS_BYTE, SECTOR_BITS_BYTES, SECTOR_BITS_FIRST, USD};
use crate::can::{needed_dlc, running_id, CONNECT_ID};
use crate::commands::ACCESS_UNPROTECT;
use crate::dice::Dice;
use crate::edges;
use crate::ends::ANOTHER;
use crate::frame::FRAME_DATA_BYTES;
use crate::session::{CanStep, Session, Step};
use crate::steps::{self, CommandRow, Row};
use crate::uart::{xor, CONNECT_BYTE};

/// What a host knows of a board beside its session.
#[derive(Clone, Copy, Debug, Default)]
pub struct Known {
    pub locked: bool,
    /// An address that was used last.
    pub recent: u32,
    pub wanted: Option<u16>,
}

impl Known {
    /// An address of the table, or again the one used last.
    fn address(self, dice: &mut Dice) -> u32 {
        if dice.once_in(3) {
            self.recent
        } else {
            edges::address(dice)
        }
    }

    /// A command; a locked board is unlocked before long.
    fn command(self, on_can: bool, dice: &mut Dice) -> u16 {
        let any = edges::command(on_can, dice);
        match self.wanted {
            _ if self.locked && dice.once_in(5) => ACCESS_UNPROTECT,
            Some(wanted) if wanted != ANOTHER => wanted,
            _ => any,
        }
    }
}

/// A part of what a host sends; counts are sent less one, and data, two-byte numbers and indexes are X each.
#[derive(Clone, Copy, Debug)]
pub enum Item {
    Command,
    Address,
    Count,
    SectorCount,
    Selector,
    Data,
    Numbers,
    Indexes,
    /// A speed, and a byte that is free.
    Speed,
    /// Data that are not used.
    Any,
}

impl Item {
    /// The bytes of the item, at an address and for X.
    fn bytes(self, address: u32, x: usize, known: Known, dice: &mut Dice) -> Vec<u8> {
        match self {
            Item::Command => vec![known.command(false, dice) as u8],
            Item::Address => known.address(dice).to_be_bytes().to_vec(),
            Item::Count => vec![less_one(edges::count(address, dice)) as u8],
            Item::SectorCount => less_one(edges::sector_count(address, dice)).to_be_bytes().to_vec(),
            Item::Selector => edges::selector(dice).to_be_bytes().to_vec(),
            Item::Data => data(address, x, dice),
            Item::Numbers => edges::sectors(x, known.recent, dice).into_iter().flat_map(u16::to_be_bytes).collect(),
            Item::Indexes => edges::sectors(x, known.recent, dice).into_iter().map(|sector| sector as u8).collect(),
            Item::Speed => vec![dice.one_of(&edges::SPEEDS), dice.byte()],
            Item::Any => any_data(dice),
        }
    }
}

/// How what is sent at a step is checked.
#[derive(Clone, Copy, Debug)]
pub enum Check {
    None,
    /// By the complement of a command, in the row of each command.
    Command,
    /// By the complement of a byte.
    Complement,
    /// By the XOR of all items and of X less one, which is 0 for an address.
    Xor,
    /// By the complement of the XOR of all items.
    Inverse,
    /// By the XOR of a special erase selector, which is the address.
    Special,
    /// By the ID and the DLC of a frame that is gathered.
    Frame,
}

impl Check {
    /// The byte behind the items, at an address and for X.
    fn byte(self, address: u32, x: usize, items: &[u8]) -> Option<u8> {
        match self {
            Check::None | Check::Frame => None,
            Check::Command | Check::Complement | Check::Inverse => Some(!xor(items)),
            Check::Xor => Some(xor(items) ^ less_one(x) as u8),
            Check::Special => Some(xor(&address.to_be_bytes()[2..])),
        }
    }
}

/// A count as it is sent.
fn less_one(count: usize) -> u16 {
    (count - 1) as u16
}

/// What a host sends.
#[derive(Clone, Debug)]
pub enum Input {
    Bytes(Vec<u8>),
    /// An ID and the data of a frame.
    Frame(u16, Vec<u8>),
}

impl Input {
    /// The bytes that end a step, or the frame that a CAN step takes next; the step may have taken some.
    pub fn fitting(step: Step, session: &Session, known: Known, dice: &mut Dice) -> Input {
        let Row(sends, check, ..) = steps::row(step);
        let (address, x) = (session.address, step.expects().count_of(session.expected));
        let items: Vec<u8> = sends.iter().flat_map(|item| item.bytes(address, x, known, dice)).collect();
        let left = items.into_iter().skip(session.taken);
        let Step::Can(step) = step else {
            let mut all = session.staged[..session.taken].to_vec();
            all.extend(left);
            all.extend(check.byte(address, x, &all));
            return Input::Bytes(all.split_off(session.taken));
        };
        let Some(id) = running_id(step) else {
            let id = known.command(true, dice);
            return Input::Frame(id, command_data(id, known, dice));
        };
        let most = dice.one_of(&[FRAME_DATA_BYTES, FRAME_DATA_BYTES, FRAME_DATA_BYTES, 3]);
        let mut data: Vec<u8> = left.take(most).collect();
        if step == CanStep::WriteData && dice.once_in(4) {
            data.resize(FRAME_DATA_BYTES, 0);
        }
        Input::Frame(id, data)
    }

    /// The byte that connects, or now and then another.
    pub fn connect_byte(dice: &mut Dice) -> Input {
        let other = dice.byte();
        Input::Bytes(vec![dice.one_of(&[CONNECT_BYTE, CONNECT_BYTE, CONNECT_BYTE, other])])
    }

    /// The frame that connects, now and then with another ID.
    pub fn connect_frame(dice: &mut Dice) -> Input {
        let other = other_id(CONNECT_ID, dice);
        let id = dice.one_of(&[CONNECT_ID, CONNECT_ID, other, 0x800 | other]);
        Input::Frame(id, any_data(dice))
    }

    /// The bytes, or the data of the frame.
    pub fn data(&self) -> &[u8] {
        match self {
            Input::Bytes(data) | Input::Frame(_, data) => data,
        }
    }

    /// Spoils one thing, now and then two.
    pub fn spoil(&mut self, dice: &mut Dice) {
        for _ in 0..dice.one_of(&[1, 1, 2]) {
            match self {
                Input::Bytes(bytes) => spoil_bytes(bytes, dice),
                Input::Frame(id, data) => spoil_frame(id, data, dice),
            }
        }
    }
}

/// The data of a command frame, for which an address and a count are chosen first.
fn command_data(id: u16, known: Known, dice: &mut Dice) -> Vec<u8> {
    let address = known.address(dice);
    let count = less_one(edges::count(address, dice)) as u8;
    let bytes = |item: &Item| match item {
        Item::Address => address.to_be_bytes().to_vec(),
        Item::Count => vec![count],
        other => other.bytes(address, 1, known, dice),
    };
    let CommandRow(sends, ..) = steps::command_row(id);
    let data: Vec<u8> = sends.iter().flat_map(bytes).collect();
    debug_assert!(needed_dlc(id).is_none_or(|dlc| dlc == data.len()));
    data
}

/// Data to write; where they become USD, those that rules look at are of the table.
fn data(address: u32, x: usize, dice: &mut Dice) -> Vec<u8> {
    let mut data = dice.bytes(x);
    if address == USD.first && x == USD.bytes {
        data[ACCESS_BYTE] = edges::access(dice);
        let bits = edges::all_sector_bits(address, dice);
        data[SECTOR_BITS_FIRST..][..SECTOR_BITS_BYTES].copy_from_slice(&bits);
    }
    data
}

/// The data of a frame of any length.
fn any_data(dice: &mut Dice) -> Vec<u8> {
    let length = dice.below(FRAME_DATA_BYTES + 1);
    dice.bytes(length)
}

/// Another ID: near, of another command, or none.
fn other_id(id: u16, dice: &mut Dice) -> u16 {
    let near = id ^ (1 << dice.below(11));
    let command = edges::command(true, dice);
    dice.one_of(&[near, near, command, CONNECT_ID, 0x7FF, 0x800, 0x800 | id])
}

/// Flips a bit or all bits of a byte, or drops, inserts or repeats one, often the last; one at least stays.
fn spoil_bytes(bytes: &mut Vec<u8>, dice: &mut Dice) {
    let any = dice.below(bytes.len());
    let place = dice.one_of(&[bytes.len() - 1, any]);
    match dice.below(6) {
        0 if bytes.len() == 1 => bytes[0] = 0,
        0 => {
            bytes.remove(place);
        }
        1 => bytes.insert(place, dice.byte()),
        2 => bytes.insert(place, bytes[place]),
        _ => bytes[place] = dice.wrong(bytes[place]),
    }
}

/// Gives a frame another ID, cuts, empties or pads it, by one byte or by more, or flips a bit.
fn spoil_frame(id: &mut u16, data: &mut Vec<u8>, dice: &mut Dice) {
    let longer = dice.between(data.len(), FRAME_DATA_BYTES);
    let one_more = FRAME_DATA_BYTES.min(data.len() + 1);
    match dice.below(8) {
        0 | 1 => *id = other_id(*id, dice),
        2 => data.truncate(dice.one_of(&[0, 0, 1, 2, 3, 4])),
        3 | 4 => data.truncate(data.len().saturating_sub(1)),
        5 => data.resize(one_more, dice.byte()),
        6 => data.resize(longer, dice.byte()),
        _ => {
            if let Some(byte) = data.last_mut() {
                *byte = dice.wrong(*byte);
            }
        }
    }
}
