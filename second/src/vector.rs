//! A vector: one call on a session and buffers of its own, its line, and the line of the answer to it.

use crate::board::{ACCESS_BYTE, SECTOR_BITS_BYTES, SECTOR_BITS_FIRST};
use crate::calls::{can_frame_in_place, uart_byte_in_place, Cause, Outcome, Taken};
use crate::ends::{Given, Met};
use crate::frame::FRAME_HEAD_BYTES;
use crate::hex::{print_fields, read_fields};
use crate::memories::Store;
use crate::session::{Session, STAGED_BYTES};
use std::array::from_fn;
use std::io::{self, BufRead, ErrorKind, Write};

/// The bytes of a vector's line.
pub const VECTOR_BYTES: usize = 83;

/// The staged bytes that a vector says one by one.
pub const STAGED_FIRST: usize = 16;

/// The most bytes that are lent as a frame, right or wrong.
pub const LONGEST_FRAME: usize = 12;

/// The greatest prime below 65,536, by which both sums of Adler-32 are reduced.
const MODULUS: u32 = 65_521;

/// Where in a line the length of a buffer stands, behind it its seed and stride, and the most it may be.
#[derive(Clone, Copy, Debug)]
pub struct Buffer(usize, pub usize);

pub const FLASH: Buffer = Buffer(41, 40_000);
pub const SRAM: Buffer = Buffer(47, 10_000);
pub const USD: Buffer = Buffer(53, 80);
/// The reply buffer, which has no stride.
pub const REPLY: Buffer = Buffer(64, 400);

/// Where in a line the bytes of a session stand.
pub const CARRIER: usize = 0;
pub const STEP: usize = 1;
pub const TAKEN: usize = 2;
pub const EXPECTED: usize = 10;
const ADDRESS: usize = 18;
pub const SPEED: usize = 22;
pub const STAGED_RULE: usize = 23;
const STAGED: usize = 25;

/// Where in a line USD byte 0, USD bytes 8 to 11, the UART byte and the frame with its DLC stand.
pub const ACCESS: usize = 59;
pub const SECTOR_BITS: usize = 60;
pub const BYTE: usize = 69;
const FRAME_LENGTH: usize = 70;
pub const FRAME: usize = 71;
pub const DLC: usize = FRAME + FRAME_HEAD_BYTES - 1;

/// One call, as its line says it.
#[derive(Clone, Debug, PartialEq, Eq)]
pub struct Vector {
    given: Given,
    bytes: [u8; VECTOR_BYTES],
}

/// What a call gave, and all that it left.
#[derive(Clone, Debug, PartialEq, Eq)]
pub struct After {
    /// What the call gave.
    pub called: Result<Taken, Cause>,
    pub session: Session,
    pub store: Store,
    pub reply: Vec<u8>,
}

impl Vector {
    /// The call of a byte on a session, of which only the first staged bytes are kept; all else is 0.
    pub fn of(session: &Session) -> Vector {
        let mut vector = Vector { given: Given::Byte, bytes: [0; VECTOR_BYTES] };
        vector.put(CARRIER, &[session.carrier, session.step]);
        vector.put(TAKEN, &(session.taken as u64).to_be_bytes());
        vector.put(EXPECTED, &(session.expected as u64).to_be_bytes());
        vector.put(ADDRESS, &session.address.to_be_bytes());
        vector.put(SPEED, &[session.speed]);
        vector.put(STAGED, &session.staged[..STAGED_FIRST]);
        vector
    }

    /// Puts bytes at a place.
    pub fn put(&mut self, place: usize, bytes: &[u8]) {
        self.bytes[place..][..bytes.len()].copy_from_slice(bytes);
    }

    /// The same vector with other bytes at a place.
    pub fn with(&self, place: usize, bytes: &[u8]) -> Vector {
        let mut other = self.clone();
        other.put(place, bytes);
        other
    }

    /// The byte at a place.
    pub fn byte_at(&self, place: usize) -> u8 {
        self.bytes[place]
    }

    /// Puts the length of a buffer, its seed and, but for the reply buffer, its stride.
    pub fn put_buffer(&mut self, buffer: Buffer, length: usize, rule: &[u8]) {
        self.put(buffer.0, &(length as u32).to_be_bytes());
        self.put(buffer.0 + 4, rule);
    }

    /// Puts a frame, at most 12 bytes, in the place of the byte.
    pub fn put_frame(&mut self, frame: &[u8]) {
        self.given = Given::Frame;
        self.put(BYTE, &[0, frame.len() as u8]);
        self.put(FRAME, frame);
    }

    /// The number that stands in so many bytes at a place.
    fn number(&self, place: usize, bytes: usize) -> u64 {
        let bytes = self.bytes[place..][..bytes].iter();
        bytes.fold(0, |number, byte| number << 8 | u64::from(*byte))
    }

    /// The length of a buffer.
    fn length(&self, buffer: Buffer) -> usize {
        self.number(buffer.0, 4) as usize
    }

    /// The byte at an index by the seed and stride at a place.
    fn by_rule(&self, place: usize, index: usize) -> u8 {
        self.bytes[place].wrapping_add(self.bytes[place + 1].wrapping_mul(index as u8))
    }

    /// The bytes of a memory, each by seed and stride.
    fn memory(&self, memory: Buffer) -> Vec<u8> {
        (0..self.length(memory)).map(|index| self.by_rule(memory.0 + 4, index)).collect()
    }

    /// The session that the vector says.
    pub fn session(&self) -> Session {
        let mut staged: [u8; STAGED_BYTES] = from_fn(|index| self.by_rule(STAGED_RULE, index));
        staged[..STAGED_FIRST].copy_from_slice(&self.bytes[STAGED..][..STAGED_FIRST]);
        Session {
            carrier: self.bytes[CARRIER],
            step: self.bytes[STEP],
            taken: self.number(TAKEN, 8) as usize,
            expected: self.number(EXPECTED, 8) as usize,
            address: self.number(ADDRESS, 4) as u32,
            speed: self.bytes[SPEED],
            staged,
        }
    }

    /// A fresh copy of the memories that the vector says.
    pub fn store(&self) -> Store {
        let mut usd = self.memory(USD);
        let bits = (SECTOR_BITS_FIRST..).zip(&self.bytes[SECTOR_BITS..][..SECTOR_BITS_BYTES]);
        for (index, value) in bits.chain([(ACCESS_BYTE, &self.bytes[ACCESS])]) {
            if let Some(byte) = usd.get_mut(index) {
                *byte = *value;
            }
        }
        Store { flash: self.memory(FLASH), sram: self.memory(SRAM), usd }
    }

    /// A fresh copy of the reply buffer that the vector says.
    pub fn reply(&self) -> Vec<u8> {
        vec![self.bytes[REPLY.0 + 4]; self.length(REPLY)]
    }

    /// The slice of the frame that the call takes, if it takes one.
    pub fn frame(&self) -> Option<&[u8]> {
        (self.given == Given::Frame).then(|| &self.bytes[FRAME..][..usize::from(self.bytes[FRAME_LENGTH])])
    }

    /// Makes the call on fresh copies.
    pub fn call(&self) -> After {
        let (mut session, mut store, mut reply) = (self.session(), self.store(), self.reply());
        let memories = &mut store.lend();
        let called = match self.frame() {
            Some(frame) => can_frame_in_place(&mut session, frame, memories, &mut reply),
            None => uart_byte_in_place(&mut session, self.bytes[BYTE], memories, &mut reply),
        };
        After { called, session, store, reply }
    }

    /// What the call meets.
    pub fn met(&self) -> Met {
        let id = self.number(FRAME, 2) as u16;
        Met::call(&self.session(), self.given, id, &self.call().called)
    }

    /// The vector's line, ended by LF.
    pub fn line(&self) -> Vec<u8> {
        let letter = if self.given == Given::Frame { b'F' } else { b'B' };
        line(letter, &self.bytes)
    }

    /// Reads a vector's line without its LF; any other line gives nothing.
    pub fn read(text: &[u8]) -> Option<Vector> {
        let (letter, fields) = text.split_first()?;
        let given = match letter {
            b'B' => Given::Byte,
            b'F' => Given::Frame,
            _ => return None,
        };
        let mut bytes = [0; VECTOR_BYTES];
        let whole = read_fields(fields, &mut bytes)?.len() == VECTOR_BYTES;
        let vector = Vector { given, bytes };
        (whole && vector.is_in_order()).then_some(vector)
    }

    /// Tells whether no buffer is over its most, and what the other input would use is 0.
    pub fn is_in_order(&self) -> bool {
        let length = usize::from(self.bytes[FRAME_LENGTH]);
        let no_other = if self.given == Given::Frame { self.bytes[BYTE] == 0 } else { length == 0 };
        no_other
            && length <= LONGEST_FRAME
            && self.bytes[FRAME + length..].iter().all(|byte| *byte == 0)
            && [FLASH, SRAM, USD, REPLY].iter().all(|buffer| self.length(*buffer) <= buffer.1)
    }

    /// The line of the answer to the vector, ended by LF.
    pub fn answer(&self) -> Vec<u8> {
        let After { called, session, store, reply } = self.call();
        let Outcome { number, reason, place, length, session } = Outcome::of(called, session);
        let mut bytes = vec![number, reason];
        bytes.extend(place.to_be_bytes());
        bytes.extend((length as u64).to_be_bytes());
        bytes.extend(&reply[..length]);
        bytes.extend(&Vector::of(&session).bytes[CARRIER..STAGED_RULE]);
        for left in [&session.staged, &*store.flash, &store.sram, &store.usd, &reply] {
            bytes.extend(adler32(left).to_be_bytes());
        }
        line(b'>', &bytes)
    }
}

/// A line of a letter and bytes, ended by LF.
fn line(letter: u8, bytes: &[u8]) -> Vec<u8> {
    let mut text = vec![letter];
    print_fields(bytes, &mut text);
    text.push(b'\n');
    text
}

/// The Adler-32 of the bytes: the sum of all, from 1 on, and above it the sum of these sums.
pub fn adler32(bytes: &[u8]) -> u32 {
    let (sum, sums) = bytes.iter().fold((1, 0), |(sum, sums), byte| {
        let sum = (sum + u32::from(*byte)) % MODULUS;
        (sum, (sums + sum) % MODULUS)
    });
    sums << 16 | sum
}

/// Gives each vector line of the input to `take`; the first line that is none ends with an error.
pub fn each(input: &mut impl BufRead, mut take: impl FnMut(&Vector) -> io::Result<()>) -> io::Result<()> {
    let mut line = Vec::new();
    for number in 1_u64.. {
        line.clear();
        if input.read_until(b'\n', &mut line)? == 0 {
            break;
        }
        let vector = line.strip_suffix(b"\n").and_then(Vector::read);
        let none = || io::Error::new(ErrorKind::InvalidData, format!("line {number} is no vector"));
        take(&vector.ok_or_else(none)?)?;
    }
    Ok(())
}

/// Answers each vector line of the input.
pub fn run(input: &mut impl BufRead, output: &mut impl Write) -> io::Result<()> {
    each(input, |vector| output.write_all(&vector.answer()))?;
    output.flush()
}
