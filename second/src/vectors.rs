//! Random vectors: sessions met on a walk or made by hand, with an input that fits, of which some are spoilt.

use crate::board::{self, ERASED};
use crate::calls::{Cause, CAN_REPLY_BYTES, UART_REPLY_BYTES};
use crate::dice::Dice;
use crate::edges;
use crate::ends::{End, Kind, Met};
use crate::frame::{frame_bytes, FRAME_HEAD_BYTES};
use crate::inputs::{Input, Known};
use crate::reached::Reached;
use crate::script::Walk;
use crate::session::{Session, Step, CARRIER_CAN, CARRIER_RUNNING, HIGHEST_SPEED};
use crate::vector::{
    Vector, ACCESS, BYTE, CARRIER, EXPECTED, FLASH, LONGEST_FRAME, REPLY, SECTOR_BITS, SPEED, SRAM, STAGED_FIRST, STAGED_RULE, STEP, TAKEN,
    USD,
};

/// How many vectors are tried, while there is something to reach, for the one that reaches the rarest.
const TRIES: usize = 48;

/// The vectors of a seed, so many.
pub fn random(seed: u64, count: usize) -> Vec<Vector> {
    let (dice, walk) = (Dice::seeded(seed), Walk::seeded(Kind::Mixed, seed));
    let mut maker = Maker { dice, walk, known: Known::default() };
    let table = Kind::Calls.table();
    let mut reached = Reached::nothing(Kind::Calls);
    let next = |_| {
        let rare = reached.wanted();
        let (tries, wanted) = if rare.is_empty() { (1, &table) } else { (TRIES, &rare) };
        reached.take_rarest((0..tries).map(|_| maker.vector(wanted)).map(|vector| (vec![vector.met()], vector)))
    };
    (0..count).filter_map(next).collect()
}

/// What vectors reach.
pub fn reached(vectors: &[Vector]) -> Reached {
    Reached::by(Kind::Calls, vectors.iter().map(Vector::met))
}

/// Makes vectors.
struct Maker {
    dice: Dice,
    walk: Walk,
    known: Known,
}

impl Maker {
    /// A vector that may meet one of these.
    fn vector(&mut self, wanted: &[Met]) -> Vector {
        let wanted = self.dice.one_of(wanted);
        self.known = Known { locked: true, recent: edges::address(&mut self.dice), wanted: wanted.command };
        let session = if self.dice.once_in(4) {
            self.walk.go_on();
            self.walk.board.session
        } else {
            self.session(wanted.at.unwrap_or(Step::None))
        };
        let mut vector = Vector::of(&session);
        self.lend_memories(&mut vector);
        self.lend_reply(&mut vector);
        self.input(&mut vector);
        let unsound = matches!(wanted.end, End::Cause(Cause::UnsoundSession(_)));
        if unsound || self.dice.once_in(12) {
            self.unsound(&mut vector);
        }
        vector
    }

    /// A sound session at a step, such as a talk reaches or not, of which often one input is still to come.
    fn session(&mut self, step: Step) -> Session {
        let dice = &mut self.dice;
        let mut session = Session::power_on();
        (session.carrier, session.step) = (step.carrier(), step.number());
        session.address = edges::any_address(dice);
        session.expected = step.expects().near(edges::count(session.address, dice));
        session.speed = dice.below(usize::from(HIGHEST_SPEED) + 1) as u8;
        let fitting = Input::fitting(step, &session, self.known, dice);
        session.staged.iter_mut().zip(fitting.data()).take(STAGED_FIRST).for_each(|(byte, item)| *byte = *item);
        let left = if session.carrier == CARRIER_CAN { dice.between(1, 9) } else { 1 };
        let any = dice.below(session.expected);
        session.taken = if dice.once_in(8) { any } else { session.expected.saturating_sub(left) };
        session
    }

    /// Lends memories, fresh or used, one of them now and then of a wrong length.
    fn lend_memories(&mut self, vector: &mut Vector) {
        let dice = &mut self.dice;
        let address = dice.one_of(&[vector.session().address, self.known.recent]);
        let any = [dice.byte(), dice.byte()];
        vector.put(STAGED_RULE, &dice.one_of(&[[0, 0], [0, 0], [31, 0], any]));
        let wrong = if dice.once_in(10) { dice.below(3) } else { 3 };
        let all_fresh = dice.once_in(3);
        let memories = [(FLASH, board::FLASH, ERASED), (SRAM, board::SRAM, 0), (USD, board::USD, ERASED)];
        for (index, (memory, region, fresh)) in memories.into_iter().enumerate() {
            let right = region.bytes;
            let wrong_length = dice.one_of(&[0, 1, right - 1, right - 1, right + 1, memory.1]);
            let length = if index == wrong { wrong_length } else { right };
            let any = [dice.byte(), dice.byte()];
            vector.put_buffer(memory, length, &if all_fresh { [fresh, 0] } else { any });
        }
        vector.put(ACCESS, &[edges::access(dice)]);
        vector.put(SECTOR_BITS, &edges::all_sector_bits(address, dice));
    }

    /// Lends a reply buffer, now and then too short.
    fn lend_reply(&mut self, vector: &mut Vector) {
        let dice = &mut self.dice;
        let short = dice.one_of(&[0, UART_REPLY_BYTES - 1, UART_REPLY_BYTES, CAN_REPLY_BYTES - 1]);
        let right = dice.one_of(&[CAN_REPLY_BYTES, CAN_REPLY_BYTES, REPLY.1]);
        let length = if dice.once_in(8) { short } else { right };
        vector.put_buffer(REPLY, length, &[dice.byte()]);
    }

    /// Gives what fits the session, or what comes on the other carrier, now and then spoilt.
    fn input(&mut self, vector: &mut Vector) {
        let dice = &mut self.dice;
        let session = vector.session();
        let fits = !dice.once_in(6);
        let mut input = match session.sound_step() {
            Ok(step @ (Step::Uart(_) | Step::Can(_))) if fits => Input::fitting(step, &session, self.known, dice),
            Ok(Step::Can(_)) => Input::connect_byte(dice),
            Ok(Step::None | Step::Running) if dice.coin() => Input::connect_byte(dice),
            _ => Input::connect_frame(dice),
        };
        let spoilt = dice.once_in(6);
        if spoilt && matches!(input, Input::Frame(..)) {
            input.spoil(dice);
        }
        match input {
            Input::Bytes(bytes) => vector.put(BYTE, &[if spoilt { dice.wrong(bytes[0]) } else { bytes[0] }]),
            Input::Frame(id, data) => self.frame(vector, id, &data),
        }
    }

    /// Gives a frame, now and then of a wrong length, or with a DLC that is none.
    fn frame(&mut self, vector: &mut Vector, id: u16, data: &[u8]) {
        let dice = &mut self.dice;
        let mut frame = frame_bytes(id, data).to_vec();
        let unused = FRAME_HEAD_BYTES + data.len()..;
        frame[unused].fill(dice.one_of(&[0, 0, 0xEE]));
        if dice.once_in(16) {
            let dlc = dice.between(9, 255) as u8;
            frame[FRAME_HEAD_BYTES - 1] = dice.one_of(&[9, 15, dlc]);
        }
        if dice.once_in(16) {
            frame.resize(dice.below(LONGEST_FRAME + 1), dice.byte());
        }
        vector.put_frame(&frame);
    }

    /// Puts one number of the session that is mostly wrong.
    fn unsound(&mut self, vector: &mut Vector) {
        let dice = &mut self.dice;
        let session = vector.session();
        let expected = session.expected as u64;
        let beyond = Step::named(session.carrier, session.step).map_or(0, |step| step.expects().beyond()) as u64;
        let huge = dice.one_of(&edges::HUGE);
        match dice.below(8) {
            0 => vector.put(STEP, &[dice.one_of(&[1, 4, 14, 0xFF])]),
            1 => vector.put(CARRIER, &[dice.one_of(&[CARRIER_RUNNING + 1, 0x80, 0xFF])]),
            2 => vector.put(SPEED, &[dice.one_of(&[HIGHEST_SPEED + 1, 0x80, 0xFF])]),
            3 | 4 => vector.put(EXPECTED, &dice.one_of(&[huge, expected + 1, expected - 1, beyond]).to_be_bytes()),
            5 => {
                vector.put(TAKEN, &huge.saturating_sub(1).to_be_bytes());
                vector.put(EXPECTED, &huge.to_be_bytes());
            }
            _ => vector.put(TAKEN, &dice.one_of(&[huge, expected, expected + 1]).to_be_bytes()),
        }
    }
}
