//! The calls and the five causes for which they are refused.

use crate::can;
use crate::ends::Effect;
use crate::frame::{Frame, FRAME_BYTES};
use crate::memories::Memories;
use crate::refused::{Reason, Refusal};
use crate::reply::Reply;
use crate::session::{Session, Step, Unsound};
use crate::uart;

pub const ACCEPTED: u8 = 0;

/// The least length of a UART reply buffer: ACK and 256 bytes read.
pub const UART_REPLY_BYTES: usize = 257;

/// The least length of a CAN reply buffer, 363: a frame of ACK and 32 frames of eight read.
pub const CAN_REPLY_BYTES: usize = 33 * FRAME_BYTES;

/// Why a call is refused, in the order in which the causes are tested.
#[derive(Clone, Copy, Debug, PartialEq, Eq, PartialOrd, Ord)]
pub enum Cause {
    /// Flash, SRAM or USD has a wrong length.
    MemoryLength,
    ReplyLength,
    /// The frame is not 11 bytes, its ID is over 0x7FF or its DLC over 8.
    BadFrame,
    UnsoundSession(Unsound),
    Running,
}

impl Cause {
    /// The cause's number.
    pub fn number(self) -> u8 {
        match self {
            Cause::MemoryLength => 1,
            Cause::ReplyLength => 2,
            Cause::BadFrame => 3,
            Cause::UnsoundSession(_) => 4,
            Cause::Running => 5,
        }
    }
}

/// What an accepted call answered.
#[derive(Clone, Copy, Debug, PartialEq, Eq)]
pub struct Taken {
    pub length: usize,
    /// What was done, or the rule that refused it; the reply then ends with NACK.
    pub ended: Result<Effect, Refusal>,
    /// Where that NACK fell, else 0.
    pub place: u16,
}

impl Taken {
    /// What was answered in a reply to an input that ended so, and where a NACK of it falls.
    fn of(reply: &Reply, ended: Result<Effect, Refusal>, place: u16) -> Taken {
        Taken { length: reply.length(), ended, place: if ended.is_err() { place } else { 0 } }
    }

    /// The reason of the NACK, if there is one.
    pub fn reason(&self) -> Option<Reason> {
        self.ended.err().map(|refusal| refusal.rule.reason())
    }
}

/// What a call hands back: its number, why and where a NACK fell, the reply length and the next session.
#[derive(Clone, Copy, Debug, PartialEq, Eq)]
pub struct Outcome {
    /// 0 for accepted, else the cause's number.
    pub number: u8,
    /// The number of the reason for the NACK in the reply, 0 where there is none.
    pub reason: u8,
    /// The command's byte at which it fell, from 1; on CAN the bytes gathered before the frame; 0 where there is none.
    pub place: u16,
    pub length: usize,
    pub session: Session,
}

impl Outcome {
    /// The outcome of an in-place call that left this session.
    pub fn of(called: Result<Taken, Cause>, session: Session) -> Outcome {
        match called {
            Ok(taken) => {
                let reason = taken.reason().map_or(0, Reason::number);
                Outcome { number: ACCEPTED, reason, place: taken.place, length: taken.length, session }
            }
            Err(cause) => Outcome { number: cause.number(), reason: 0, place: 0, length: 0, session },
        }
    }
}

/// Takes one UART byte.
pub fn take_uart_byte(mut session: Session, byte: u8, memories: &mut Memories, reply: &mut [u8]) -> Outcome {
    let called = uart_byte_in_place(&mut session, byte, memories, reply);
    Outcome::of(called, session)
}

/// Takes one CAN frame.
pub fn take_can_frame(mut session: Session, frame: &[u8], memories: &mut Memories, reply: &mut [u8]) -> Outcome {
    let called = can_frame_in_place(&mut session, frame, memories, reply);
    Outcome::of(called, session)
}

/// Takes one UART byte, changing the session in place, and tells what was answered.
pub fn uart_byte_in_place(session: &mut Session, byte: u8, memories: &mut Memories, reply: &mut [u8]) -> Result<Taken, Cause> {
    test_buffers(memories, reply, UART_REPLY_BYTES)?;
    let step = session.sound_step().map_err(Cause::UnsoundSession)?;
    let (place, mut reply) = (session.place(step), Reply::in_buffer(reply));
    let ended = match step {
        Step::Running => return Err(Cause::Running),
        Step::None => Ok(uart::connect(session, byte, &mut reply)),
        Step::Uart(step) => uart::take_byte(step, session, byte, memories, &mut reply),
        Step::Can(_) => Ok(Effect::Unheard),
    };
    Ok(Taken::of(&reply, ended, place))
}

/// Takes one CAN frame, changing the session in place, and tells what was answered.
pub fn can_frame_in_place(session: &mut Session, frame: &[u8], memories: &mut Memories, reply: &mut [u8]) -> Result<Taken, Cause> {
    test_buffers(memories, reply, CAN_REPLY_BYTES)?;
    let frame = Frame::read(frame).ok_or(Cause::BadFrame)?;
    let step = session.sound_step().map_err(Cause::UnsoundSession)?;
    let (place, mut reply) = (session.place(step), Reply::in_buffer(reply));
    let ended = match step {
        Step::Running => return Err(Cause::Running),
        Step::None => Ok(can::connect(session, &frame, &mut reply)),
        Step::Can(step) => can::take_frame(step, session, &frame, memories, &mut reply),
        Step::Uart(_) => Ok(Effect::Unheard),
    };
    Ok(Taken::of(&reply, ended, place))
}

/// Tests the lengths of the memories and then of the reply buffer.
fn test_buffers(memories: &Memories, reply: &[u8], needed: usize) -> Result<(), Cause> {
    if !memories.have_right_lengths() {
        return Err(Cause::MemoryLength);
    }
    if reply.len() < needed {
        return Err(Cause::ReplyLength);
    }
    Ok(())
}
