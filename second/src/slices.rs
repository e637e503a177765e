//! The call that takes a slice of UART bytes, one behind the other, and joins their replies in one buffer (document 02, Wish 4).

use crate::calls::{uart_byte_in_place, Cause, Taken, ACCEPTED};
use crate::memories::Memories;
use crate::refused::Reason;
use crate::session::{Session, Step};

/// What an accepted slice answered.
#[derive(Clone, Copy, Debug, Default, PartialEq, Eq)]
pub struct TakenBytes {
    /// How many bytes were taken, from the first on.
    pub taken: usize,
    /// The length of their joined replies.
    pub length: usize,
    /// Why and where the last NACK among them fell, if there is one.
    pub nack: Option<(Reason, u16)>,
}

impl TakenBytes {
    /// Counts one byte more, which was answered so.
    fn add(&mut self, answered: &Taken) {
        self.taken += 1;
        self.length += answered.length;
        self.nack = answered.reason().map(|reason| (reason, answered.place)).or(self.nack);
    }
}

/// What the slice call hands back: its number, how many bytes were taken, the length of the joined replies, why and where the last NACK in
/// them fell, and the next session.
#[derive(Clone, Copy, Debug, PartialEq, Eq)]
pub struct SliceOutcome {
    /// 0 for accepted, else the cause's number: 1, 4 or 5.
    pub number: u8,
    pub taken: usize,
    pub length: usize,
    /// The number of the reason for the last NACK in the replies, 0 where there is none.
    pub reason: u8,
    /// The byte of its own command at which that NACK fell, from 1; 0 where there is none.
    pub place: u16,
    pub session: Session,
}

impl SliceOutcome {
    /// The outcome of an in-place call that left this session.
    pub fn of(called: Result<TakenBytes, Cause>, session: Session) -> SliceOutcome {
        let number = called.map_or_else(Cause::number, |_| ACCEPTED);
        let TakenBytes { taken, length, nack } = called.unwrap_or_default();
        let (reason, place) = nack.map_or((0, 0), |(reason, place)| (reason.number(), place));
        SliceOutcome { number, taken, length, reason, place, session }
    }
}

/// Takes a slice of UART bytes.
pub fn take_uart_bytes(mut session: Session, bytes: &[u8], memories: &mut Memories, buffer: &mut [u8]) -> SliceOutcome {
    let called = uart_bytes_in_place(&mut session, bytes, memories, buffer);
    SliceOutcome::of(called, session)
}

/// Takes a slice of UART bytes, changing the session in place, and tells what was answered. It stops before the first byte that alone would
/// be refused: one for which the room that is left is too short, whatever it would reply, or one behind an obeyed Jump.
pub fn uart_bytes_in_place(session: &mut Session, bytes: &[u8], memories: &mut Memories, buffer: &mut [u8]) -> Result<TakenBytes, Cause> {
    test_entry(session, memories)?;
    let mut all = TakenBytes::default();
    for byte in bytes {
        let Ok(answered) = uart_byte_in_place(session, *byte, memories, &mut buffer[all.length..]) else {
            break;
        };
        all.add(&answered);
    }
    Ok(all)
}

/// Tests the causes of a single byte in their order, all but the room for its reply, before any byte is looked at.
fn test_entry(session: &Session, memories: &Memories) -> Result<(), Cause> {
    if !memories.have_right_lengths() {
        return Err(Cause::MemoryLength);
    }
    match session.sound_step().map_err(Cause::UnsoundSession)? {
        Step::Running => Err(Cause::Running),
        Step::None | Step::Uart(_) | Step::Can(_) => Ok(()),
    }
}
