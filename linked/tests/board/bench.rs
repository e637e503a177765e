//! All that a call is given and leaves, so that two boards are compared byte by byte.

use linked::{Lent, Taken, TakenBytes, SESSION_BYTES};
use second::{Outcome, Session, SliceOutcome, Store};
use std::env;
use std::str::FromStr;

/// What reply buffers hold before a call.
pub const UNTOUCHED: u8 = 0xC3;

/// The length of a reply buffer that every call takes.
pub const ROOM: usize = 363;

/// Where the staged bytes of a session begin.
const STAGED: usize = 23;

/// The bytes that a session is lent in.
pub fn session_bytes(session: &Session) -> [u8; SESSION_BYTES] {
    let mut bytes = [0; SESSION_BYTES];
    bytes[0] = session.carrier;
    bytes[1] = session.step;
    bytes[2..10].copy_from_slice(&(session.taken as u64).to_be_bytes());
    bytes[10..18].copy_from_slice(&(session.expected as u64).to_be_bytes());
    bytes[18..22].copy_from_slice(&session.address.to_be_bytes());
    bytes[22] = session.speed;
    bytes[STAGED..].copy_from_slice(&session.staged);
    bytes
}

/// What the linked board is to hand back where the second board's call has this outcome.
pub fn handed_back(outcome: &Outcome) -> Taken {
    Taken {
        number: outcome.number,
        length: outcome.length,
        reason: outcome.reason,
        place: outcome.place,
    }
}

/// What the linked board is to hand back where the second board's slice call has this outcome.
pub fn slice_handed_back(outcome: &SliceOutcome) -> TakenBytes {
    TakenBytes {
        number: outcome.number,
        taken: outcome.taken,
        length: outcome.length,
        reason: outcome.reason,
        place: outcome.place,
    }
}

/// The number that a variable of the environment holds, or another.
pub fn wanted<N: FromStr>(variable: &str, other: N) -> N {
    let held = env::var(variable).ok();
    held.and_then(|text| text.parse().ok()).unwrap_or(other)
}

/// What is lent to a call: a session's slice, the memories and the reply buffer.
#[derive(Clone, Debug, PartialEq, Eq)]
pub struct Bench {
    /// The slice of the session.
    pub session: Vec<u8>,
    /// The memories.
    pub store: Store,
    /// The reply buffer.
    pub buffer: Vec<u8>,
}

impl Bench {
    /// The fresh board, just powered, with a reply buffer that every call takes.
    pub fn fresh() -> Bench {
        Bench {
            session: session_bytes(&Session::power_on()).to_vec(),
            store: Store::fresh(),
            buffer: vec![UNTOUCHED; ROOM],
        }
    }

    /// Gives a UART byte to the linked board.
    pub fn take_byte(&mut self, byte: u8) -> Taken {
        let (session, mut lent) = self.lend();
        linked::take_byte(session, byte, &mut lent)
    }

    /// Gives a slice of UART bytes to the linked board.
    pub fn take_bytes(&mut self, bytes: &[u8]) -> TakenBytes {
        let (session, mut lent) = self.lend();
        linked::take_bytes(session, bytes, &mut lent)
    }

    /// Gives a CAN frame to the linked board.
    pub fn take_frame(&mut self, frame: &[u8]) -> Taken {
        let (session, mut lent) = self.lend();
        linked::take_frame(session, frame, &mut lent)
    }

    /// Lends everything.
    fn lend(&mut self) -> (&mut [u8], Lent<'_>) {
        let lent = Lent {
            flash: &mut self.store.flash,
            sram: &mut self.store.sram,
            usd: &mut self.store.usd,
            buffer: &mut self.buffer,
        };
        (&mut self.session, lent)
    }
}
