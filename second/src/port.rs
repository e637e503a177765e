//! The program `port`: a board behind a serial line, UART bytes in and replies out as they are.

use crate::calls::{uart_byte_in_place, UART_REPLY_BYTES};
use crate::commands::{GET_COMMANDS, GET_DEVICE_ID};
use crate::ends::Effect;
use crate::memories::Store;
use crate::session::Session;
use crate::stream::Answers;

/// Where the count stands in the reply to Get Commands, behind ACK.
const COUNT: usize = 1;

/// Where the first two product bytes stand in the reply to Get Device ID, behind ACK and the length, and what ST's host tools know there.
const PRODUCT: usize = 2;
const ST_PRODUCT: [u8; 2] = [0x04, 0x12];

/// A board behind a serial line.
#[derive(Debug)]
pub struct Port {
    store: Store,
    session: Session,
    reply: [u8; UART_REPLY_BYTES],
    as_st: bool,
}

impl Port {
    /// A board with these memories, just powered, that gives two replies as ST's host tools expect them or not.
    pub fn with(store: Store, as_st: bool) -> Port {
        Port { store, session: Session::power_on(), reply: [0; UART_REPLY_BYTES], as_st }
    }

    /// Takes one byte and gives the reply to it, which is none once the board is running.
    fn reply_to(&mut self, byte: u8) -> &[u8] {
        let command = u16::from(self.session.staged[0]);
        let called = uart_byte_in_place(&mut self.session, byte, &mut self.store.lend(), &mut self.reply);
        let Ok(taken) = called else {
            return &[];
        };
        if self.as_st && taken.ended == Ok(Effect::Told) {
            turn_to_st(command, &mut self.reply);
        }
        &self.reply[..taken.length]
    }
}

/// Turns the reply to an asking command into the one that ST's host tools expect.
fn turn_to_st(command: u16, reply: &mut [u8]) {
    match command {
        GET_COMMANDS => reply[COUNT] -= 1,
        GET_DEVICE_ID => reply[PRODUCT..][..ST_PRODUCT.len()].copy_from_slice(&ST_PRODUCT),
        _ => {}
    }
}

impl Answers for Port {
    /// Takes bytes and adds the replies to them.
    fn take(&mut self, chunk: &[u8], answers: &mut Vec<u8>) {
        for byte in chunk {
            answers.extend_from_slice(self.reply_to(*byte));
        }
    }

    /// Takes the end of the input, which brings nothing.
    fn finish(&mut self, _answers: &mut Vec<u8>) {}

    /// The memories as they are.
    fn store(&self) -> &Store {
        &self.store
    }
}
