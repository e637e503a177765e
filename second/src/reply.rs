//! The reply buffer and the two answers that both carriers give.

/// The answer to what is accepted.
pub const ACK: u8 = 0x79;

/// The answer to what is refused.
pub const NACK: u8 = 0x1F;

/// A lent reply buffer, filled from its start and left alone behind its length.
#[derive(Debug)]
pub struct Reply<'a> {
    buffer: &'a mut [u8],
    length: usize,
}

impl<'a> Reply<'a> {
    /// Starts an empty reply in a lent buffer that is known to be long enough.
    pub fn in_buffer(buffer: &'a mut [u8]) -> Reply<'a> {
        Reply { buffer, length: 0 }
    }

    /// The reply length in bytes.
    pub fn length(&self) -> usize {
        self.length
    }

    /// Adds one byte.
    pub fn push(&mut self, byte: u8) {
        self.buffer[self.length] = byte;
        self.length += 1;
    }

    /// Adds several bytes in order.
    pub fn extend(&mut self, bytes: &[u8]) {
        let end = self.length + bytes.len();
        self.buffer[self.length..end].copy_from_slice(bytes);
        self.length = end;
    }
}
