//! The frame: ID (two bytes, high first), DLC, eight data bytes.

/// The bytes of ID and DLC.
pub const FRAME_HEAD_BYTES: usize = 3;

/// The data bytes, used or not.
pub const FRAME_DATA_BYTES: usize = 8;
pub const FRAME_BYTES: usize = FRAME_HEAD_BYTES + FRAME_DATA_BYTES;
pub const HIGHEST_ID: u16 = 0x7FF;

/// A well-formed frame.
#[derive(Clone, Copy, Debug, PartialEq, Eq)]
pub struct Frame {
    /// The ID, up to 0x7FF.
    pub id: u16,
    /// The DLC, up to 8.
    pub dlc: usize,
    /// The eight data bytes, of which the first DLC count.
    pub bytes: [u8; FRAME_DATA_BYTES],
}

impl Frame {
    /// Reads a frame of exactly 11 bytes with an ID up to 0x7FF and a DLC up to 8.
    pub fn read(frame: &[u8]) -> Option<Frame> {
        let [high, low, dlc, bytes @ ..] = <[u8; FRAME_BYTES]>::try_from(frame).ok()?;
        let id = u16::from_be_bytes([high, low]);
        let dlc = usize::from(dlc);
        (id <= HIGHEST_ID && dlc <= FRAME_DATA_BYTES).then_some(Frame { id, dlc, bytes })
    }

    /// The data bytes that count.
    pub fn data(&self) -> &[u8] {
        &self.bytes[..self.dlc]
    }

    /// The first four data bytes as an address, high first.
    pub fn address(&self) -> u32 {
        let [first, second, third, fourth, ..] = self.bytes;
        u32::from_be_bytes([first, second, third, fourth])
    }
}

/// The 11 bytes of a frame with this ID and up to eight data bytes, the unused ones 0.
pub fn frame_bytes(id: u16, data: &[u8]) -> [u8; FRAME_BYTES] {
    let [high, low] = id.to_be_bytes();
    let dlc = data.len().min(FRAME_DATA_BYTES);
    let mut frame = [0; FRAME_BYTES];
    frame[..FRAME_HEAD_BYTES].copy_from_slice(&[high, low, dlc as u8]);
    frame[FRAME_HEAD_BYTES..][..dlc].copy_from_slice(&data[..dlc]);
    frame
}
