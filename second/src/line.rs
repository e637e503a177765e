//! The lines that `desk` reads.

use crate::frame::FRAME_DATA_BYTES;
use crate::hex::{hex_value, read_fields, BYTE_FIELD};

/// The most characters in a line, its LF not counted.
pub const LINE_CHARACTERS: usize = 800;

/// The most byte fields that fit in a line.
pub const LINE_BYTES: usize = LINE_CHARACTERS / BYTE_FIELD;

/// The characters of an ID field: a space and three hex digits.
pub const ID_FIELD: usize = 4;

/// A well-formed line.
#[derive(Clone, Copy, Debug, PartialEq, Eq)]
pub enum Line<'b> {
    /// `U`: bytes for UART, at least one.
    Uart(&'b [u8]),
    /// `C`: an ID and the data bytes of one CAN frame.
    Can(u16, &'b [u8]),
    /// `P`: power on.
    PowerOn,
}

impl<'b> Line<'b> {
    /// Reads a line without its LF, putting its bytes into `space`; any other line gives nothing.
    pub fn read(text: &[u8], space: &'b mut [u8; LINE_BYTES]) -> Option<Line<'b>> {
        if text.len() > LINE_CHARACTERS {
            return None;
        }
        match text.split_first()? {
            (b'U', fields) => read_uart(fields, space),
            (b'C', fields) => read_can(fields, space),
            (b'P', []) => Some(Line::PowerOn),
            _ => None,
        }
    }
}

/// Reads the fields of a `U` line: one or more bytes.
fn read_uart<'b>(fields: &[u8], space: &'b mut [u8; LINE_BYTES]) -> Option<Line<'b>> {
    let bytes = read_fields(fields, space)?;
    (!bytes.is_empty()).then_some(Line::Uart(bytes))
}

/// Reads the fields of a `C` line: an ID and up to eight bytes.
fn read_can<'b>(fields: &[u8], space: &'b mut [u8; LINE_BYTES]) -> Option<Line<'b>> {
    let (id_field, byte_fields) = fields.split_at_checked(ID_FIELD)?;
    let id = id_field.strip_prefix(b" ")?.iter().try_fold(0, |id, digit| Some(id << 4 | u16::from(hex_value(*digit)?)))?;
    let bytes = read_fields(byte_fields, space)?;
    (bytes.len() <= FRAME_DATA_BYTES).then_some(Line::Can(id, bytes))
}
