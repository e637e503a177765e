//! The command numbers of both papers, and what the three asking commands send.

use crate::board::{BID, PRODUCT_ID, PROJECT_ID, PROTOCOL_VERSION};
use crate::near::Miss;
use crate::refused::Refused;

pub const GET_COMMANDS: u16 = 0x00;
pub const GET_VERSION: u16 = 0x01;
pub const GET_DEVICE_ID: u16 = 0x02;
/// Speed, a command on CAN only.
pub const SPEED: u16 = 0x03;
pub const READ_MEMORY: u16 = 0x11;
pub const JUMP: u16 = 0x21;
pub const WRITE_MEMORY: u16 = 0x31;
pub const ERASE: u16 = 0x44;
/// Erase and Program Protect.
pub const PROTECT: u16 = 0x63;
/// Erase and Program Unprotect.
pub const UNPROTECT: u16 = 0x73;
pub const ACCESS_PROTECT: u16 = 0x82;
pub const ACCESS_UNPROTECT: u16 = 0x92;
pub const FIRMWARE_CRC: u16 = 0xAC;
pub const RESET_DEVICE: u16 = 0xD4;

/// The version and the command list that Get Commands sends on UART.
#[rustfmt::skip]
pub const UART_LIST: [u8; 14] = [
    PROTOCOL_VERSION,
    0x00, 0x01, 0x02, 0x11, 0x21, 0x31, 0x44, 0x63, 0x73, 0x82, 0x92, 0xAC, 0xD4,
];

/// The version and the command list that Get Commands sends on CAN, ending with 03.
#[rustfmt::skip]
pub const CAN_LIST: [u8; 15] = [
    PROTOCOL_VERSION,
    0x00, 0x01, 0x02, 0x11, 0x21, 0x31, 0x44, 0x63, 0x73, 0x82, 0x92, 0xAC, 0xD4, 0x03,
];

/// What Get Version sends between its ACKs: the protocol version and the BID.
pub const VERSION: [u8; 3] = [PROTOCOL_VERSION, BID[0], BID[1]];

/// What Get Device ID sends between its ACKs: its length less one, product and project ID.
pub const DEVICE_ID: [u8; 6] =
    [0x04, (PRODUCT_ID >> 8) as u8, PRODUCT_ID as u8, (PRODUCT_ID >> 24) as u8, (PRODUCT_ID >> 16) as u8, PROJECT_ID];

/// The commands that only ask.
pub const ASKING: [u16; 3] = [GET_COMMANDS, GET_VERSION, GET_DEVICE_ID];

/// Tells whether a command is NACKed at once while protection is on.
pub fn is_protected(command: u16) -> bool {
    matches!(command, READ_MEMORY | JUMP | WRITE_MEMORY | ERASE | PROTECT | UNPROTECT | ACCESS_PROTECT)
}

/// What the two selector bytes of an erase ask for.
#[derive(Clone, Copy, Debug, PartialEq, Eq)]
pub enum EraseSelector {
    /// 0 to 31: a list of X sector numbers follows, and X - 1 was sent.
    List(usize),
    /// 0xFFFB to 0xFFFF: a special erase.
    Special(u32),
}

impl EraseSelector {
    /// The last selector that is a count of sectors less one.
    const LAST_COUNT: u16 = 31;

    /// The first special selector.
    pub const FIRST_SPECIAL: u16 = 0xFFFB;

    /// The last special selector.
    pub const LAST_SPECIAL: u16 = 0xFFFF;

    /// Reads a selector from its two bytes, high first; those from 32 to 0xFFFA are refused at once.
    pub fn from_bytes(high: u8, low: u8) -> Result<EraseSelector, Refused> {
        let selector = u16::from_be_bytes([high, low]);
        if selector <= EraseSelector::LAST_COUNT {
            Ok(EraseSelector::List(count_sent_as_one_less(selector)))
        } else if selector >= EraseSelector::FIRST_SPECIAL {
            Ok(EraseSelector::Special(u32::from(selector)))
        } else if selector + 1 == EraseSelector::FIRST_SPECIAL {
            Err(Refused::Selector(Miss::Before))
        } else {
            Err(Refused::Selector(Miss::of(usize::from(selector), 0, usize::from(EraseSelector::LAST_COUNT))))
        }
    }
}

/// The count X that was sent as X - 1.
pub fn count_sent_as_one_less(sent: impl Into<usize>) -> usize {
    sent.into().saturating_add(1)
}
