//! Random raw bytes for `port`: a walk along a board that is powered once, and at its end the one Jump that is obeyed.

use crate::dice::Dice;
use crate::effects::protection_is_on;
use crate::ends::Kind;
use crate::line::{Line, LINE_BYTES};
use crate::reached::Reached;
use crate::script::{Board, Walk};
use crate::session::CARRIER_NONE;
use crate::uart::CONNECT_BYTE;

/// How many bytes are left for the end: what is under way may want 257, and unlocking, connecting and the Jump 12.
const END_BYTES: usize = 300;

/// Access Unprotect, and a Jump to the start of flash.
const UNLOCK: [u8; 2] = [0x92, 0x6D];
const JUMP: [u8; 7] = [0x21, 0xDE, 0x08, 0x00, 0x00, 0x00, 0x08];

/// What a running board is told in vain, first of all: to connect, and for the version.
const IN_VAIN: [u8; 3] = [CONNECT_BYTE, 0x01, 0xFE];

/// So many random bytes: a talk, cut anywhere, then its end.
pub fn random(seed: u64, count: usize) -> Vec<u8> {
    let mut walk = Walk::seeded(Kind::Raw, seed);
    let mut bytes = Vec::new();
    let before_end = count.saturating_sub(END_BYTES);
    while bytes.len() < before_end {
        walk.next_talk().iter().for_each(|line| bytes.extend(bytes_of(line)));
    }
    bytes.truncate(before_end);
    let mut board = Board::fresh();
    for byte in &bytes {
        board.hear_byte(*byte);
    }
    bytes.extend(end(board));
    bytes.extend(IN_VAIN);
    let mut dice = Dice::seeded(seed);
    bytes.resize_with(count.max(bytes.len()), || dice.byte());
    bytes.truncate(count);
    bytes
}

/// The bytes of a line.
fn bytes_of(line: &[u8]) -> Vec<u8> {
    match Line::read(line, &mut [0; LINE_BYTES]) {
        Some(Line::Uart(bytes)) => bytes.to_vec(),
        _ => Vec::new(),
    }
}

/// The bytes that end what is under way, unlock and connect, and then the Jump.
fn end(mut board: Board) -> Vec<u8> {
    let mut bytes = Vec::new();
    while !board.session.is_between_commands() {
        let byte = [0, 1].into_iter().find(|byte| !runs_by(&board, *byte)).unwrap_or_default();
        board.hear_byte(byte);
        bytes.push(byte);
    }
    let connect = [CONNECT_BYTE];
    let connected = board.session.carrier != CARRIER_NONE;
    bytes.extend(connect.iter().filter(|_| !connected));
    if protection_is_on(&board.store.usd) {
        bytes.extend(UNLOCK);
        bytes.extend(connect);
    }
    bytes.extend(JUMP);
    bytes
}

/// Tells whether a byte would make a board run.
fn runs_by(board: &Board, byte: u8) -> bool {
    let mut board = board.clone();
    board.hear_byte(byte);
    board.is_running()
}

/// What raw bytes reach, heard by a fresh board.
pub fn reached(bytes: &[u8]) -> Reached {
    let mut board = Board::fresh();
    Reached::by(Kind::Raw, bytes.iter().map(|byte| board.hear_byte(*byte)))
}
