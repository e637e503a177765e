//! A short talk on each carrier, as an example of how the linked board is used.

use crate::bench::ROOM;
use linked::{Lent, Session, ACCEPTED};
use second::Store;

/// Says UART bytes and joins the replies.
fn say(session: &mut Session, store: &mut Store, bytes: &[u8]) -> Vec<u8> {
    let mut replies = Vec::new();
    for byte in bytes {
        let mut buffer = [0; ROOM];
        let mut lent = Lent {
            flash: &mut store.flash,
            sram: &mut store.sram,
            usd: &mut store.usd,
            buffer: &mut buffer,
        };
        let taken = session.take_byte(*byte, &mut lent);
        assert_eq!(taken.number, ACCEPTED);
        replies.extend(&buffer[..taken.length]);
    }
    replies
}

/// Sends a CAN frame and gives the frames of the reply, one behind the other.
fn send(session: &mut Session, store: &mut Store, frame: &[u8; 11]) -> Vec<u8> {
    let mut buffer = [0; ROOM];
    let mut lent = Lent {
        flash: &mut store.flash,
        sram: &mut store.sram,
        usd: &mut store.usd,
        buffer: &mut buffer,
    };
    let taken = session.take_frame(frame, &mut lent);
    assert_eq!(taken.number, ACCEPTED);
    buffer[..taken.length].to_vec()
}

/// Connect, ask for the version, write a byte at the start of flash, and read it back.
#[test]
fn on_uart() {
    let mut store = Store::fresh();
    let mut session = Session::power_on();
    let mut said = |bytes: &[u8]| say(&mut session, &mut store, bytes);
    assert_eq!(said(&[0x7F]), [0x79]);
    assert_eq!(said(&[0x01, 0xFE]), [0x79, 0x20, 0x01, 0x07, 0x79]);
    let write = [0x31, 0xCE, 0x08, 0, 0, 0, 0x08, 0x00, 0xA5, 0xA5];
    assert_eq!(said(&write), [0x79, 0x79, 0x79]);
    let read = [0x11, 0xEE, 0x08, 0, 0, 0, 0x08, 0x00, 0xFF];
    assert_eq!(said(&read), [0x79, 0x79, 0x79, 0xA5]);
    assert_eq!(store.flash[..2], [0xA5, 0xFF]);
}

/// The same talk as one slice: the replies stand joined in the buffer, and the last NACK has its reason.
#[test]
fn on_uart_at_once() {
    let mut store = Store::fresh();
    let mut session = Session::power_on();
    let mut buffer = [0; 1_000];
    let mut lent = Lent {
        flash: &mut store.flash,
        sram: &mut store.sram,
        usd: &mut store.usd,
        buffer: &mut buffer,
    };
    let talk = [
        &[0x7F, 0x01, 0xFE][..],
        &[0x31, 0xCE, 0x08, 0, 0, 0, 0x08, 0x00, 0xA5, 0xA5],
        &[0x05, 0xFA],
        &[0x11, 0xEE, 0x08, 0, 0, 0, 0x08, 0x00, 0xFF],
    ]
    .concat();
    let taken = session.take_bytes(&talk, &mut lent);
    let said = [
        0x79, 0x79, 0x20, 0x01, 0x07, 0x79, 0x79, 0x79, 0x79, 0x1F, 0x79, 0x79, 0x79, 0xA5,
    ];
    assert_eq!((taken.number, taken.taken), (ACCEPTED, talk.len()));
    assert_eq!((taken.reason, taken.place), (2, 2));
    assert_eq!(buffer[..taken.length], said);
}

/// Connect: the answer is a frame of ID 0x079 with one data byte, ACK.
#[test]
fn on_can() {
    let mut store = Store::fresh();
    let mut session = Session::power_on();
    let connect = [0, 0x79, 0, 0, 0, 0, 0, 0, 0, 0, 0];
    let ack = [0, 0x79, 1, 0x79, 0, 0, 0, 0, 0, 0, 0];
    assert_eq!(send(&mut session, &mut store, &connect), ack);
}
