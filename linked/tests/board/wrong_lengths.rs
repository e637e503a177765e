//! A session's slice of a wrong length holds no session: the call is refused, and nothing changes.

use crate::bench::{Bench, ROOM};
use linked::{Taken, TakenBytes, SESSION_BYTES};

/// The causes, in the order in which they are tested.
const WRONG_MEMORY: u8 = 1;
const SHORT_REPLY: u8 = 2;
const BAD_FRAME: u8 = 3;
const UNSOUND_SESSION: u8 = 4;

/// The longest slice that is tried.
const LONGEST: usize = 600;

/// A frame that is well formed.
const FRAME: [u8; 11] = [0, 0x79, 0, 0, 0, 0, 0, 0, 0, 0, 0];

/// The fresh board with its session cut, or with bytes behind it, for every wrong length.
fn benches() -> impl Iterator<Item = Bench> {
    let lengths = (0..=LONGEST).filter(|length| *length != SESSION_BYTES);
    lengths.map(|length| {
        let mut bench = Bench::fresh();
        bench.session.resize(length, 0);
        bench
    })
}

/// Tests that a call on a board is refused for a cause and that nothing changes.
fn refused(bench: &Bench, cause: u8, call: impl Fn(&mut Bench) -> Taken) {
    let mut called = bench.clone();
    let taken = call(&mut called);
    let expected = Taken {
        number: cause,
        length: 0,
        reason: 0,
        place: 0,
    };
    assert_eq!(taken, expected, "{} bytes", bench.session.len());
    assert!(
        called == *bench,
        "{} bytes: a byte changed",
        bench.session.len()
    );
}

/// It is refused for cause 4.
#[test]
fn a_wrong_length_is_an_unsound_session() {
    for bench in benches() {
        refused(&bench, UNSOUND_SESSION, |bench| bench.take_byte(0x7F));
        refused(&bench, UNSOUND_SESSION, |bench| bench.take_frame(&FRAME));
    }
}

/// Causes 1, 2 and 3 come first.
#[test]
fn earlier_causes_come_first() {
    for mut bench in benches() {
        refused(&bench, BAD_FRAME, |bench| bench.take_frame(&FRAME[..10]));
        bench.buffer.truncate(256);
        refused(&bench, SHORT_REPLY, |bench| bench.take_byte(0x7F));
        refused(&bench, SHORT_REPLY, |bench| bench.take_frame(&[]));
        bench.store.usd.push(0);
        refused(&bench, WRONG_MEMORY, |bench| bench.take_byte(0x7F));
        refused(&bench, WRONG_MEMORY, |bench| bench.take_frame(&[]));
    }
}

/// A slice of UART bytes, even of none, is refused for cause 4 too; only cause 1 comes first, for no buffer is too short.
#[test]
fn slices_on_a_wrong_length() {
    let nothing = |number| TakenBytes {
        number,
        taken: 0,
        length: 0,
        reason: 0,
        place: 0,
    };
    for (mut bench, bytes) in
        benches().flat_map(|bench| [(bench.clone(), &[][..]), (bench, &FRAME)])
    {
        for (room, usd, cause) in [
            (ROOM, 64, UNSOUND_SESSION),
            (0, 64, UNSOUND_SESSION),
            (0, 63, WRONG_MEMORY),
        ] {
            bench.buffer.truncate(room);
            bench.store.usd.truncate(usd);
            let before = bench.clone();
            assert_eq!(bench.take_bytes(bytes), nothing(cause));
            assert!(
                bench == before,
                "{} bytes: a byte changed",
                bench.session.len()
            );
        }
    }
}

/// Power on leaves such a slice as it is, and answers 4.
#[test]
fn a_wrong_length_is_not_powered_on() {
    for mut bench in benches() {
        let before = bench.session.clone();
        assert_eq!(linked::power_on(&mut bench.session), UNSOUND_SESSION);
        assert_eq!(bench.session, before);
    }
}

/// A slice of a session's length is powered on, whatever it held.
#[test]
fn any_session_is_powered_on() {
    for held in [0, 1, 3, 0x7F, 0xFF] {
        let mut session = [held; SESSION_BYTES];
        assert_eq!(linked::power_on(&mut session), linked::ACCEPTED);
        assert_eq!(session[..], Bench::fresh().session);
    }
}
