//! The slice call of document 02, Wish 4: its refusals, where it stops, and that it leaves what single calls leave.

use crate::bench::{hex, session_at, spaced, with_xor, Bench};
use second::ends::Kind;
use second::line::{Line, LINE_BYTES};
use second::script::random;
use second::{take_uart_bytes, Memories, Session, SliceOutcome, Store};

/// What the buffer holds before a call.
const UNTOUCHED: u8 = 0xC3;

/// A read of the first 256 bytes of SRAM: ACK, ACK, then ACK and 256 bytes, 259 in all.
const READ_256: &str = "11 EE 20 00 00 00 20 FF 00";

/// A Jump to the start of flash.
const JUMP: &str = "21 DE 08 00 00 00 08";

/// Gives a slice to a bench, with so much room; what it gives back, and its replies. The buffer behind them is untouched.
fn say(bench: &mut Bench, bytes: &[u8], room: usize) -> (SliceOutcome, Vec<u8>) {
    let mut buffer = vec![UNTOUCHED; room];
    let outcome = take_uart_bytes(bench.session, bytes, &mut bench.store.lend(), &mut buffer);
    bench.session = outcome.session;
    assert!(buffer[outcome.length..].iter().all(|byte| *byte == UNTOUCHED));
    buffer.truncate(outcome.length);
    (outcome, buffer)
}

/// What a bench says to bytes in hex, with room for all: how many were taken, the reason and its place, and the replies in hex.
fn told(bench: &mut Bench, bytes: &str) -> (usize, u8, u16, String) {
    let (outcome, replies) = say(bench, &hex(bytes), 5_000);
    assert_eq!(outcome.number, 0);
    (outcome.taken, outcome.reason, outcome.place, spaced(&replies))
}

/// A running board, and one that is unsound too.
fn running(speed: u8) -> Session {
    Session { address: 0x0800_0000, speed, ..session_at(3, 0, 1) }
}

/// The number of a slice on memories of these lengths; a refused one takes nothing and leaves every byte.
fn number(lengths: [usize; 3], session: Session, bytes: &[u8], room: usize) -> u8 {
    let before = lengths.map(|length| vec![0xA5; length]);
    let (mut lent, mut buffer) = (before.clone(), vec![UNTOUCHED; room]);
    let [flash, sram, usd] = &mut lent;
    let outcome = take_uart_bytes(session, bytes, &mut Memories { flash, sram, usd }, &mut buffer);
    if outcome.number > 0 {
        assert!(lent == before && buffer.iter().all(|byte| *byte == UNTOUCHED));
        assert_eq!(outcome, SliceOutcome { number: outcome.number, taken: 0, length: 0, reason: 0, place: 0, session });
    }
    outcome.number
}

/// "Refusals: those of a single byte, in the same order, tested first even for an empty slice, save that reply room is never refused".
#[test]
fn causes_come_first_for_any_slice_and_room() {
    const RIGHT: [usize; 3] = [32_768, 8_192, 64];
    let sessions = [(Session::power_on(), 0), (session_at(1, 0, 2), 0), (session_at(2, 0, 1), 0), (running(4), 4), (running(2), 5)];
    for (bytes, room) in [&[][..], &[0x7F], &[0x00, 0xFF]].into_iter().flat_map(|bytes| [0, 1, 256, 257, 600].map(|room| (bytes, room))) {
        for (session, expected) in sessions {
            assert_eq!(number(RIGHT, session, bytes, room), expected);
            for wrong in [[32_767, 8_192, 64], [32_769, 8_192, 64], [32_768, 0, 64], [32_768, 8_193, 64], [32_768, 8_192, 63], [0; 3]] {
                assert_eq!(number(wrong, session, bytes, room), 1);
            }
        }
        assert_eq!(number(RIGHT, session_at(1, 14, 2), bytes, room), 4);
        assert_eq!(number(RIGHT, Session { taken: 2, ..session_at(1, 0, 2) }, bytes, room), 4);
    }
}

/// "It stops before a byte for which under 257 bytes of room are left, and says how many it took": with 256 before the first, with 257
/// behind the first reply, also where the next byte would reply nothing, and with 258 behind the second.
#[test]
fn rooms_at_the_edge() {
    for (room, taken, replies) in [(0, 0, ""), (256, 0, ""), (257, 1, "79"), (258, 3, "79 1F"), (259, 5, "79 1F 1F")] {
        let (outcome, said) = say(&mut Bench::at(Session::power_on()), &hex("7F 01 FF 01 FF 01"), room);
        assert_eq!((outcome.number, outcome.taken, spaced(&said)), (0, taken, replies.to_owned()), "{room}");
    }
    // Mid-step bytes reply nothing, and still need the room.
    let waiting = || Bench::at(Session { taken: 1, ..session_at(1, 1, 5) });
    assert_eq!([0, 256, 257].map(|room| say(&mut waiting(), &[0, 0], room).0.taken), [0, 0, 2]);
}

/// The longest reply, 257 bytes, fits into the last room that a byte is taken with; 513 and 514 bytes hold it and one byte more or two.
#[test]
fn rooms_for_longest_replies() {
    let twice = hex(&format!("{READ_256} {READ_256}"));
    let reading = || Bench::at(Session { address: 0x2000_0000, ..session_at(1, 5, 2) });
    for (room, taken, length) in [(256, 0, 0), (257, 2, 257), (258, 2, 257), (513, 2, 257), (514, 4, 258), (515, 9, 259)] {
        let (outcome, replies) = say(&mut reading(), &[&hex("FF 00"), &twice[..]].concat(), room);
        assert_eq!((outcome.taken, outcome.length, replies.len()), (taken, length, length), "{room}");
    }
    for (room, taken, length) in [(258, 7, 2), (259, 9, 259), (515, 9, 259), (516, 11, 260), (517, 16, 261), (518, 18, 518), (600, 18, 518)]
    {
        let outcome = say(&mut Bench::idle_on(1), &twice, room).0;
        assert_eq!((outcome.taken, outcome.length), (taken, length), "{room}");
    }
}

/// "a refusal met midway, by a Jump, stops the taking and is not returned": its last byte is taken and no other.
#[test]
fn a_jump_midway_and_last() {
    let target = running(2);
    for (behind, taken) in [("", 7), ("7F", 7), ("21", 7), ("01 FE 01 FE", 7)] {
        let mut bench = Bench::idle_on(1);
        assert_eq!(told(&mut bench, &format!("{JUMP} {behind}")), (taken, 0, 0, "79 79".to_owned()));
        assert_eq!(bench.session, target);
        assert_eq!(say(&mut bench, &[], 5_000).0.number, 5);
    }
    let mut refused = Bench::idle_on(1);
    assert_eq!(told(&mut refused, "21 DE 08 00 80 00 88 7F 80"), (9, 2, 2, "79 1F 1F".to_owned()));
}

/// "Reasons of Wish 2 come as the last non-zero one", with the place of that same NACK, counted in its own command.
#[test]
fn the_last_reason_and_its_place() {
    for (bytes, reason, place, replies) in [
        ("01 FE", 0, 0, "79 20 01 07 79"),
        ("01 FF", 1, 2, "1F"),
        ("05 FA 01 FF", 1, 2, "1F 1F"),
        ("01 FF 05 FA 01 FE 01", 2, 2, "1F 1F 79 20 01 07 79"),
        ("05 FA 11 EE 08 00 00 00 00", 5, 7, "1F 79 1F"),
        ("11 EE 08 00 00 00 00 11 EE 00 00 00 00 00 01 FE", 6, 7, "79 1F 79 1F 79 20 01 07 79"),
        ("01 FF 11 EE 08 00 7F FF 88 01 FE 11 EE 20 00", 7, 9, "1F 79 79 1F 79"),
        ("01 FF 44 BB 00 00 00 20 20 11 EE 20 00 00 00 20 00 FF", 8, 7, "1F 79 1F 79 79 79 00"),
        ("44 BB FF FD 02 7F", 10, 5, "79 1F"),
    ] {
        let expected = (hex(bytes).len(), reason, place, replies.to_owned());
        assert_eq!(told(&mut Bench::idle_on(1), bytes), expected);
    }
    let mut bench = Bench::idle_on(1);
    let written = with_xor(&[&[0xFF][..], &[0; 256]].concat());
    bench.store.usd[8] = 0xFE;
    let outcome = say(&mut bench, &[&hex("31 CE 08 00 00 00 08"), &written[..], &hex("02 FD")].concat(), 5_000).0;
    assert_eq!((outcome.reason, outcome.place, outcome.length), (9, 265, 3 + 8));
}

/// Bytes while no carrier or the other one is connected are taken and not answered, and still need the room.
#[test]
fn not_connected_or_on_can() {
    let mut fresh = Bench::at(Session::power_on());
    assert_eq!(told(&mut fresh, "00 FF 01 FE 79 1F"), (6, 0, 0, String::new()));
    assert_eq!(fresh.session, Session::power_on());
    assert_eq!(told(&mut fresh, "00 7F 01 FE D4 2B 01 FE 7F"), (9, 0, 0, "79 79 20 01 07 79 79 79 79".to_owned()));
    let gathering = Session { taken: 3, ..session_at(2, 1, 9) };
    for session in [session_at(2, 0, 1), gathering] {
        let mut bench = Bench::at(session);
        assert_eq!(told(&mut bench, "7F 01 FE D4 2B"), (5, 0, 0, String::new()));
        assert!(bench.session == session && bench.store == Store::fresh());
        assert_eq!([0, 256, 257].map(|room| say(&mut Bench::at(session), &[1, 2, 3], room).0.taken), [0, 0, 3]);
    }
}

/// "Replies, memories and session equal those of one-by-one calls over the bytes taken", for the bytes of a random script in any parts.
#[test]
fn slices_leave_what_single_bytes_leave() {
    for seed in 1..=4 {
        let (mut whole, mut single) = (Bench::at(Session::power_on()), Bench::at(Session::power_on()));
        for line in random(Kind::Uart, seed, 1_500) {
            let mut space = [0; LINE_BYTES];
            match Line::read(&line, &mut space) {
                Some(Line::Uart(bytes)) => compare(bytes, 257 + line.len() % 300, &mut whole, &mut single),
                _ => (whole.session, single.session) = (Session::power_on(), Session::power_on()),
            }
        }
    }
}

/// Gives bytes as slices, each of what the last one left, with so much room, and one by one; both leave the same, and the same reason.
fn compare(bytes: &[u8], room: usize, whole: &mut Bench, single: &mut Bench) {
    let mut rest = bytes;
    while !rest.is_empty() && whole.session.carrier != 3 {
        let (outcome, replies) = say(whole, rest, room);
        let (taken, left) = rest.split_at(outcome.taken);
        single.nacks.clear();
        assert_eq!(spaced(&replies), single.uart(taken));
        assert_eq!((outcome.reason, outcome.place), single.nacks.last().copied().unwrap_or_default());
        assert!(whole.session == single.session && whole.store == single.store);
        assert!(outcome.taken > 0 && (left.is_empty() || whole.session.carrier == 3 || room - outcome.length < 257));
        rest = left;
    }
}
