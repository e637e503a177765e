//! Single calls: the five causes, soundness, and every command, ID, DLC, address and sector in turn.

use crate::bench::{frame, pairs, session_at, with_xor, Bench};
use second::{take_can_frame, take_uart_byte, Memories, Session, Store};

/// The list of document 01: the commands that UART knows.
const LIST: [u8; 13] = [0x00, 0x01, 0x02, 0x11, 0x21, 0x31, 0x44, 0x63, 0x73, 0x82, 0x92, 0xAC, 0xD4];

/// The commands that are NACKed at once while protection is on.
const PROTECTED: [u8; 7] = [0x11, 0x21, 0x31, 0x44, 0x63, 0x73, 0x82];

/// The DLCs that document 01 gives; "the rest ignore DLC and data".
const DLCS: [(u16, usize); 7] = [(0x11, 5), (0x31, 5), (0x21, 4), (0x44, 2), (0x03, 2), (0x63, 1), (0xAC, 6)];

/// Data that every command of CAN accepts with its DLC, all but those of 0x44, 0x03 and 0x63.
const DATA: [u8; 9] = [0x08, 0, 0, 0, 0, 0, 0, 0, 0];

/// The lengths of flash, SRAM, USD and the reply buffer.
type Lengths = [usize; 4];

/// The shortest right lengths on UART and on CAN.
const ON_UART: Lengths = [32_768, 8_192, 64, 257];
const ON_CAN: Lengths = [32_768, 8_192, 64, 363];

/// The lengths with another one at a place.
fn but(place: usize, length: usize, mut lengths: Lengths) -> Lengths {
    lengths[place] = length;
    lengths
}

/// The number and the reply length of a UART byte, or of a frame; a refused call changes nothing.
fn called(lengths: Lengths, session: Session, byte: u8, frame: Option<&[u8]>) -> (u8, usize) {
    let before = lengths.map(|length| vec![0xA5; length]);
    let mut lent = before.clone();
    let [flash, sram, usd, reply] = &mut lent;
    let memories = &mut Memories { flash, sram, usd };
    let outcome = match frame {
        Some(frame) => take_can_frame(session, frame, memories, reply),
        None => take_uart_byte(session, byte, memories, reply),
    };
    if outcome.number > 0 {
        assert!(lent == before && outcome.session == session && outcome.length == 0);
    }
    (outcome.number, outcome.length)
}

/// The numbers that both calls give, of two UART bytes and of the frame that connects.
fn numbers(place: usize, length: usize, session: Session) -> [u8; 3] {
    let (uart, can) = (but(place, length, ON_UART), but(place, length, ON_CAN));
    [called(uart, session, 0x7F, None).0, called(uart, session, 0x00, None).0, called(can, session, 0, Some(&frame(0x79, &[]))).0]
}

/// A running session, and an unsound one that would be running.
fn running(speed: u8) -> Session {
    Session { address: 0x0800_0000, speed, ..session_at(3, 0, 1) }
}

/// Causes 1 and 2: lengths that are wrong, and the shortest reply buffers, which longest replies fill.
#[test]
fn lengths_of_memories_and_replies() {
    let fresh = Session::power_on();
    for (place, lengths, expected) in [
        (0, &[0, 32_767, 32_769][..], [1; 3]),
        (1, &[0, 8_191, 8_193], [1; 3]),
        (2, &[0, 63, 65], [1; 3]),
        (3, &[0, 1, 256], [2; 3]),
        (3, &[257, 362], [0, 0, 2]),
        (3, &[363, 400], [0; 3]),
    ] {
        assert!(lengths.iter().all(|length| numbers(place, *length, fresh) == expected), "{lengths:?}");
    }
    assert_eq!(called(ON_UART, fresh, 0x7F, None), (0, 1));
    let mut reading = session_at(1, 5, 2);
    (reading.address, reading.taken, reading.staged[0]) = (0x2000_0000, 1, 0xFF);
    assert_eq!(called(ON_UART, reading, 0x00, None), (0, 257));
    let on_can = |frame: &[u8]| called(ON_CAN, session_at(2, 0, 1), 0, Some(frame));
    assert_eq!(on_can(&frame(0x7FF, &[0; 8])), (0, 11));
    assert_eq!(on_can(&frame(0x11, &[0x20, 0, 0, 0, 0xFF])), (0, 363));
}

/// Cause 3: "frame not 11 bytes, ID over 0x7FF, or DLC over 8", whatever the carrier.
#[test]
fn bad_frames() {
    let (good, mut dlc_9) = (frame(0x79, &[]), frame(0x79, &[]));
    dlc_9[2] = 9;
    let long = [&good[..], &[0]].concat();
    let ids = [0x800, 0xFFFF, 0x879].map(|id| frame(id, &[]));
    let sessions = [Session::power_on(), session_at(2, 0, 1), session_at(1, 0, 2)];
    for (bad, session) in pairs([&[], &good[..10], &long, &ids[0], &ids[1], &ids[2], &dlc_9], sessions.into_iter()) {
        assert_eq!(called(ON_CAN, session, 0, Some(bad)).0, 3);
    }
}

/// "Causes are tested in this order; the first that holds is given": 1, 2, 3, 4, 5.
#[test]
fn causes_come_in_order() {
    let (unsound, running) = (running(4), running(2));
    let both_short = |lengths| but(0, 1, but(3, 256, lengths));
    assert_eq!(called(both_short(ON_UART), unsound, 0, None).0, 1);
    assert_eq!(called(both_short(ON_CAN), unsound, 0, Some(&[])).0, 1);
    assert_eq!(called(but(3, 256, ON_UART), unsound, 0, None).0, 2);
    assert_eq!(called(but(3, 362, ON_CAN), unsound, 0, Some(&[])).0, 2);
    assert_eq!(called(ON_CAN, unsound, 0, Some(&[])).0, 3);
    assert_eq!(called(ON_CAN, running, 0, Some(&[])).0, 3);
    assert_eq!(numbers(2, 64, unsound), [4; 3]);
    assert_eq!(numbers(2, 64, running), [5; 3]);
}

/// Tells whether a step may expect a number, written out from document 01.
fn is_allowed(carrier: u8, step: u8, expected: usize) -> bool {
    match (carrier, step) {
        (0 | 3, 0) | (2, 0) | (1, 6 | 9 | 11) => expected == 1,
        (1, 0 | 5 | 8) => expected == 2,
        (1, 1..=4) => expected == 5,
        (1, 7 | 12) => (2..=257).contains(&expected),
        (1, 10) => (3..=65).contains(&expected) && !expected.is_multiple_of(2),
        (1, 13) => expected == 3,
        (2, 1 | 3) => (1..=256).contains(&expected),
        (2, 2) => (2..=64).contains(&expected) && expected.is_multiple_of(2),
        _ => false,
    }
}

/// Tells whether the board finds a session sound; both calls must find the same.
fn is_sound(session: Session, store: &mut Store) -> bool {
    let memories = &mut store.lend();
    let uart = take_uart_byte(session, 0x00, memories, &mut [0; 257]).number == 4;
    let can = take_can_frame(session, &frame(0, &[]), memories, &mut [0; 363]).number == 4;
    assert_eq!(uart, can);
    !uart
}

/// Unsound when carrier or speed "exceeds 3, the step is not one of the carrier's, expected is not allowed", or "taken is not below
/// expected".
#[test]
fn sound_sessions() {
    let mut store = Store::fresh();
    let steps = pairs([0, 1, 2, 3, 4, 255], (0..=20).chain([255]));
    for ((carrier, step), expected) in pairs(steps, (0..=300).chain([usize::MAX])) {
        for taken in [0, expected.saturating_sub(1), expected, expected.saturating_add(1), usize::MAX] {
            let session = Session { taken, ..session_at(carrier, step, expected) };
            assert_eq!(is_sound(session, &mut store), is_allowed(carrier, step, expected) && taken < expected);
        }
    }
    let mut at_speed = |speed| is_sound(Session { speed, ..session_at(2, 0, 1) }, &mut store);
    assert!((0..=3).all(&mut at_speed) && !(4..=255).any(at_speed));
}

/// "A command is a byte and its complement. Wrong complement, unknown or protected: NACK."
#[test]
fn every_command_byte_and_complement() {
    for (command, second) in pairs(0..=255, 0..=255) {
        let mut bench = Bench::idle_on(1);
        let reply = bench.uart(&[command, second]);
        let is_right = second == !command && LIST.contains(&command);
        assert!(if is_right { reply.starts_with("79") } else { reply == "1F" });
        assert!(is_right || bench.session == session_at(1, 0, 2));
    }
}

/// USD byte 0: "every other value means on", and then the seven commands are "NACKed at once".
#[test]
fn protected_commands() {
    for (access, command) in pairs(0..=255, LIST.into_iter()) {
        let is_refused = access != 0xA5 && PROTECTED.contains(&command);
        let (mut on_uart, mut on_can, id) = (Bench::idle_on(1), Bench::idle_on(2), u16::from(command));
        (on_uart.store.usd[0], on_can.store.usd[0]) = (access, access);
        assert_eq!(on_uart.uart(&[command, !command]) == "1F", is_refused);
        assert_eq!(on_can.can(id, data_of(id, dlc_of(id))) == format!("{command:03X}:1F"), is_refused);
    }
}

/// The DLC of a command, 0 where it is ignored.
fn dlc_of(id: u16) -> usize {
    let fixed = DLCS.iter().find(|(command, _)| *command == id);
    fixed.map_or(0, |(_, dlc)| *dlc)
}

/// So many bytes of data that the command accepts with its DLC.
fn data_of(id: u16, dlc: usize) -> &'static [u8] {
    let zeros = [0x44, 0x03, 0x63].contains(&id);
    &DATA[usize::from(zeros)..][..dlc]
}

/// "DLC must be ..; the rest ignore DLC and data. Otherwise NACK; an ID that is no command is NACKed
/// under that ID."; "frame ID 0x79 with any DLC" connects.
#[test]
fn every_id_and_dlc() {
    for (id, dlc) in pairs(0..=0x7FF, 0..=8) {
        let is_known = id == 0x03 || LIST.iter().any(|command| u16::from(*command) == id);
        let is_fixed = DLCS.iter().any(|(command, _)| *command == id);
        let mut bench = Bench::idle_on(2);
        let reply = bench.can(id, data_of(id, dlc));
        let is_right = is_known && (!is_fixed || dlc == dlc_of(id));
        let first = if is_right { "79" } else { "1F" };
        assert!(reply.starts_with(&format!("{id:03X}:{first}")), "{id:03X} {dlc}");
        let is_single = !is_right || [0x21, 0x31, 0x44, 0x63].contains(&id);
        assert_eq!(reply.len() == 6, is_single);
        assert!(is_right || bench.session == session_at(2, 0, 1));
        let mut fresh = Bench::at(Session::power_on());
        let reply = fresh.can(id, data_of(id, dlc));
        assert_eq!(reply, if id == 0x79 { "079:79" } else { "" });
    }
}

/// The addresses at all edges: whether they lie in a region, can be jumped to, and start a sector.
const ADDRESSES: [(u32, bool, bool, bool); 17] = [
    (0x07FF_FFFF, false, false, false),
    (0x07FF_FC00, false, false, false),
    (0x0800_0000, true, true, true),
    (0x0800_0001, true, true, false),
    (0x0800_0200, true, true, false),
    (0x0800_7C00, true, true, true),
    (0x0800_7FFF, true, true, false),
    (0x0800_8000, false, false, false),
    (0x1FFF_F7FF, false, false, false),
    (0x1FFF_F800, true, false, false),
    (0x1FFF_F83F, true, false, false),
    (0x1FFF_F840, false, false, false),
    (0x2000_0000, true, true, false),
    (0x2000_1FFF, true, true, false),
    (0x2000_2000, false, false, false),
    (0x0000_0000, false, false, false),
    (0xFFFF_FFFF, false, false, false),
];

/// The address steps of 0x11, 0x21, 0x31 and 0xAC on UART, and the same addresses on CAN.
#[test]
fn addresses_at_every_edge() {
    for (address, in_a_region, jumps, is_sector_start) in ADDRESSES {
        let bytes = &address.to_be_bytes()[..];
        let on_uart = |step| Bench::at(session_at(1, step, 5)).uart(&with_xor(bytes));
        let expected = [in_a_region, jumps, in_a_region, is_sector_start];
        assert_eq!([1, 2, 3, 4].map(on_uart), expected.map(|is_right| if is_right { "79" } else { "1F" }));
        let on_can = |(id, more): (u16, &[u8])| Bench::idle_on(2).can(id, &[bytes, more].concat());
        let is_right = |data: (u16, &[u8])| on_can(data) != format!("{:03X}:1F", data.0);
        let of_one = [is_right((0x11, &[0])), is_right((0x21, &[])), is_right((0xAC, &[0, 0]))];
        assert_eq!(of_one, [in_a_region, jumps, is_sector_start], "{address:08X}");
    }
}

/// "every other rule of a command is tested again at its end, for any sound session", of two bytes.
#[test]
fn writes_are_tested_at_their_end() {
    for address in [0, 0x0800_7FFF, 0x0800_8000, 0x1FFF_F800, 0x2000_1FFF, 0xFFFF_FFFF] {
        let uart = Session { address, ..session_at(1, 7, 3) };
        let can = Session { address, ..session_at(2, 1, 2) };
        let (mut on_uart, mut on_can) = (Bench::at(uart), Bench::at(can));
        assert_eq!(on_uart.uart(&[0xAA, 0xBB, 0x10]), "1F");
        assert_eq!(on_can.can(0x31, &[0xAA, 0xBB]), "031:1F");
        assert!(on_uart.store == Store::fresh() && on_can.store == Store::fresh());
        assert_eq!(on_uart.session, session_at(1, 0, 2));
        assert_eq!(on_can.session, session_at(2, 0, 1));
    }
}

/// 0x44: 0 to 31 lead to a list of X = selector + 1, 0xFFFB to 0xFFFF are special, others are NACKed.
#[test]
fn erase_selectors() {
    for selector in (0..=300_u16).chain([0x8000, 0xFFFA, 0xFFFB, 0xFFFC, 0xFFFD, 0xFFFE, 0xFFFF]) {
        let (step, expected, on_uart, on_can) = match selector {
            0..=31 => (10, 2 * usize::from(selector) + 3, "", "044:79"),
            32..=0xFFFA => (0, 2, "1F", "044:1F"),
            0xFFFE.. => (9, 1, "", "044:79 044:79"),
            _ => (9, 1, "", "044:79 044:1F"),
        };
        let mut bench = Bench::at(session_at(1, 8, 2));
        assert_eq!(bench.uart(&selector.to_be_bytes()), on_uart);
        assert_eq!((bench.session.step, bench.session.expected), (step, expected));
        assert_eq!(Bench::idle_on(2).can(0x44, &selector.to_be_bytes()), on_can);
    }
}

/// "A frame of another ID, or DLC 0, while gathering: NACK under the running ID, command ends, frame
/// not used."
#[test]
fn another_id_or_dlc_0_while_gathering() {
    let empty = [0, 0x92, 0x79, 0x31, 0x44, 0x63].map(|id| (id, &[][..]));
    let others = [0x7FF, 0x131, 0x144, 0x163].map(|id| (id, &[1][..]));
    for ((step, expected, id), (other, data)) in pairs([(1, 9, 0x31), (2, 10, 0x44), (3, 9, 0x63)], empty.into_iter().chain(others)) {
        let mut bench = Bench::at(session_at(2, step, expected));
        bench.store.usd[0] = 0;
        let before = bench.store.clone();
        assert_eq!(bench.can(other, data), format!("{id:03X}:1F"));
        assert!(bench.session == session_at(2, 0, 1) && bench.store == before);
    }
}

/// "sector k is bit k mod 8 of byte 8 + k/8, and 0 means write-protected."
#[test]
fn each_sector_has_its_own_protection_bit() {
    for (sector, written) in pairs(0..32, 0..32) {
        let address = 0x0800_0000 + 1_024 * written as u32 + 1_023;
        let mut bench = Bench::at(Session { address, ..session_at(1, 7, 2) });
        bench.store.usd[8 + sector / 8] = !(1 << (sector % 8));
        let reply = if written == sector { "1F" } else { "79" };
        assert_eq!(bench.uart(&[0, 0]), reply);
    }
}
