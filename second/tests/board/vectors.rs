//! Vectors: their lines, the digest, answers worked out by hand from documents 01 and 02, and what any call promises.

use crate::bench::{self, hex, spaced};
use second::vector::{adler32, run, Vector};
use second::vectors::random;
use std::path::Path;

/// A line written out whole: the fresh board, erased, takes 7F.
const BYTE_LINE: &str = "B 00 00 00 00 00 00 00 00 00 00 00 00 00 00 00 00 00 01 00 00 00 00 02 \
    00 00 00 00 00 00 00 00 00 00 00 00 00 00 00 00 00 00 \
    00 00 80 00 FF 00 00 00 20 00 00 00 00 00 00 40 FF 00 A5 FF FF FF FF \
    00 00 01 01 00 7F 00 00 00 00 00 00 00 00 00 00 00 00 00";

/// What `run` prints for a line.
fn answer_to(line: &str) -> String {
    let mut output = Vec::new();
    run(&mut format!("{line}\n").as_bytes(), &mut output).unwrap();
    String::from_utf8(output).unwrap()
}

/// The line with other bytes from an index on.
fn changed(line: &str, index: usize, bytes: &str) -> String {
    let start = 2 + 3 * index;
    format!("{}{bytes}{}", &line[..start], &line[start + bytes.len()..])
}

/// The line of an answer: number, reason and place, reply, the numbers of the session, and digests of five buffers.
fn answer(number: u8, nack: [u8; 3], reply: &str, session: &str, buffers: [&[u8]; 5]) -> String {
    let mut bytes = [&[number], &nack[..]].concat();
    bytes.extend((hex(reply).len() as u64).to_be_bytes());
    bytes.extend(hex(reply));
    bytes.extend(hex(session));
    bytes.extend(buffers.iter().flat_map(|buffer| adler32(buffer).to_be_bytes()));
    format!("> {}\n", spaced(&bytes))
}

/// The public check value and the digest of nothing.
#[test]
fn adler_check_value() {
    assert_eq!((adler32(b"Wikipedia"), adler32(b"")), (0x11E6_0398, 1));
}

/// A line and its answer, written out whole: 7F connects the fresh board.
#[test]
fn a_whole_line_and_its_answer() {
    let printed = "> 00 00 00 00 00 00 00 00 00 00 00 01 79 \
        01 00 00 00 00 00 00 00 00 00 00 00 00 00 00 00 00 02 00 00 00 00 02 \
        01 01 00 01 7F C2 87 72 20 00 00 01 02 18 3F 67 7A 7A 00 7A\n";
    assert_eq!((BYTE_LINE.len(), answer_to(BYTE_LINE)), (250, printed.to_owned()));
}

/// Staged bytes, memories and reply buffer are those that the line says: a read of four bytes of SRAM, which counts by threes from 1.
#[test]
fn a_read_by_hand() {
    let step = "01 05 00 00 00 00 00 00 00 01 00 00 00 00 00 00 00 02 20 00 00 05 03 09 02 03";
    let line = changed(&changed(BYTE_LINE, 0, step), 47, "00 00 20 00 01 03");
    let line = changed(&changed(&line, 69, "FC"), 68, "C3");
    let sram: Vec<u8> = (0..8_192_u32).map(|index| (1 + 3 * index) as u8).collect();
    let (mut usd, mut reply) = ([0xFF; 64], [0xC3; 257]);
    usd[0] = 0xA5;
    reply[..5].copy_from_slice(&[0x79, 0x10, 0x13, 0x16, 0x19]);
    let idle = "01 00 00 00 00 00 00 00 00 00 00 00 00 00 00 00 00 02 00 00 00 00 03";
    assert_eq!(answer_to(&line), answer(0, [0; 3], "79 10 13 16 19", idle, [&[0; 257], &[0xFF; 32_768], &sram, &usd, &reply]));
}

/// The reason is one byte and the place two: a write of 256 bytes outside all regions is refused at byte 265, and 255 gathered bytes before.
#[test]
fn nacks_by_hand() {
    let step = "01 07 00 00 00 00 00 00 01 00 00 00 00 00 00 00 01 01 00 00 00 00 02";
    let mut usd = [0xFF; 64];
    usd[0] = 0xA5;
    let left = |session, reason, place: u16, reply: &str, buffer: &[u8]| {
        let [high, low] = place.to_be_bytes();
        answer(0, [reason, high, low], reply, session, [&[0; 257], &[0xFF; 32_768], &[0; 8_192], &usd, buffer])
    };
    let idle = "01 00 00 00 00 00 00 00 00 00 00 00 00 00 00 00 00 02 00 00 00 00 02";
    let mut buffer = [0; 363];
    buffer[0] = 0x1F;
    let line = changed(&changed(BYTE_LINE, 0, step), 69, "FF");
    assert_eq!(answer_to(&line), left(idle, 6, 265, "1F", &buffer[..257]));
    let step = "02 03 00 00 00 00 00 00 00 FF 00 00 00 00 00 00 01 00 00 00 00 00 02";
    let idle = "02 00 00 00 00 00 00 00 00 00 00 00 00 00 00 00 00 01 00 00 00 00 02";
    let line = changed(&changed(BYTE_LINE, 0, step), 64, "00 00 01 6B 00 00 0B 00 63 01 20").replacen('B', "F", 1);
    buffer[..4].copy_from_slice(&[0x00, 0x63, 0x01, 0x1F]);
    assert_eq!(answer_to(&line), left(idle, 8, 255, "00 63 01 1F 00 00 00 00 00 00 00", &buffer));
}

/// A huge session is unsound, then a short frame, a short reply buffer and a short USD come first; nothing changes.
#[test]
fn causes_by_hand() {
    let huge = "02 00 00 00 00 01 00 00 00 00 00 00 00 01 00 00 00 01 00 00 00 07 02";
    let mut line = changed(BYTE_LINE, 0, huge).replacen('B', "F", 1);
    line = changed(&changed(&line, 23, "0A 01"), 64, "00 00 01 6B C3 00 0B 00 01");
    let rule: Vec<u8> = (0..257).map(|index| if index < 16 { 0 } else { (10 + index) as u8 }).collect();
    let usd = hex("A5 FF FF FF FF FF FF FF FE");
    let mut whole = vec![0xFF; 64];
    whole[0] = 0xA5;
    let refused = |number, usd: &[u8], reply| answer(number, [0; 3], "", huge, [&rule, &[0xFF; 32_768], &[0; 8_192], usd, reply]);
    assert_eq!(answer_to(&line), refused(4, &whole, &[0xC3; 363]));
    line = changed(&line, 70, "0A");
    assert_eq!(answer_to(&line), refused(3, &whole, &[0xC3; 363]));
    line = changed(&line, 64, "00 00 01 6A");
    assert_eq!(answer_to(&line), refused(2, &whole, &[0xC3; 362]));
    line = changed(&line, 53, "00 00 00 09 FF 00 A5 FE");
    assert_eq!(answer_to(&line), refused(1, &usd, &[0xC3; 362]));
}

/// What is not exactly a vector's line is none, and ends the program.
#[test]
fn other_lines_are_no_vectors() {
    let frame = changed(BYTE_LINE, 69, "00 0B 00 79").replacen('B', "F", 1);
    assert!(Vector::read(BYTE_LINE.as_bytes()).is_some() && Vector::read(frame.as_bytes()).is_some());
    let over = [(0, "0G"), (41, "00 00 9C 41"), (49, "28"), (56, "51"), (67, "91"), (70, "01"), (82, "01")];
    let mut lines: Vec<String> = over.iter().map(|(index, bytes)| changed(BYTE_LINE, *index, bytes)).collect();
    let over = [(69, "01"), (70, "0D"), (70, "08 00 79 00 00 00 00 00 00 00 00 01")];
    lines.extend(over.iter().map(|(index, bytes)| changed(&frame, *index, bytes)));
    lines.extend([BYTE_LINE[..247].to_owned(), format!("{BYTE_LINE} 00"), format!("{BYTE_LINE} "), BYTE_LINE.to_lowercase()]);
    lines.extend([BYTE_LINE.replacen('B', "C", 1), BYTE_LINE.replacen('B', "F", 1), frame.replacen('F', "B", 1), String::new()]);
    for line in lines {
        assert_eq!(Vector::read(line.as_bytes()), None, "{line}");
        let said = bench::run(Path::new("."), env!("CARGO_BIN_EXE_vectors"), "run", &format!("{BYTE_LINE}\n{line}\n"));
        assert_eq!(said, (answer_to(BYTE_LINE), "line 2 is no vector\n".into(), 1));
    }
}

/// A reply that is a NACK, or ends with one behind the ACK of an erase on CAN, has a reason and nothing else has. The place is from 2 to 265 on
/// UART, to 255 on CAN, and 0 behind an ACK and where there is no NACK.
fn test_nack(replied: &[u8], has_reason: bool, place: u16) {
    let places = match replied {
        [0x1F] => Some(2..=265),
        [0..=7, _, 1, 0x1F, _, _, _, _, _, _, _] => Some(0..=255),
        [0, 0x44, .., 1, 0x1F, _, _, _, _, _, _, _] => Some(0..=0),
        _ => None,
    };
    assert_eq!(has_reason, places.is_some(), "{replied:02X?}");
    assert!(places.unwrap_or(0..=0).contains(&place), "{replied:02X?} at {place}");
}

/// A line of 251 characters is read back as its vector; a refused call leaves everything, an accepted one a sound session.
#[test]
fn every_call_keeps_its_promises() {
    for vector in random(5, 4_500) {
        let line = vector.line();
        assert_eq!(line.len(), 251);
        assert_eq!(Vector::read(line.strip_suffix(b"\n").unwrap()), Some(vector.clone()));
        let (after, reply) = (vector.call(), vector.reply());
        match after.called {
            Ok(taken) => {
                let (replied, rest) = after.reply.split_at(taken.length);
                assert_eq!(*rest, reply[taken.length..]);
                test_nack(replied, taken.reason().is_some(), taken.place);
                assert!(after.session.sound_step().is_ok());
            }
            Err(_) => assert_eq!((after.session, after.store, after.reply), (vector.session(), vector.store(), reply)),
        }
    }
}
