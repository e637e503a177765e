//! The CRC against its check value, divisions done bit by bit, and values that other programs gave.

use crate::bench::{with_xor, Bench};
use second::crc::{crc32_mpeg2, crc32_mpeg2_of_words};

/// The values that programs of others gave, as rows of a table.
const OUTSIDE: &str = include_str!("../../../expected/crc.md");

/// A real firmware.
const FIRMWARE: &[u8] = include_bytes!("../../../expected/images/scale.bin");

/// CRC-32/MPEG-2 as document 01 words it, one bit at a time.
fn bit_by_bit(bytes: &[u8]) -> u32 {
    let bits = bytes.iter().flat_map(|byte| (0..8).rev().map(move |bit| byte >> bit & 1));
    bits.fold(0xFFFF_FFFF, |register: u32, bit| (register << 1) ^ ((register >> 31 ^ u32::from(bit)) * 0x04C1_1DB7))
}

/// The bytes with document 01's order reversed "within each group of four" (document 02, Wish 3).
fn reversed(bytes: &[u8]) -> Vec<u8> {
    bytes.chunks(4).flat_map(|group| group.iter().rev().copied()).collect()
}

/// The public check value, and agreement with the division bit by bit, over bytes and over words.
#[test]
fn same_as_bit_by_bit() {
    assert_eq!(crc32_mpeg2(b"123456789"), 0x0376_E6E7);
    assert_eq!(bit_by_bit(b"123456789"), 0x0376_E6E7);
    let bytes: Vec<u8> = (0..2_048_u32).map(|index| (index * index + index / 7) as u8).collect();
    for words in (0..=40).chain([255, 256, 257, 512]) {
        let bytes = &bytes[..4 * words];
        let of_words = crc32_mpeg2_of_words(bytes.as_chunks().0);
        assert_eq!(crc32_mpeg2(bytes), bit_by_bit(bytes));
        assert_eq!(of_words, bit_by_bit(&reversed(bytes)));
        assert_eq!(of_words == crc32_mpeg2(bytes), words == 0);
    }
    for length in [1, 2, 255] {
        assert_eq!(crc32_mpeg2(&bytes[..length]), bit_by_bit(&bytes[..length]));
    }
}

/// The CRCs of erased flash that the talks name.
#[test]
fn values_of_the_talks() {
    assert_eq!(bit_by_bit(&[0xFF; 1_024]), 0xD000_A3E2);
    assert_eq!(bit_by_bit(&[0xFF; 32_768]), 0x42A8_3D27);
}

/// Every value of the table, as the board answers on UART and on CAN.
#[test]
fn values_from_outside() {
    let cells = |line: &'static str| line.split('|').map(str::trim).collect::<Vec<_>>();
    let rows = OUTSIDE.lines().map(cells);
    let rows: Vec<_> = rows.filter(|row| ["counting", "firmware"].contains(row.get(1).unwrap_or(&""))).collect();
    assert_eq!(rows.len(), 6);
    for row in rows {
        let mut flash = if row[1] == "firmware" { FIRMWARE.to_vec() } else { (0..=255).cycle().take(32_768).collect() };
        flash.resize(32_768, 0xFF);
        let (first, sectors): (u32, u8) = (row[2].parse().unwrap(), row[3].parse().unwrap());
        let (start, count) = ((0x0800_0000 + 1_024 * first).to_be_bytes(), sectors - 1);
        let (mut on_uart, mut on_can) = (Bench::idle_on(1), Bench::idle_on(2));
        (on_uart.store.flash, on_can.store.flash) = (flash.clone(), flash);
        let asked = [&[0xAC, 0x53][..], &with_xor(&start), &[0, count, !count]].concat();
        assert_eq!(on_uart.uart(&asked), format!("79 79 79 {}", row[4]));
        let asked = [&start[..], &[0, count]].concat();
        assert_eq!(on_can.can(0xAC, &asked), format!("0AC:79 0AC:{}", row[4].replace(' ', "")));
    }
}
