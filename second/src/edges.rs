//! The one table of values at the edges of rules, from which random inputs are made.

use crate::board::{Region, ACCESS_LOCKED, ACCESS_OPEN, FLASH, SECTORS, SECTOR_BITS_BYTES, SECTOR_BYTES, SRAM, USD};
use crate::commands::{CAN_LIST, ERASE, FIRMWARE_CRC, PROTECT, READ_MEMORY, UART_LIST, UNPROTECT, WRITE_MEMORY};
use crate::dice::Dice;

/// Regions, those with rules of their own twice, and how far apart the borders in each are.
const REGIONS: [(Region, usize); 5] =
    [(FLASH, SECTOR_BYTES), (FLASH, SECTOR_BYTES), (SRAM, SECTOR_BYTES), (USD, USD.bytes), (USD, USD.bytes)];

/// How far an address is from the start of a region, from a border in it, and from its end.
const FROM_START: [i32; 4] = [0, 0, 1, -1];
const FROM_BORDER: [i32; 7] = [0, 0, 0, -1, -2, -8, -512];
const FROM_END: [i32; 8] = [0, 0, -1, -1, -2, -8, -256, -1024];

/// Counts X of bytes or of sector indexes.
const COUNTS: [usize; 16] = [1, 1, 2, 2, 3, 4, 5, 7, 8, 9, 16, 17, 32, 64, 255, 256];

/// Counts of sectors.
const SECTOR_COUNTS: [usize; 9] = [1, 2, 3, 31, 32, 33, 257, 257, 65_536];

/// Sector numbers that name none.
const NO_SECTORS: [u16; 8] = [32, 32, 32, 33, 255, 256, 0x8000, 0xFFFF];

/// Erase selectors that are no counts.
const SELECTORS: [u16; 11] = [32, 33, 0x0100, 0xFFFA, 0xFFFB, 0xFFFC, 0xFFFD, 0xFFFE, 0xFFFE, 0xFFFF, 0xFFFF];

/// Addresses of special erases, and one that only looks like it.
const SPECIALS: [u32; 6] = [0xFFFB, 0xFFFC, 0xFFFD, 0xFFFE, 0xFFFF, 0x1_FFFF];

/// Values of USD byte 0 that mean protection on.
const LOCKED: [u8; 5] = [ACCESS_LOCKED, 0xFF, 0x5A, 0xA4, 0x25];

/// Values of each of USD bytes 8 to 11.
const SECTOR_BITS: [u8; 8] = [0xFF, 0xFF, 0xFF, 0xFF, 0x00, 0xFE, 0x7F, 0xEF];

/// Speeds, and what is none.
pub const SPEEDS: [u8; 6] = [0, 1, 2, 3, 4, 0xFF];

/// Numbers no session should hold, most of them too great.
pub const HUGE: [u64; 6] = [0, 1, 258, 1 << 32, 1 << 63, u64::MAX];

/// Commands that have steps, and so more to reach; writes have most. Released sectors can be erased.
const STEPPED: [u16; 8] = [READ_MEMORY, WRITE_MEMORY, WRITE_MEMORY, ERASE, ERASE, PROTECT, UNPROTECT, FIRMWARE_CRC];

/// An address near a border of a region or of a sector, now and then any.
pub fn address(dice: &mut Dice) -> u32 {
    if dice.once_in(12) {
        return dice.number() as u32;
    }
    let (region, apart) = dice.one_of(&REGIONS);
    let borders = region.bytes / apart;
    let inner = dice.below(borders);
    let (border, away) = match dice.below(6) {
        0 | 1 => (0, dice.one_of(&FROM_START)),
        2 => (1, dice.one_of(&FROM_BORDER)),
        3 => (borders, dice.one_of(&FROM_END)),
        _ => (inner, dice.one_of(&FROM_BORDER)),
    };
    let border = region.first + (apart * border) as u32;
    border.wrapping_add_signed(away)
}

/// A count X from 1 to 256: one of the table, any, or such that an address's bytes end near a border.
pub fn count(address: u32, dice: &mut Dice) -> usize {
    let apart = if USD.holds(address) { USD.bytes } else { SECTOR_BYTES };
    let left = apart - address as usize % apart;
    match dice.below(16) {
        0 => dice.between(1, 256),
        1..11 if left <= 256 => (left + dice.one_of(&[0, 1, 1, 2])).clamp(2, 257) - 1,
        _ => dice.one_of(&COUNTS),
    }
}

/// A count of sectors: one of the table, or as many as are left in flash, or nearly.
pub fn sector_count(address: u32, dice: &mut Dice) -> usize {
    let left = (FLASH.end().saturating_sub(address) as usize / SECTOR_BYTES).min(SECTORS);
    let near = (left + dice.below(3)).max(2) - 1;
    if dice.coin() {
        near
    } else {
        dice.one_of(&SECTOR_COUNTS)
    }
}

/// A sector: that of an address, one beside it, the first, the last or any.
fn sector(address: u32, dice: &mut Dice) -> usize {
    let near = FLASH.offset_of(address, 1).map_or(0, |offset| offset / SECTOR_BYTES);
    let any = dice.below(SECTORS);
    dice.one_of(&[near, near, (near + 1) % SECTORS, near.saturating_sub(1), 0, SECTORS - 1, SECTORS - 1, any])
}

/// Sector numbers, sometimes all the same, one of them now and then of no sector.
pub fn sectors(count: usize, address: u32, dice: &mut Dice) -> Vec<u16> {
    let near = sector(address, dice);
    let mut sectors = vec![dice.one_of(&[0, SECTORS - 1, near, near]) as u16; count];
    if !dice.once_in(3) {
        sectors.fill_with(|| sector(address, dice) as u16);
    }
    if dice.once_in(4) {
        let any = dice.below(count);
        sectors[dice.one_of(&[0, count - 1, any])] = dice.one_of(&NO_SECTORS);
    }
    sectors
}

/// An erase selector: a count less one, or not.
pub fn selector(dice: &mut Dice) -> u16 {
    match dice.below(4) {
        0 => dice.one_of(&[0, 1, 30, 31]),
        1 => dice.below(SECTORS) as u16,
        _ => dice.one_of(&SELECTORS),
    }
}

/// An address as it stands in a session that no talk reaches.
pub fn any_address(dice: &mut Dice) -> u32 {
    match dice.below(3) {
        0 => dice.one_of(&SPECIALS),
        _ => address(dice),
    }
}

/// USD byte 0, mostly that of protection off.
pub fn access(dice: &mut Dice) -> u8 {
    let locked = dice.one_of(&LOCKED);
    dice.one_of(&[ACCESS_OPEN, ACCESS_OPEN, locked])
}

/// USD bytes 8 to 11: no sector protected, one alone, two that lie side by side, or any of the table.
pub fn all_sector_bits(address: u32, dice: &mut Dice) -> [u8; SECTOR_BITS_BYTES] {
    let [one, two] = [1, 3_u32].map(|bits| (!(bits << sector(address, dice))).to_le_bytes());
    let any = [0; SECTOR_BITS_BYTES].map(|_| dice.one_of(&SECTOR_BITS));
    dice.one_of(&[[0xFF; SECTOR_BITS_BYTES], one, two, any])
}

/// A command of a carrier, those with steps more often than others, or none at all.
pub fn command(on_can: bool, dice: &mut Dice) -> u16 {
    let list: &[u8] = if on_can { &CAN_LIST } else { &UART_LIST };
    match dice.below(20) {
        0 => u16::from(dice.byte()),
        1 => dice.one_of(&[0x03, 0x79, 0x7F]),
        2..11 => dice.one_of(&STEPPED),
        _ => u16::from(dice.one_of(&list[1..])),
    }
}
