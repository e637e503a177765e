//! CRC-32/MPEG-2: high bit first, no reflection, no final XOR; over bytes, and over words.

const POLYNOMIAL: u32 = 0x04C1_1DB7;
const START: u32 = 0xFFFF_FFFF;
const HIGH_BIT: u32 = 0x8000_0000;

/// How many words are taken at a time.
const WORDS: usize = 4;

/// Row n: the register's change for each value of a byte behind which n more are taken.
static CHANGES: [[u32; 256]; 4 * WORDS] = changes();

/// Shifts one bit out of the register, high bit first.
const fn shift(register: u32) -> u32 {
    if register & HIGH_BIT == 0 {
        register << 1
    } else {
        (register << 1) ^ POLYNOMIAL
    }
}

/// Works out the table of changes: eight shifts for each value, and eight more in each next row.
const fn changes() -> [[u32; 256]; 4 * WORDS] {
    let mut table = [[0; 256]; 4 * WORDS];
    let mut value = 0;
    while value < 256 {
        let mut register = (value as u32) << 24;
        let mut row = 0;
        while row < table.len() {
            let mut bit = 0;
            while bit < 8 {
                register = shift(register);
                bit += 1;
            }
            table[row][value] = register;
            row += 1;
        }
        value += 1;
    }
    table
}

/// The CRC-32/MPEG-2 of the bytes in their order, as the check value has it.
pub fn crc32_mpeg2(bytes: &[u8]) -> u32 {
    bytes.iter().fold(START, |register, byte| {
        let high = (register >> 24) as u8 ^ byte;
        (register << 8) ^ CHANGES[0][usize::from(high)]
    })
}

/// The CRC-32/MPEG-2 of groups of four bytes, each a little-endian word from its highest byte down.
pub fn crc32_mpeg2_of_words(groups: &[[u8; 4]]) -> u32 {
    let (many, rest) = groups.as_chunks::<WORDS>();
    let register = many.iter().fold(START, after);
    rest.iter().fold(register, |register, group| after(register, &[*group]))
}

/// The register after up to WORDS words: each byte changes it by the row of how many come behind.
fn after<const N: usize>(register: u32, groups: &[[u8; 4]; N]) -> u32 {
    let mut words = groups.map(u32::from_le_bytes);
    words[0] ^= register;
    let mut change = 0;
    for (word, rows) in words.iter().rev().zip(CHANGES.as_chunks::<4>().0) {
        for (byte, row) in word.to_le_bytes().iter().zip(rows) {
            change ^= row[usize::from(*byte)];
        }
    }
    change
}
