//! The three memories, lent for one call or kept as a store.

use crate::board::{ACCESS_BYTE, ACCESS_OPEN, ERASED, FLASH, SRAM, USD};

/// The three memories as they are lent to a call, of any length.
#[derive(Debug)]
pub struct Memories<'a> {
    pub flash: &'a mut [u8],
    pub sram: &'a mut [u8],
    pub usd: &'a mut [u8],
}

impl Memories<'_> {
    /// Tells whether each memory has its region's length.
    pub fn have_right_lengths(&self) -> bool {
        self.flash.len() == FLASH.bytes && self.sram.len() == SRAM.bytes && self.usd.len() == USD.bytes
    }
}

/// Three memories kept between calls.
#[derive(Clone, Debug, PartialEq, Eq)]
pub struct Store {
    pub flash: Vec<u8>,
    pub sram: Vec<u8>,
    pub usd: Vec<u8>,
}

impl Store {
    /// The memories of a fresh board: USD A5 then all FF, flash FF, SRAM 00.
    pub fn fresh() -> Store {
        let mut usd = vec![0xFF; USD.bytes];
        usd[ACCESS_BYTE] = ACCESS_OPEN;
        Store { flash: vec![ERASED; FLASH.bytes], sram: vec![0; SRAM.bytes], usd }
    }

    /// Lends the three memories.
    pub fn lend(&mut self) -> Memories<'_> {
        Memories { flash: &mut self.flash, sram: &mut self.sram, usd: &mut self.usd }
    }
}
