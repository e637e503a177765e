//! The board on the desk: its regions, its sectors, the layout of USD and its identity.

/// A run of addresses that one lent memory answers for.
#[derive(Clone, Copy, Debug, PartialEq, Eq)]
pub struct Region {
    pub first: u32,
    pub bytes: usize,
}

impl Region {
    /// Gives the offset of `address` when all `count` bytes from there on lie in this region.
    pub fn offset_of(&self, address: u32, count: usize) -> Option<usize> {
        let offset = address.checked_sub(self.first)? as usize;
        let end = offset.checked_add(count)?;
        (offset < self.bytes && end <= self.bytes).then_some(offset)
    }

    /// The address just behind the region.
    pub fn end(&self) -> u32 {
        self.first + self.bytes as u32
    }

    /// Tells whether `address` lies in this region.
    pub fn holds(&self, address: u32) -> bool {
        self.offset_of(address, 1).is_some()
    }
}

pub const SECTORS: usize = 32;
pub const SECTOR_BYTES: usize = 1_024;
pub const FLASH: Region = Region { first: 0x0800_0000, bytes: SECTORS * SECTOR_BYTES };
pub const SRAM: Region = Region { first: 0x2000_0000, bytes: 8_192 };
pub const USD: Region = Region { first: 0x1FFF_F800, bytes: 64 };

/// The three memories by name.
#[derive(Clone, Copy, Debug, PartialEq, Eq, PartialOrd, Ord)]
pub enum Memory {
    Flash,
    Sram,
    Usd,
}

impl Memory {
    pub const ALL: [Memory; 3] = [Memory::Flash, Memory::Sram, Memory::Usd];

    /// The region that the memory answers for.
    pub fn region(self) -> Region {
        match self {
            Memory::Flash => FLASH,
            Memory::Sram => SRAM,
            Memory::Usd => USD,
        }
    }
}

/// The memory in which all `count` bytes from an address on lie, and their offset in it.
pub fn memory_of(address: u32, count: usize) -> Option<(Memory, usize)> {
    Memory::ALL.into_iter().find_map(|memory| Some((memory, memory.region().offset_of(address, count)?)))
}

pub const ERASED: u8 = 0xFF;

/// The index of the USD byte that turns access protection off or on.
pub const ACCESS_BYTE: usize = 0;

/// The only value of the access byte that means protection off.
pub const ACCESS_OPEN: u8 = 0xA5;

/// The value that Access Protect puts into the access byte.
pub const ACCESS_LOCKED: u8 = 0x00;

/// The index of the first of the USD bytes that hold one bit per sector.
pub const SECTOR_BITS_FIRST: usize = 8;

/// The number of USD bytes that hold one bit per sector.
pub const SECTOR_BITS_BYTES: usize = SECTORS / 8;
pub const PROTOCOL_VERSION: u8 = 0x20;
pub const BID: [u8; 2] = [0x01, 0x07];
pub const PRODUCT_ID: u32 = 0x1234_5678;
pub const PROJECT_ID: u8 = 0x5A;
