//! Effects shared by both carriers, each with the rules that refuse it.

use crate::board::{
    memory_of, Memory, ACCESS_BYTE, ACCESS_LOCKED, ACCESS_OPEN, ERASED, FLASH, SECTORS, SECTOR_BITS_BYTES, SECTOR_BITS_FIRST, SECTOR_BYTES,
    USD,
};
use crate::commands::{is_protected, ACCESS_PROTECT, ACCESS_UNPROTECT, UNPROTECT};
use crate::crc::crc32_mpeg2_of_words;
use crate::ends::Effect;
use crate::memories::Memories;
use crate::near::{Edge, Miss, Outside, Span, Which};
use crate::refused::{broken_if, judge, judged, Refusal, Refused, Test};
use crate::session::Next;
use std::ops::Range;

/// The special erase selector of the first bank, which is all flash.
const ERASE_BANK_1: u32 = 0xFFFE;

/// The special erase selector of all flash.
const ERASE_ALL: u32 = 0xFFFF;

/// The USD sector bits when no sector is write-protected.
const NO_SECTOR_PROTECTED: [u8; SECTOR_BITS_BYTES] = [0xFF; SECTOR_BITS_BYTES];

/// The most bytes or indexes that one byte can count, sent as one less.
const MOST: usize = 256;

/// What an obeyed input did, and where the session goes.
pub type Done = (Effect, Next);

/// Tells whether access protection is on.
pub fn protection_is_on(usd: &[u8]) -> bool {
    usd[ACCESS_BYTE] != ACCESS_OPEN
}

/// Tests whether a command is protected while protection is on.
pub fn locked(command: u16, memories: &Memories) -> Test {
    broken_if(is_protected(command) && protection_is_on(memories.usd), Refused::Protected)
}

/// Tells whether a sector is write-protected: bit k mod 8 of USD byte 8 + k/8 is 0.
pub fn sector_is_protected(usd: &[u8], sector: usize) -> bool {
    usd[SECTOR_BITS_FIRST + sector / 8] & (1 << (sector % 8)) == 0
}

/// Tests whether one of these sectors is write-protected.
fn protected_among(usd: &[u8], sectors: impl Iterator<Item = usize>) -> Test {
    let protected = sectors.map(|sector| sector_is_protected(usd, sector));
    Which::refused(protected).map(Refused::ProtectedSector)
}

/// Tests whether an address is in no region.
fn no_region(address: u32) -> Test {
    broken_if(memory_of(address, 1).is_none(), Refused::NoRegion(Outside::of(address, 1)))
}

/// Tests whether X bytes begin in a region and leave it.
fn leaves(address: u32, x: usize) -> Test {
    let leaves = memory_of(address, 1).is_some() && memory_of(address, x).is_none();
    broken_if(leaves, Refused::Range(Outside::of(address, x)))
}

/// The memory of an address, and where in it; an address that is in no region is refused, or one that breaks a rule of the carrier.
pub fn in_a_region(address: u32, of_carrier: &[Test]) -> Result<(Memory, Edge), Refusal> {
    let found = memory_of(address, 1).map(|(memory, offset)| (memory, Edge::of(offset, 0, memory.region().bytes - 1)));
    judged(&[of_carrier, &[no_region(address)]], found)
}

/// What is told of X bytes of a memory, which now are these.
fn span(memory: Memory, offset: usize, bytes: &[u8]) -> Span {
    let x = bytes.len();
    Span::of(x, MOST, offset + x == memory.region().bytes, offset == 0, used(memory, bytes))
}

/// Whether bytes of a memory are those of a fresh board; USD always has its access byte to show.
fn used(memory: Memory, bytes: &[u8]) -> Span {
    let fresh = match memory {
        Memory::Flash => bytes.iter().all(|byte| *byte == ERASED),
        Memory::Sram => bytes.iter().all(|byte| *byte == 0),
        Memory::Usd => false,
    };
    fresh_if(fresh)
}

/// Fresh or used.
fn fresh_if(fresh: bool) -> Span {
    if fresh {
        Span::Fresh
    } else {
        Span::Used
    }
}

/// The X bytes from an address on, when they all lie in one region.
pub fn read<'m>(memories: &'m Memories, address: u32, x: usize, of_carrier: &[Test]) -> Result<(Effect, &'m [u8]), Refusal> {
    let (memory, offset) = judged(&[of_carrier, &[no_region(address), leaves(address, x)]], memory_of(address, x))?;
    let bytes: &[u8] = match memory {
        Memory::Flash => memories.flash,
        Memory::Sram => memories.sram,
        Memory::Usd => memories.usd,
    };
    let bytes = &bytes[offset..offset + x];
    Ok((Effect::Read(memory, span(memory, offset, bytes)), bytes))
}

/// The sectors of flash in which one of X bytes lies, wherever they begin and end.
fn touched(address: u32, x: usize) -> Range<usize> {
    let [first, end] = [u64::from(address), u64::from(address) + x as u64];
    let [flash, behind] = [FLASH.first, FLASH.end()].map(u64::from);
    let [first, end] = [first, end].map(|place| (place.clamp(flash, behind) - flash) as usize);
    if first == end {
        return 0..0;
    }
    first / SECTOR_BYTES..end.div_ceil(SECTOR_BYTES)
}

/// Tests whether bytes in USD are other than the whole of it.
fn usd_in_part(address: u32, x: usize) -> Test {
    let miss = if address > USD.first { Miss::Behind } else { Miss::of(x, USD.bytes, USD.bytes) };
    broken_if(USD.holds(address) && (address, x) != (USD.first, USD.bytes), Refused::UsdRule(miss))
}

/// Where X bytes may be written: valid range, no protected sector touched, USD only whole.
pub fn writable(memories: &Memories, address: u32, x: usize, of_carrier: &[Test]) -> Result<(Memory, usize), Refusal> {
    let protected = protected_among(memories.usd, touched(address, x));
    let rules = [no_region(address), leaves(address, x), usd_in_part(address, x), protected];
    judged(&[of_carrier, &rules], memory_of(address, x))
}

/// Writes the data where it may go, or refuses it whole.
pub fn write(memories: &mut Memories, address: u32, data: &[u8], of_carrier: &[Test]) -> Result<Done, Refusal> {
    let (memory, offset) = writable(memories, address, data.len(), of_carrier)?;
    let border = at_border(memories, memory, offset, data.len());
    let (bytes, next) = match memory {
        Memory::Flash => (&mut *memories.flash, Next::Idle),
        Memory::Sram => (&mut *memories.sram, Next::Idle),
        Memory::Usd => (&mut *memories.usd, Next::Reset),
    };
    let bytes = &mut bytes[offset..offset + data.len()];
    let effect = Effect::Wrote(memory, border.unwrap_or_else(|| span(memory, offset, bytes)));
    for (old, new) in bytes.iter_mut().zip(data) {
        *old = if memory == Memory::Flash { *old & new } else { *new };
    }
    Ok((effect, next))
}

/// What is told of X bytes to be written at the border of a sector of flash.
fn at_border(memories: &Memories, memory: Memory, offset: usize, x: usize) -> Option<Span> {
    let end = offset + x;
    let protected = |offset: usize| offset < FLASH.bytes && sector_is_protected(memories.usd, offset / SECTOR_BYTES);
    match memory {
        Memory::Sram | Memory::Usd => None,
        Memory::Flash if offset / SECTOR_BYTES < (end - 1) / SECTOR_BYTES => Some(Span::Across),
        Memory::Flash if offset.is_multiple_of(SECTOR_BYTES) && protected(offset.wrapping_sub(1)) => Some(Span::BehindProtected),
        Memory::Flash if end.is_multiple_of(SECTOR_BYTES) && protected(end) => Some(Span::BeforeProtected),
        Memory::Flash => None,
    }
}

/// Erases the sectors named by two-byte numbers, high first, or refuses the whole list.
pub fn erase_list(memories: &mut Memories, list: &[u8], of_carrier: &[Test]) -> Result<Done, Refusal> {
    judge(&[of_carrier, &erasable(memories, list)])?;
    let mut bytes = Span::Fresh;
    for sector in sector_numbers(list) {
        let sector = &mut memories.flash[sector * SECTOR_BYTES..][..SECTOR_BYTES];
        bytes = bytes.max(used(Memory::Flash, sector));
        sector.fill(ERASED);
    }
    let named = |sector| sector_numbers(list).any(|named| named == sector);
    Ok((Effect::ErasedList(Span::of(list.len() / 2, SECTORS, named(SECTORS - 1), named(0), bytes)), Next::Idle))
}

/// What a list of sectors to erase breaks: a number is over 31, or one of the others is that of a write-protected sector.
fn erasable(memories: &Memories, list: &[u8]) -> [Test; 2] {
    let protected = |sector| sector < SECTORS && sector_is_protected(memories.usd, sector);
    let which = Which::refused(sector_numbers(list).map(protected));
    [no_sector(sector_numbers(list)), which.map(Refused::ProtectedSector)]
}

/// Tests whether one of these numbers is over 31.
fn no_sector(numbers: impl Iterator<Item = usize> + Clone) -> Test {
    let mut over = numbers.clone().filter(|number| *number >= SECTORS);
    let miss = over.next().map_or(Miss::Far, |number| Miss::of(number, 0, SECTORS - 1));
    let which = Which::refused(numbers.map(|number| number >= SECTORS));
    which.map(|which| Refused::SectorNumber(which, miss))
}

/// The two-byte sector numbers of a list, high first.
fn sector_numbers(list: &[u8]) -> impl Iterator<Item = usize> + Clone + '_ {
    list.chunks_exact(2).map(|pair| usize::from(u16::from_be_bytes([pair[0], pair[1]])))
}

/// What a special erase breaks: only two selectors erase, and these name all flash.
fn erasable_by(memories: &Memories, selector: u32) -> Test {
    let protected = protected_among(memories.usd, 0..SECTORS);
    match selector {
        ERASE_ALL | ERASE_BANK_1 => protected,
        _ if protected.is_some() => Some(Refused::SpecialEraseOfProtected),
        _ if selector == ERASE_BANK_1 - 1 => Some(Refused::SpecialErase(Miss::Before)),
        _ => Some(Refused::SpecialErase(Miss::by_high_byte(selector & ERASE_ALL >= ERASE_BANK_1))),
    }
}

/// Erases all flash for the two selectors that mean it, unless a sector is write-protected.
pub fn erase_special(memories: &mut Memories, selector: u32, of_carrier: &[Test]) -> Result<Done, Refusal> {
    judge(&[of_carrier, &[erasable_by(memories, selector)]])?;
    let bytes = used(Memory::Flash, memories.flash);
    memories.flash.fill(ERASED);
    Ok((Effect::ErasedAll(Edge::of(selector as usize, ERASE_BANK_1 as usize, ERASE_ALL as usize), bytes), Next::Idle))
}

/// Makes the indexed sectors the only protected ones, then reset, or refuses all.
pub fn protect_only(memories: &mut Memories, indexes: &[u8], of_carrier: &[Test]) -> Result<Done, Refusal> {
    let sectors = indexes.iter().map(|index| usize::from(*index));
    judge(&[of_carrier, &[no_sector(sectors.clone())]])?;
    let mut bits = NO_SECTOR_PROTECTED;
    for sector in sectors.clone() {
        bits[sector / 8] &= !(1 << (sector % 8));
    }
    let named = |sector| sectors.clone().any(|named| named == sector);
    let earlier = (0..SECTORS).any(|sector| sector_is_protected(memories.usd, sector) && !named(sector));
    let span = Span::of(indexes.len(), MOST, named(SECTORS - 1), named(0), fresh_if(!earlier));
    set_sector_bits(memories, bits);
    Ok((Effect::ProtectedSectors(span), Next::Reset))
}

/// Does what a command without further input does (0x73, 0x82, 0x92, 0xD4), then reset.
pub fn resetting(command: u16, memories: &mut Memories) -> Done {
    let effect = match command {
        UNPROTECT => {
            let bits = fresh_if(protected_among(memories.usd, 0..SECTORS).is_none());
            set_sector_bits(memories, NO_SECTOR_PROTECTED);
            Effect::ReleasedSectors(bits)
        }
        ACCESS_PROTECT => {
            memories.usd[ACCESS_BYTE] = ACCESS_LOCKED;
            Effect::Locked
        }
        ACCESS_UNPROTECT => access_unprotect(memories),
        _ => Effect::Reset,
    };
    (effect, Next::Reset)
}

/// Sets USD bytes 8 to 11.
fn set_sector_bits(memories: &mut Memories, bits: [u8; SECTOR_BITS_BYTES]) {
    let last = SECTOR_BITS_FIRST + SECTOR_BITS_BYTES;
    memories.usd[SECTOR_BITS_FIRST..last].copy_from_slice(&bits);
}

/// Turns access protection off and wipes flash and SRAM, if it was on.
fn access_unprotect(memories: &mut Memories) -> Effect {
    if !protection_is_on(memories.usd) {
        return Effect::LeftOpen;
    }
    let flash = used(Memory::Flash, memories.flash);
    let sram = used(Memory::Sram, memories.sram);
    memories.flash.fill(ERASED);
    memories.sram.fill(0);
    memories.usd[ACCESS_BYTE] = ACCESS_OPEN;
    Effect::Wiped(flash.max(sram))
}

/// Refuses a jump unless its address is in flash or SRAM.
pub fn jump(address: u32, of_carrier: &[Test]) -> Result<Done, Refusal> {
    let target = memory_of(address, 1).filter(|(memory, _)| *memory != Memory::Usd);
    let outside = broken_if(target.is_none(), Refused::JumpAddress(Outside::of(address, 1)));
    let (memory, offset) = judged(&[of_carrier, &[outside]], target)?;
    Ok((Effect::Jumped(memory, Edge::of(offset, 0, memory.region().bytes - 1)), Next::Running(address)))
}

/// Tests whether an address is not a sector start in flash.
fn no_sector_start(address: u32) -> Test {
    let starts = FLASH.offset_of(address, 1).is_some_and(|offset| offset.is_multiple_of(SECTOR_BYTES));
    broken_if(!starts, Refused::SectorStart(Outside::of(address, 1)))
}

/// The sector that starts at an address; an address that is not a sector start in flash is refused.
pub fn sector_start(address: u32, of_carrier: &[Test]) -> Result<usize, Refusal> {
    let offset = judged(&[of_carrier, &[no_sector_start(address)]], FLASH.offset_of(address, 1))?;
    Ok(offset / SECTOR_BYTES)
}

/// Tests whether so many sectors' bytes begin in flash and leave it.
fn sectors_leave(address: u32, sectors: usize) -> Test {
    let most = FLASH.end().saturating_sub(address) as usize / SECTOR_BYTES;
    broken_if(FLASH.holds(address) && sectors > most, Refused::SectorRange(Miss::of(sectors, 1, most)))
}

/// The CRC over the words of whole sectors from a sector start on, all inside flash.
pub fn firmware_crc(memories: &Memories, address: u32, sectors: usize, of_carrier: &[Test]) -> Result<(Effect, u32), Refusal> {
    let bytes = sectors * SECTOR_BYTES;
    let offset = judged(&[of_carrier, &[no_sector_start(address), sectors_leave(address, sectors)]], FLASH.offset_of(address, bytes))?;
    let first = offset / SECTOR_BYTES;
    let summed = &memories.flash[offset..offset + bytes];
    let (groups, rest) = summed.as_chunks();
    debug_assert!(rest.is_empty());
    let effect = Effect::Summed(Span::of(sectors, SECTORS, first + sectors == SECTORS, first == 0, used(Memory::Flash, summed)));
    Ok((effect, crc32_mpeg2_of_words(groups)))
}
