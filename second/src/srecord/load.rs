//! Loading a text into an image of flash.

use super::lines;
use super::record::{Flaw, Kind, Record};
use crate::board::{FLASH, SECTOR_BYTES};

/// Why a text is refused, in Wish 1's order, with the type digit's value of the line that decides.
#[derive(Clone, Copy, Debug, PartialEq, Eq)]
pub enum Cause {
    /// The image has not 32,768 bytes.
    WrongImageLength,
    /// A line is no record, or stands after the ending record.
    BadLine(Flaw),
    /// The last byte of a line is not its checksum.
    BadChecksum(u8),
    /// A data byte's address lies outside flash after the shift.
    AddressOutsideFlash(u8),
    /// A data byte's place was loaded by an earlier line.
    Overlap(u8),
    /// No line is faulty, and none ends the file.
    NoEndingRecord,
}

/// A refused text: why, and the line that decides, from 1, or 0 where no line does.
#[derive(Clone, Copy, Debug, PartialEq, Eq)]
pub struct Refusal {
    pub cause: Cause,
    pub line: usize,
}

/// What an accepted text has loaded.
#[derive(Clone, Copy, Debug, PartialEq, Eq)]
pub struct Loaded {
    /// The data bytes.
    pub bytes: usize,
    /// The sectors that hold at least one of them.
    pub sectors: usize,
}

/// What comes of loading a text.
pub type Answer = Result<Loaded, Refusal>;

/// Loads a text into an image, the shift added to each address; a refused text leaves the image.
pub fn load(text: &[u8], shift: i16, image: &mut [u8]) -> Answer {
    if image.len() != FLASH.bytes {
        return Err(no_line(Cause::WrongImageLength));
    }
    let mut loading = Loading { shift, image: image.to_vec(), is_loaded: vec![false; FLASH.bytes], is_ended: false };
    for (number, line) in (1..).zip(lines(text)) {
        loading.take(line).map_err(|cause| Refusal { cause, line: number })?;
    }
    if !loading.is_ended {
        return Err(no_line(Cause::NoEndingRecord));
    }
    image.copy_from_slice(&loading.image);
    Ok(loading.loaded())
}

/// A refusal that no line decides.
fn no_line(cause: Cause) -> Refusal {
    Refusal { cause, line: 0 }
}

/// A text that is being loaded.
struct Loading {
    shift: i16,
    image: Vec<u8>,
    is_loaded: Vec<bool>,
    is_ended: bool,
}

impl Loading {
    /// Takes the next line, or tells its first fault.
    fn take(&mut self, line: &[u8]) -> Result<(), Cause> {
        let read = Record::read(line);
        if self.is_ended {
            let digit = read.map(|record| record.digit).ok();
            return Err(Cause::BadLine(Flaw::After(digit)));
        }
        let record = read.map_err(Cause::BadLine)?;
        if !record.is_right {
            return Err(Cause::BadChecksum(record.digit));
        }
        match record.kind {
            Kind::Data if !record.data.is_empty() => self.store(&record)?,
            Kind::Header | Kind::Data | Kind::Number => {}
            Kind::Ending => self.is_ended = true,
        }
        Ok(())
    }

    /// Puts the data of a record that has some into the image, when all its bytes lie in flash after the shift.
    fn store(&mut self, record: &Record) -> Result<(), Cause> {
        let address = record.address.checked_add_signed(self.shift.into());
        let first = address.and_then(|address| FLASH.offset_of(address, record.count()));
        let first = first.ok_or(Cause::AddressOutsideFlash(record.digit))?;
        let places = first..first + record.count();
        if self.is_loaded[places.clone()].contains(&true) {
            return Err(Cause::Overlap(record.digit));
        }
        for (place, byte) in places.zip(record.bytes()) {
            (self.image[place], self.is_loaded[place]) = (byte, true);
        }
        Ok(())
    }

    /// Counts what was loaded.
    fn loaded(&self) -> Loaded {
        let sectors = self.is_loaded.chunks(SECTOR_BYTES);
        Loaded {
            bytes: self.is_loaded.iter().filter(|loaded| **loaded).count(),
            sectors: sectors.filter(|sector| sector.contains(&true)).count(),
        }
    }
}
