//! The file in which a program keeps a board's memories: flash, SRAM and user system data, one behind the other.

use crate::board::{FLASH, SRAM, USD};
use crate::memories::Store;
use crate::srecord::said::failed;
use std::fs::{self, File};
use std::io::{self, ErrorKind, Read, Write};
use std::path::{Path, PathBuf};
use std::process;

/// The bytes of the file, 41,024.
pub const KEPT_BYTES: usize = FLASH.bytes + SRAM.bytes + USD.bytes;

/// A file, and the memories that it holds.
#[derive(Debug)]
pub struct Kept {
    path: PathBuf,
    held: Store,
}

impl Kept {
    /// Reads the memories of a file, or makes a missing file with those of a fresh board; what is said where that cannot be follows its name.
    pub fn open(path: &Path) -> Result<Kept, String> {
        match File::open(path) {
            Err(error) if error.kind() == ErrorKind::NotFound => Kept::make(path).map_err(|error| failed(&error)),
            opened => {
                let bytes = opened.and_then(read).map_err(|error| failed(&error))?;
                Ok(Kept { path: path.to_owned(), held: store_of(&bytes?) })
            }
        }
    }

    /// Makes the file of a fresh board.
    fn make(path: &Path) -> io::Result<Kept> {
        let made = Kept { path: path.to_owned(), held: Store::fresh() };
        made.write(&made.held)?;
        Ok(made)
    }

    /// The memories that the file holds.
    pub fn store(&self) -> &Store {
        &self.held
    }

    /// Keeps the memories if they are not those that the file holds.
    pub fn keep(&mut self, store: &Store) -> io::Result<()> {
        if self.held != *store {
            self.write(store)?;
            self.held.clone_from(store);
        }
        Ok(())
    }

    /// Writes memories to a part beside the file, which then takes its place; of a failure no part is left.
    fn write(&self, store: &Store) -> io::Result<()> {
        let mut part = self.path.clone().into_os_string();
        part.push(format!(".{}.part", process::id()));
        let written = write_part(part.as_ref(), store).and_then(|()| fs::rename(&part, &self.path));
        if written.is_err() {
            let _ = fs::remove_file(&part);
        }
        written
    }
}

/// Writes memories to a file that does not hold them until all of them are on the disk.
fn write_part(part: &Path, store: &Store) -> io::Result<()> {
    let mut file = File::create(part)?;
    file.write_all(&[&store.flash[..], &store.sram, &store.usd].concat())?;
    file.sync_all()
}

/// Reads a file, of which a longer one is not read to its end; one of another length has words for that.
fn read(mut file: File) -> io::Result<Result<Vec<u8>, String>> {
    let mut bytes = Vec::new();
    let read = (&mut file).take(KEPT_BYTES as u64 + 1).read_to_end(&mut bytes)? as u64;
    if bytes.len() == KEPT_BYTES {
        return Ok(Ok(bytes));
    }
    let all = file.metadata()?.len().max(read);
    Ok(Err(format!(": it has {all} bytes, and a board's memories are {KEPT_BYTES}")))
}

/// The memories that so many bytes are.
fn store_of(bytes: &[u8]) -> Store {
    let (flash, rest) = bytes.split_at(FLASH.bytes);
    let (sram, usd) = rest.split_at(SRAM.bytes);
    Store { flash: flash.to_vec(), sram: sram.to_vec(), usd: usd.to_vec() }
}
