//! Random S-record files: right ones, made from a table of edges, of which most are spoilt, and what
//! they reach.

mod draft;
mod spoil;

use crate::board::{ERASED, FLASH};
use crate::dice::Dice;
use crate::srecord::{load, met};
use std::collections::BTreeMap;
use std::fmt;

/// The images that a file may be loaded onto: the word for one, and how many bytes it has.
const IMAGES: [(&str, usize); 5] =
    [("erased", FLASH.bytes), ("old", FLASH.bytes), ("short", FLASH.bytes - 1), ("long", FLASH.bytes + 1), ("empty", 0)];

/// Of so many images one may have a wrong length.
const ANY_IMAGE: usize = 30;

/// How often a file is spoilt.
const TIMES: [usize; 8] = [0, 1, 1, 1, 1, 1, 1, 2];

/// Of so many files one is no draft at all.
const JUNK: usize = 60;

/// A random file, and how it is to be loaded.
#[derive(Clone, Debug, PartialEq, Eq)]
pub struct RandomFile {
    pub text: Vec<u8>,
    pub shift: i16,
    /// The word for the image to load it onto.
    pub onto: &'static str,
    bytes: usize,
}

impl RandomFile {
    /// The file of a seed.
    pub fn of(seed: u64) -> RandomFile {
        let mut dice = Dice::seeded(seed);
        let images = if dice.once_in(ANY_IMAGE) { 5 } else { 2 };
        let (onto, bytes) = IMAGES[dice.below(images)];
        let shift = draft::shift(&mut dice);
        let mut lines = draft::lines(shift, &mut dice);
        for _ in 0..dice.one_of(&TIMES) {
            spoil::spoil(&mut lines, shift, &mut dice);
        }
        let text = if dice.once_in(JUNK) { spoil::junk(&mut dice) } else { spoil::joined(&lines, &mut dice) };
        RandomFile { text, shift, onto, bytes }
    }
}

/// How many files reached each of the things that can come of one.
pub struct Reached(BTreeMap<String, usize>);

impl Reached {
    /// What the files of these seeds reach; something that cannot come of a file is an error.
    pub fn by(seeds: impl Iterator<Item = u64>) -> Result<Reached, String> {
        let images = IMAGES.iter().map(|(onto, _)| format!("onto: {onto}"));
        let can = met::all().into_iter().chain(images);
        let mut counts: BTreeMap<String, usize> = can.map(|name| (name, 0)).collect();
        for seed in seeds {
            let file = RandomFile::of(seed);
            let answer = load(&file.text, file.shift, &mut vec![ERASED; file.bytes]);
            let mut names = met::met(&file.text, file.shift, &answer);
            names.insert(format!("onto: {}", file.onto));
            for name in names {
                let count = counts.get_mut(&name);
                *count.ok_or(format!("seed {seed}: {name} cannot be"))? += 1;
            }
        }
        Ok(Reached(counts))
    }

    /// The names of what was not reached.
    pub fn missing(&self) -> Vec<&str> {
        let missing = self.0.iter().filter(|(_, count)| **count == 0);
        missing.map(|(name, _)| name.as_str()).collect()
    }
}

impl fmt::Display for Reached {
    /// Writes a line for each thing that can be reached, and how many were.
    fn fmt(&self, formatter: &mut fmt::Formatter) -> fmt::Result {
        for (name, count) in &self.0 {
            writeln!(formatter, "{count:7} {name}")?;
        }
        let all = self.0.len();
        writeln!(formatter, "{} of {all} reached", all - self.missing().len())
    }
}
