//! How near an input comes to the edge of a rule: what the board tells beside the rule or the effect.

use crate::board::Memory;

/// Where a value lies among those that are allowed.
#[derive(Clone, Copy, Debug, PartialEq, Eq, PartialOrd, Ord)]
pub enum Edge {
    Least,
    Between,
    Most,
}

impl Edge {
    pub const ALL: [Edge; 3] = [Edge::Least, Edge::Between, Edge::Most];

    /// Where a value lies from the least to the greatest.
    pub fn of(value: usize, least: usize, most: usize) -> Edge {
        match value {
            _ if value == least => Edge::Least,
            _ if value == most => Edge::Most,
            _ => Edge::Between,
        }
    }
}

/// How a value misses those that are allowed.
#[derive(Clone, Copy, Debug, PartialEq, Eq, PartialOrd, Ord)]
pub enum Miss {
    /// It is one too small.
    Before,
    /// It is one too great.
    Behind,
    /// It lies between those that are allowed.
    Between,
    /// Only what is above its low byte is wrong.
    HighByte,
    /// It is farther away.
    Far,
}

impl Miss {
    /// How a number misses those from the least to the greatest.
    pub fn of(number: usize, least: usize, most: usize) -> Miss {
        match number {
            _ if number + 1 == least => Miss::Before,
            _ if number == most + 1 => Miss::Behind,
            _ => Miss::by_high_byte((least..=most).contains(&(number & 0xFF))),
        }
    }

    /// How a number misses whose low byte alone would be allowed or not.
    pub fn by_high_byte(low_byte_fits: bool) -> Miss {
        if low_byte_fits {
            Miss::HighByte
        } else {
            Miss::Far
        }
    }
}

/// Which ones of several a rule refuses.
#[derive(Clone, Copy, Debug, PartialEq, Eq, PartialOrd, Ord)]
pub enum Which {
    Only,
    /// The first alone, of more.
    First,
    /// The last alone, of more.
    Last,
    /// Another, or more than one.
    Others,
}

impl Which {
    pub const ALL: [Which; 4] = [Which::Only, Which::First, Which::Last, Which::Others];

    /// Which ones are refused, if any is.
    pub fn refused(each: impl Iterator<Item = bool>) -> Option<Which> {
        let each: Vec<bool> = each.collect();
        match each.iter().filter(|refused| **refused).count() {
            0 => None,
            1 if each.len() == 1 => Some(Which::Only),
            1 if each[0] => Some(Which::First),
            1 if each[each.len() - 1] => Some(Which::Last),
            _ => Some(Which::Others),
        }
    }
}

/// Where bytes lie that may not be there.
#[derive(Clone, Copy, Debug, PartialEq, Eq, PartialOrd, Ord)]
pub enum Outside {
    /// They begin one byte before a memory.
    Before(Memory),
    /// They begin just behind a memory.
    Behind(Memory),
    /// They begin in a memory and end one byte behind it.
    EndsBehind(Memory),
    /// They begin in a memory and end farther away.
    EndsFar(Memory),
    /// They are in a memory, but that is not allowed.
    In(Memory),
    /// They begin elsewhere.
    Away,
}

impl Outside {
    /// Where so many bytes from an address on lie.
    pub fn of(address: u32, count: usize) -> Outside {
        let (first, end) = (u64::from(address), u64::from(address) + count as u64);
        let near = |memory: Memory| {
            let region = memory.region();
            let (start, behind) = (u64::from(region.first), u64::from(region.end()));
            match () {
                _ if first + 1 == start => Some(Outside::Before(memory)),
                _ if first == behind => Some(Outside::Behind(memory)),
                _ if !region.holds(address) => None,
                _ if end <= behind => Some(Outside::In(memory)),
                _ if end == behind + 1 => Some(Outside::EndsBehind(memory)),
                _ => Some(Outside::EndsFar(memory)),
            }
        };
        Memory::ALL.into_iter().find_map(near).unwrap_or(Outside::Away)
    }
}

/// What is told of the bytes, sectors or indexes that a command was obeyed for.
#[derive(Clone, Copy, Debug, PartialEq, Eq, PartialOrd, Ord)]
pub enum Span {
    /// They are as many as there can be.
    Most,
    One,
    /// The last of all is among them.
    AtLast,
    /// The first of all is among them.
    AtFirst,
    /// They lie in two sectors.
    Across,
    /// The sector just before them is write-protected.
    BehindProtected,
    /// The sector just behind them is write-protected.
    BeforeProtected,
    /// They are those of a fresh board.
    Fresh,
    /// They are not, so that what was done with them shows.
    Used,
}

impl Span {
    /// What can be wherever they lie.
    pub const PLAIN: [Span; 6] = [Span::Most, Span::One, Span::AtLast, Span::AtFirst, Span::Fresh, Span::Used];

    /// Whether they show what was done.
    pub const USE: [Span; 2] = [Span::Fresh, Span::Used];

    /// What can stand at the border of a sector.
    pub const AT_BORDERS: [Span; 3] = [Span::Across, Span::BehindProtected, Span::BeforeProtected];

    /// What is told of so many, up to the most, that are fresh or used.
    pub fn of(count: usize, most: usize, at_last: bool, at_first: bool, used: Span) -> Span {
        match count {
            _ if count == most => Span::Most,
            1 => Span::One,
            _ if at_last => Span::AtLast,
            _ if at_first => Span::AtFirst,
            _ => used,
        }
    }
}
