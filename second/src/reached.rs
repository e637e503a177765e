//! What inputs reached, counted from what the board did, against the table of what can be reached.

use crate::calls::{Cause, Taken};
use crate::can::running_id;
use crate::commands::{CAN_LIST, UART_LIST};
use crate::ends::{End, Given, Kind, Met, ANOTHER};
use crate::refused::Refusal;
use crate::session::{CanStep, Session, Step, UartStep};
use std::collections::BTreeMap;
use std::fmt;

/// How often a pair is to be reached by random inputs before other pairs are as welcome.
const ENOUGH: usize = 3;

impl Met {
    /// A byte or frame that a session met and how its call ended; `first` is the byte or the ID.
    pub fn call(before: &Session, given: Given, first: u16, called: &Result<Taken, Cause>) -> Met {
        let at = Step::named(before.carrier, before.step);
        let end = match called {
            Err(cause) => End::Cause(*cause),
            Ok(taken) => taken.ended.map_or_else(refused, End::Did),
        };
        let command = match (given, at, end) {
            (_, _, End::Cause(_)) => None,
            (Given::Byte, Some(Step::Uart(UartStep::Idle)), _) if before.taken == 1 => Some(known(u16::from(before.staged[0]), &UART_LIST)),
            (Given::Frame, Some(Step::Can(CanStep::Idle)), _) => Some(known(first, &CAN_LIST)),
            _ => None,
        };
        Met { given, at, command, end }
    }

    /// The command that leads to this, if that is known.
    pub fn to_command(self) -> Option<u16> {
        match self.at {
            Some(Step::Can(step)) => self.command.or(running_id(step)),
            _ => self.command,
        }
    }
}

/// How an input ended that was refused, by one reason or by the first of more.
fn refused(Refusal { rule, also }: Refusal) -> End {
    also.map_or(End::Nack(rule), |also| End::NackOfBoth(rule.reason(), also))
}

/// A command of the list, whose first byte is the version, or `ANOTHER`.
fn known(command: u16, list: &[u8]) -> u16 {
    let listed = list[1..].iter().any(|byte| u16::from(*byte) == command);
    if listed {
        command
    } else {
        ANOTHER
    }
}

impl fmt::Display for Met {
    /// Writes what was given, where, to which command, and its end.
    fn fmt(&self, formatter: &mut fmt::Formatter) -> fmt::Result {
        let at = self.at.map_or("no step".to_owned(), |step| format!("{step:?}"));
        let command = match self.command {
            Some(ANOTHER) => ", another command".to_owned(),
            Some(command) => format!(", command 0x{command:02X}"),
            None => String::new(),
        };
        write!(formatter, "{:?} at {at}{command}: {:?}", self.given, self.end)
    }
}

/// How often each pair of step and end was reached.
#[derive(Clone, Debug)]
pub struct Reached {
    table: BTreeMap<Met, usize>,
    outside: BTreeMap<Met, usize>,
}

impl Reached {
    /// Nothing reached yet of what inputs of a kind can reach.
    pub fn nothing(kind: Kind) -> Reached {
        Reached { table: kind.table().into_iter().map(|met| (met, 0)).collect(), outside: BTreeMap::new() }
    }

    /// What inputs of a kind reached that met these.
    pub fn by(kind: Kind, met: impl Iterator<Item = Met>) -> Reached {
        let mut reached = Reached::nothing(kind);
        met.for_each(|met| reached.count(&[met]));
        reached
    }

    /// Counts what was met.
    pub fn count(&mut self, met: &[Met]) {
        for met in met {
            let counted = self.table.get_mut(met);
            *counted.unwrap_or_else(|| self.outside.entry(*met).or_default()) += 1;
        }
    }

    /// Takes the one of some that meets what was met most rarely, if not often enough, and counts what it meets.
    pub fn take_rarest<T>(&mut self, tried: impl Iterator<Item = (Vec<Met>, T)>) -> Option<T> {
        let times = |met: &Met| self.table.get(met).copied();
        let rarest = |met: &[Met]| met.iter().filter_map(times).min().map_or(ENOUGH, |times| times.min(ENOUGH));
        let (met, taken) = tried.min_by_key(|(met, _)| rarest(met))?;
        self.count(&met);
        Some(taken)
    }

    /// The pairs that were not met often enough.
    pub fn wanted(&self) -> Vec<Met> {
        self.under(ENOUGH).collect()
    }

    /// The pairs that can be reached and were not.
    pub fn missing(&self) -> Vec<String> {
        self.under(1).map(|met| met.to_string()).collect()
    }

    /// The pairs that were met fewer times.
    fn under(&self, times: usize) -> impl Iterator<Item = Met> + '_ {
        self.table.iter().filter(move |(_, met)| **met < times).map(|(met, _)| *met)
    }

    /// Tells whether nothing was met outside the table and, where all is to be covered, nothing is missing.
    pub fn holds(&self, covered: bool) -> bool {
        self.outside.is_empty() && (!covered || self.missing().is_empty())
    }

    /// The pairs that the table does not allow.
    pub fn outside(&self) -> Vec<String> {
        self.outside.keys().map(Met::to_string).collect()
    }
}

impl fmt::Display for Reached {
    /// Writes how often each pair was reached, which were not, which should not, and how many were.
    fn fmt(&self, formatter: &mut fmt::Formatter) -> fmt::Result {
        let counted = self.table.iter().map(|(met, times)| format!("{times:7} {met}"));
        let missing = self.missing().into_iter().map(|met| format!("not reached: {met}"));
        let outside = self.outside().into_iter().map(|met| format!("not in the table: {met}"));
        let lines: Vec<String> = counted.chain(missing).chain(outside).collect();
        let (all, not) = (self.table.len(), self.missing().len());
        writeln!(formatter, "{}\n{} of {all} pairs reached", lines.join("\n"), all - not)
    }
}
