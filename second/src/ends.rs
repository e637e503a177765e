//! What can come of an input at each step: the board is held to this table, and random inputs must reach all of it.

use crate::board::Memory;
use crate::calls::Cause;
use crate::near::{Edge, Miss, Span};
use crate::refused::{Reason, Refused};
use crate::session::{CanStep, Step, UartStep, Unsound, CARRIER_NONE, CARRIER_RUNNING};
use crate::steps;

/// What an obeyed input did, where, and with which bytes.
#[derive(Clone, Copy, Debug, PartialEq, Eq, PartialOrd, Ord)]
pub enum Effect {
    /// It was taken, and the step expects more.
    Waits,
    /// It was not heard: it does not connect, or came on the other carrier, or in no line.
    Unheard,
    Connected,
    Told,
    /// It entered a step with a count, sector or selector, or with an address.
    Entered(Step, Edge),
    EnteredAt(Step, Memory, Edge),
    Read(Memory, Span),
    Wrote(Memory, Span),
    /// It wrote, and dropped the padding of its last frame.
    WrotePadded,
    ErasedList(Span),
    /// It erased all flash, by one selector or the other.
    ErasedAll(Edge, Span),
    /// It made sectors the only protected ones; they are used if others were.
    ProtectedSectors(Span),
    ReleasedSectors(Span),
    Locked,
    Wiped(Span),
    /// It would have, but protection was off.
    LeftOpen,
    Reset,
    Jumped(Memory, Edge),
    Summed(Span),
    ChangedSpeed(Edge),
    PoweredOn,
}

/// How an input ended.
#[derive(Clone, Copy, Debug, PartialEq, Eq, PartialOrd, Ord)]
pub enum End {
    Cause(Cause),
    /// The answer ended with NACK, and no other reason held than that of the rule.
    Nack(Refused),
    /// It ended with NACK for the first reason, and the second is the next that held too.
    NackOfBoth(Reason, Reason),
    Did(Effect),
}

/// What a board is given.
#[derive(Clone, Copy, Debug, PartialEq, Eq, PartialOrd, Ord)]
pub enum Given {
    Byte,
    Frame,
    Power,
    /// A line that is no line.
    NoLine,
}

/// An input that a board met: what, at which step, to which command if that is known, and its end.
#[derive(Clone, Copy, Debug, PartialEq, Eq, PartialOrd, Ord)]
pub struct Met {
    pub given: Given,
    /// The step that carrier and step number name, if they name one.
    pub at: Option<Step>,
    /// The command that an idle board took, or `ANOTHER`.
    pub command: Option<u16>,
    pub end: End,
}

/// Stands for all commands that there are not.
pub const ANOTHER: u16 = u16::MAX;

/// Where inputs come from, which decides what can come of them.
#[derive(Clone, Copy, Debug, PartialEq, Eq)]
pub enum Kind {
    /// A talk from power on, on UART.
    Uart,
    /// A talk from power on, on both carriers.
    Mixed,
    /// The raw bytes of a talk on UART from one power on; only its end brings an obeyed Jump, to the start of flash.
    Raw,
    /// Single calls on any session and buffers.
    Calls,
}

impl Kind {
    /// All that can come of this kind of input; the session of a single call may name no step.
    pub fn table(self) -> Vec<Met> {
        let given: &[Given] = match self {
            Kind::Uart => &[Given::Byte, Given::Power, Given::NoLine],
            Kind::Mixed => &[Given::Byte, Given::Frame, Given::Power, Given::NoLine],
            Kind::Raw => &[Given::Byte],
            Kind::Calls => &[Given::Byte, Given::Frame],
        };
        let mut steps = vec![Some(Step::None), Some(Step::Running)];
        steps.extend(UartStep::ALL.map(|step| Some(Step::Uart(step))));
        if matches!(self, Kind::Mixed | Kind::Calls) {
            steps.extend(CanStep::ALL.map(|step| Some(Step::Can(step))));
        }
        if self == Kind::Calls {
            steps.push(None);
        }
        given.iter().flat_map(|given| steps.iter().flat_map(|at| self.at_step(*given, *at))).collect()
    }

    /// All that can come of an input at a step.
    fn at_step(self, given: Given, at: Option<Step>) -> Vec<Met> {
        let only = |effect| (vec![(None, End::Did(effect))], vec![]);
        let (mut ends, by_hand) = match (given, at) {
            (Given::Power, _) => only(Effect::PoweredOn),
            (Given::NoLine, _) | (Given::Byte, Some(Step::Can(_))) | (Given::Frame, Some(Step::Uart(_))) => only(Effect::Unheard),
            (_, None) => (vec![], vec![]),
            (_, Some(step)) => (steps::ends(step), steps::ends_by_hand(step)),
        };
        ends.extend(self.causes(given, at).map(|cause| (None, End::Cause(cause))));
        if self == Kind::Calls {
            ends.extend(by_hand.into_iter().map(|end| (None, end)));
        }
        ends.into_iter().filter(|(_, end)| self.may_end(*end)).map(|(command, end)| Met { given, at, command, end }).collect()
    }

    /// Tells whether inputs of this kind may end so at all: raw bytes obey no Jump but their last.
    fn may_end(self, end: End) -> bool {
        let last = End::Did(Effect::Jumped(Memory::Flash, Edge::Least));
        self != Kind::Raw || end == last || !matches!(end, End::Did(Effect::Jumped(..)))
    }

    /// The causes for which a call at a step can be refused.
    fn causes(self, given: Given, at: Option<Step>) -> impl Iterator<Item = Cause> {
        let call = matches!(given, Given::Byte | Given::Frame);
        let single = self == Kind::Calls;
        let causes = [
            (Cause::MemoryLength, single),
            (Cause::ReplyLength, single),
            (Cause::BadFrame, given == Given::Frame),
            (Cause::Running, call && at == Some(Step::Running)),
        ];
        let unsound = unsound(at).into_iter().map(move |why| (Cause::UnsoundSession(why), single));
        causes.into_iter().chain(unsound).filter_map(|(cause, can_be)| can_be.then_some(cause))
    }
}

/// Why a session can be unsound at a step, or at none.
fn unsound(at: Option<Step>) -> Vec<Unsound> {
    use Unsound::{Carrier, Expected, Speed, Taken};
    let Some(step) = at else {
        return (CARRIER_NONE..=CARRIER_RUNNING).map(Unsound::Step).chain([Carrier]).collect();
    };
    let mut all = vec![Speed, Expected(Miss::Before), Expected(Miss::Behind), Expected(Miss::Far)];
    all.extend(step.expects().has_gaps().then_some(Expected(Miss::Between)));
    all.extend(Edge::ALL.map(Taken));
    all
}
