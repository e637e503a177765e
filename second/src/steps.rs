//! The table of all steps and commands, a row for each: what a host sends there, and how that can end.

use crate::board::Memory;
use crate::can::needed_dlc;
use crate::commands::{
    is_protected, ACCESS_PROTECT, ACCESS_UNPROTECT, CAN_LIST, ERASE, FIRMWARE_CRC, GET_COMMANDS, GET_DEVICE_ID, GET_VERSION, JUMP, PROTECT,
    READ_MEMORY, RESET_DEVICE, SPEED, UART_LIST, UNPROTECT, WRITE_MEMORY,
};
use crate::ends::{Effect, End, ANOTHER};
use crate::inputs::{Check, Item};
use crate::near::{Edge, Miss, Outside, Span, Which};
use crate::refused::{Reason, Refused};
use crate::session::Step::{Can, Uart};
use crate::session::{CanStep, Expects, Step, UartStep};
use std::collections::BTreeSet;
use Ends::{All, BeginsOutside, Begun, Both, Did, Edges, Entered, EnteredIn, In, Leaves, Missed, Nack, NoSectors, Sectors, Spans};

/// What a host sends at a step, the check behind it, how that can end, and how it can only in sessions that no talk reaches.
#[derive(Clone, Copy, Debug)]
pub struct Row(pub &'static [Item], pub Check, pub &'static [Ends], pub &'static [Ends]);

/// What a host sends in the frame of a command, how that can end on CAN, and how the command can end on UART.
#[derive(Clone, Copy, Debug)]
pub struct CommandRow(pub &'static [Item], pub &'static [Ends], pub &'static [Ends]);

/// The row of a step.
pub fn row(step: Step) -> Row {
    match step {
        Step::None => Row(&[], Check::None, &[Did(Effect::Connected), Did(Effect::Unheard)], &[]),
        Step::Running => Row(&[], Check::None, &[], &[]),
        Uart(step) => uart_row(step),
        Can(step) => can_row(step),
    }
}

/// The row of a UART step.
fn uart_row(step: UartStep) -> Row {
    use Item::{Address, Count, Data, Indexes, Numbers, SectorCount, Selector};
    match step {
        UartStep::Idle => Row(&[Item::Command], Check::Command, &[], &[]),
        UartStep::ReadAddress => Row(&[Address], Check::Xor, &[NO_REGION, EnteredIn(Uart(UartStep::ReadLength), &Memory::ALL)], &[]),
        UartStep::JumpAddress => Row(&[Address], Check::Xor, &[JUMP_ENDS], &[]),
        UartStep::WriteAddress => Row(&[Address], Check::Xor, &[NO_REGION, EnteredIn(Uart(UartStep::WriteLength), &Memory::ALL)], &[]),
        UartStep::CrcAddress => Row(&[Address], Check::Xor, &[NO_SECTOR_START, Entered(Uart(UartStep::CrcCount))], &[]),
        UartStep::ReadLength => Row(&[Count], Check::Complement, &[Leaves, READ], &[NO_REGION]),
        UartStep::WriteLength => Row(&[Count], Check::None, &[Entered(Uart(UartStep::WriteData))], &[]),
        UartStep::WriteData => Row(&[Data], Check::Xor, &[UNWRITABLE, WROTE], &[BEGINS_BEFORE_FLASH]),
        UartStep::EraseSelector => {
            Row(&[Selector], Check::None, &[NO_SELECTOR, Entered(Uart(UartStep::EraseList)), Entered(Uart(UartStep::SpecialCheck))], &[])
        }
        UartStep::SpecialCheck => Row(&[], Check::Special, &[SPECIAL_ERASE], &[Nack(Refused::SpecialErase(Miss::HighByte))]),
        UartStep::EraseList => Row(&[Numbers], Check::Xor, &[ERASE_LIST], &[]),
        UartStep::ProtectLength => Row(&[Count], Check::None, &[Entered(Uart(UartStep::ProtectList))], &[]),
        UartStep::ProtectList => Row(&[Indexes], Check::Xor, &[PROTECT_LIST], &[]),
        UartStep::CrcCount => Row(&[SectorCount], Check::Inverse, &[CRC_ENDS], &[NO_SECTOR_START, NO_START_AND_LEAVES]),
    }
}

/// The row of a CAN step.
fn can_row(step: CanStep) -> Row {
    match step {
        CanStep::Idle => Row(&[], Check::None, &[], &[]),
        CanStep::WriteData => Row(&[Item::Data], Check::Frame, &[Did(Effect::WrotePadded), WROTE], &[BEGINS_BEFORE_FLASH, UNWRITABLE]),
        CanStep::EraseList => Row(&[Item::Numbers], Check::Frame, &[EXTRA_BYTES, EXTRA_AND_PROTECTED, ERASE_LIST], &[]),
        CanStep::ProtectList => Row(&[Item::Indexes], Check::Frame, &[EXTRA_BYTES, PROTECT_LIST], &[]),
    }
}

/// The row of a command of an idle board, or of `ANOTHER`.
pub fn command_row(command: u16) -> CommandRow {
    use CommandRow as Row;
    use Item::{Address, Any, Count, SectorCount, Selector, Speed};
    let alike = |ends| Row(&[Any], ends, ends);
    match command {
        GET_COMMANDS | GET_VERSION | GET_DEVICE_ID => alike(&[Did(Effect::Told)]),
        SPEED => Row(&[Speed], &[Missed(Refused::Speed, &[Miss::Behind, Miss::Far]), Edges(Effect::ChangedSpeed)], &[]),
        READ_MEMORY => Row(&[Address, Count], &[NO_REGION, Leaves, READ], &[Begun(UartStep::ReadAddress)]),
        JUMP => Row(&[Address], &[JUMP_ENDS], &[Begun(UartStep::JumpAddress)]),
        WRITE_MEMORY => Row(&[Address, Count], &[BEGINS_BEFORE_FLASH, UNWRITABLE, BEGUN_WRITE], &[Begun(UartStep::WriteAddress)]),
        ERASE => Row(&[Selector], &[NO_SELECTOR, SPECIAL_ERASE, Entered(Can(CanStep::EraseList))], &[Begun(UartStep::EraseSelector)]),
        PROTECT => Row(&[Count], &[Entered(Can(CanStep::ProtectList))], &[Begun(UartStep::ProtectLength)]),
        FIRMWARE_CRC => Row(&[Address, SectorCount], &[NO_SECTOR_START, NO_START_AND_LEAVES, CRC_ENDS], &[Begun(UartStep::CrcAddress)]),
        UNPROTECT => alike(&[Spans(Effect::ReleasedSectors, &Span::USE)]),
        ACCESS_PROTECT => alike(&[Did(Effect::Locked)]),
        ACCESS_UNPROTECT => alike(&[Spans(Effect::Wiped, &Span::USE), Did(Effect::LeftOpen)]),
        RESET_DEVICE => alike(&[Did(Effect::Reset)]),
        _ => Row(&[Any], &[Missed(Refused::Unknown, &[Miss::HighByte, Miss::Far])], UNKNOWN),
    }
}

/// Ends that stand together: those of one rule or effect, however near its edge, or those of some.
#[derive(Clone, Copy, Debug)]
pub enum Ends {
    All(&'static [Ends]),
    Nack(Refused),
    /// Two reasons hold together.
    Both(Reason, Reason),
    Missed(fn(Miss) -> Refused, &'static [Miss]),
    /// Some sectors are refused, or some numbers that miss the sectors.
    Sectors(&'static [Which]),
    NoSectors(&'static [Miss]),
    /// Bytes begin outside all memories, or leave the one that they begin in.
    BeginsOutside(fn(Outside) -> Refused),
    Leaves,
    Did(Effect),
    Edges(fn(Edge) -> Effect),
    Spans(fn(Span) -> Effect, &'static [Span]),
    In(Memory, fn(Memory, Span) -> Effect, &'static [Span]),
    /// A UART command begins with a step.
    Begun(UartStep),
    /// A step is entered with a count, sector or selector, or with an address in these memories.
    Entered(Step),
    EnteredIn(Step, &'static [Memory]),
}

impl Ends {
    /// Each of these ends.
    fn each(self) -> Vec<End> {
        match self {
            All(ends) => ends.iter().flat_map(|ends| ends.each()).collect(),
            Nack(rule) => vec![End::Nack(rule)],
            Both(first, also) => vec![End::NackOfBoth(first, also)],
            Missed(rule, misses) => nacks(rule, misses),
            Sectors(which) => nacks(Refused::ProtectedSector, which),
            NoSectors(misses) => misses.iter().flat_map(|miss| nacks(|which| Refused::SectorNumber(which, *miss), &Which::ALL)).collect(),
            BeginsOutside(rule) => {
                let near = Memory::ALL.map(|memory| [Outside::Before(memory), Outside::Behind(memory)]);
                nacks(rule, &[near.as_flattened(), &[Outside::Away]].concat())
            }
            Leaves => {
                nacks(Refused::Range, Memory::ALL.map(|memory| [Outside::EndsBehind(memory), Outside::EndsFar(memory)]).as_flattened())
            }
            Did(effect) => vec![End::Did(effect)],
            Edges(effect) => dids(effect, &Edge::ALL),
            Spans(effect, spans) => dids(effect, spans),
            In(memory, effect, spans) => dids(|span| effect(memory, span), spans),
            Begun(step) => vec![End::Did(Effect::Entered(Uart(step), Edge::Least))],
            Entered(step) => dids(|edge| Effect::Entered(step, edge), &Edge::ALL),
            EnteredIn(step, memories) => {
                memories.iter().flat_map(|memory| dids(|edge| Effect::EnteredAt(step, *memory, edge), &Edge::ALL)).collect()
            }
        }
    }
}

/// The ends of a rule, however near its edge.
fn nacks<T: Copy>(rule: impl Fn(T) -> Refused, near: &[T]) -> Vec<End> {
    near.iter().map(|near| End::Nack(rule(*near))).collect()
}

/// The ends of an effect, however near an edge.
fn dids<T: Copy>(effect: impl Fn(T) -> Effect, near: &[T]) -> Vec<End> {
    near.iter().map(|near| End::Did(effect(*near))).collect()
}

/// Why a byte that is no command is refused, whose complement may be wrong too.
const UNKNOWN: &[Ends] = &[Nack(Refused::Unknown(Miss::Far)), Both(Reason::Form, Reason::Unknown)];

/// Why an address, or bytes from there on, are refused that lie in no memory, or at which no sector starts.
const NO_REGION: Ends = BeginsOutside(Refused::NoRegion);
const NO_SECTOR_START: Ends = All(&[
    BeginsOutside(Refused::SectorStart),
    Nack(Refused::SectorStart(Outside::In(Memory::Flash))),
    Nack(Refused::SectorStart(Outside::In(Memory::Sram))),
    Nack(Refused::SectorStart(Outside::In(Memory::Usd))),
]);

/// Why a write is refused that begins in no memory, before flash too, whose first sector it may touch.
const BEGINS_BEFORE_FLASH: Ends = All(&[NO_REGION, Both(Reason::Address, Reason::ProtectedSector)]);

/// Sectors begin within one, and leave flash.
const NO_START_AND_LEAVES: Ends = Both(Reason::Address, Reason::Range);

/// Why a selector, or a list by its length, is refused.
const NO_SELECTOR: Ends = Missed(Refused::Selector, &[Miss::Before, Miss::Behind, Miss::HighByte, Miss::Far]);
const EXTRA_BYTES: Ends = All(&[Missed(Refused::ExtraBytes, &[Miss::Behind, Miss::Far]), Both(Reason::Range, Reason::SectorNumber)]);
const EXTRA_AND_PROTECTED: Ends = Both(Reason::Range, Reason::ProtectedSector);

/// Why a write is refused by its place and count.
const UNWRITABLE: Ends = All(&[
    Leaves,
    Missed(Refused::UsdRule, &[Miss::Before, Miss::Behind, Miss::Far]),
    Sectors(&Which::ALL),
    Both(Reason::Range, Reason::ProtectedSector),
]);

/// What can be read; USD is never fresh and has no 256 bytes.
const READ: Ends = All(&[
    In(Memory::Flash, Effect::Read, &Span::PLAIN),
    In(Memory::Sram, Effect::Read, &Span::PLAIN),
    In(Memory::Usd, Effect::Read, &[Span::One, Span::AtLast, Span::AtFirst, Span::Used]),
]);

/// What can be written; USD only whole.
const WROTE: Ends = All(&[
    In(Memory::Flash, Effect::Wrote, &Span::PLAIN),
    In(Memory::Flash, Effect::Wrote, &Span::AT_BORDERS),
    In(Memory::Sram, Effect::Wrote, &Span::PLAIN),
    In(Memory::Usd, Effect::Wrote, &[Span::AtLast]),
]);

/// How the data of a write can be waited for on CAN; in USD only from its first address on.
const BEGUN_WRITE: Ends = All(&[
    EnteredIn(Can(CanStep::WriteData), &[Memory::Flash, Memory::Sram]),
    Did(Effect::EnteredAt(Can(CanStep::WriteData), Memory::Usd, Edge::Least)),
]);

/// How a jump can end.
const JUMP_ENDS: Ends = All(&[
    BeginsOutside(Refused::JumpAddress),
    Nack(Refused::JumpAddress(Outside::In(Memory::Usd))),
    Edges(|edge| Effect::Jumped(Memory::Flash, edge)),
    Edges(|edge| Effect::Jumped(Memory::Sram, edge)),
]);

/// How a special erase can end in talks.
const SPECIAL_ERASE: Ends = All(&[
    Missed(Refused::SpecialErase, &[Miss::Before, Miss::Far]),
    Nack(Refused::SpecialEraseOfProtected),
    Sectors(&[Which::First, Which::Last, Which::Others]),
    Spans(|span| Effect::ErasedAll(Edge::Least, span), &Span::USE),
    Spans(|span| Effect::ErasedAll(Edge::Most, span), &Span::USE),
]);

/// How a list of sectors to erase or to protect, and a count of sectors, can end.
const ERASE_LIST: Ends = All(&[
    NoSectors(&[Miss::Behind, Miss::HighByte, Miss::Far]),
    Sectors(&Which::ALL),
    Both(Reason::SectorNumber, Reason::ProtectedSector),
    Spans(Effect::ErasedList, &Span::PLAIN),
]);
const PROTECT_LIST: Ends = All(&[NoSectors(&[Miss::Behind, Miss::Far]), Spans(Effect::ProtectedSectors, &Span::PLAIN)]);
const CRC_ENDS: Ends =
    All(&[Missed(Refused::SectorRange, &[Miss::Behind, Miss::HighByte, Miss::Far]), Spans(Effect::Summed, &Span::PLAIN)]);

/// How an input breaks the form that a step wants, whatever else it breaks.
fn bad_check(check: Check) -> &'static [Ends] {
    match check {
        Check::None | Check::Command => &[],
        Check::Complement | Check::Xor | Check::Inverse | Check::Special => &[Nack(Refused::Checksum)],
        Check::Frame => &[Nack(Refused::DlcZero), Missed(Refused::OtherId, &[Miss::HighByte, Miss::Far])],
    }
}

/// The ends for which a reason of the first ends holds together with one of others, which it comes before.
fn both(first: &[End], others: &[End]) -> Vec<End> {
    let reasons = |ends: &[End]| -> BTreeSet<Reason> {
        let nack = |end: &End| match end {
            End::Nack(rule) => Some(rule.reason()),
            _ => None,
        };
        ends.iter().filter_map(nack).collect()
    };
    let (first, others) = (reasons(first), reasons(others));
    first.iter().flat_map(|first| others.iter().filter(move |also| *also > first).map(|also| End::NackOfBoth(*first, *also))).collect()
}

/// How an input that a step hears can end, each end with the command that it was to, if that is known.
pub fn ends(step: Step) -> Vec<(Option<u16>, End)> {
    let Row(_, check, ends, _) = row(step);
    let (form, ends) = (All(bad_check(check)).each(), All(ends).each());
    let waits = (step.expects() != Expects::just(1)).then_some(End::Did(Effect::Waits));
    let of_both = both(&form, &ends);
    let of_step = [form, waits.into_iter().collect(), of_both, ends].concat();
    let list: &[u8] = match step {
        Uart(UartStep::Idle) => &UART_LIST[1..],
        Can(CanStep::Idle) => &CAN_LIST[1..],
        _ => &[],
    };
    let commands = list.iter().map(|byte| u16::from(*byte)).chain((!list.is_empty()).then_some(ANOTHER));
    let of_commands = commands.flat_map(|command| of_command(command, step).into_iter().map(move |end| (Some(command), end)));
    of_step.into_iter().map(|end| (None, end)).chain(of_commands).collect()
}

/// How a command can end at an idle step: by its form, by protection, as its row says, or by two of these.
fn of_command(command: u16, idle: Step) -> Vec<End> {
    let CommandRow(_, can, uart) = command_row(command);
    let on_uart = idle == Uart(UartStep::Idle);
    let protected: &[Ends] = if is_protected(command) { &[Nack(Refused::Protected)] } else { &[] };
    let form: &[Ends] = match needed_dlc(command) {
        _ if on_uart && command != ANOTHER => &[Nack(Refused::Complement)],
        Some(_) => &[Missed(Refused::Dlc, &[Miss::Before, Miss::Behind, Miss::Far])],
        None => &[],
    };
    let [form, protected, row] = [form, protected, if on_uart { uart } else { can }].map(|ends| All(ends).each());
    let of_both = [both(&form, &[&protected[..], &row].concat()), both(&protected, &row)].concat();
    [form, protected, row, of_both].concat()
}

/// How an input at a step can end only in sessions that no talk reaches.
pub fn ends_by_hand(step: Step) -> Vec<End> {
    let Row(_, check, _, by_hand) = row(step);
    let by_hand = All(by_hand).each();
    [both(&All(bad_check(check)).each(), &by_hand), by_hand].concat()
}
