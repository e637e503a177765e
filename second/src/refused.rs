//! The rules that refuse a command, the reasons that document 02 gives them, and which of several is given.

use crate::near::{Miss, Outside, Which};

/// Why a NACK fell, in the order in which document 02 lists and tests the reasons.
#[derive(Clone, Copy, Debug, PartialEq, Eq, PartialOrd, Ord)]
#[repr(u8)]
pub enum Reason {
    Form = 1,
    Unknown,
    Access,
    OtherFrame,
    Checksum,
    Address,
    Range,
    SectorNumber,
    ProtectedSector,
    Unsupported,
    Speed,
}

impl Reason {
    /// The reason's number; where there is no NACK it is 0.
    pub fn number(self) -> u8 {
        self as u8
    }

    /// The words of document 02.
    pub fn words(self) -> &'static str {
        match self {
            Reason::Form => "bad complement or DLC",
            Reason::Unknown => "unknown command",
            Reason::Access => "access protected",
            Reason::OtherFrame => "frame of another ID or empty frame",
            Reason::Checksum => "bad checksum",
            Reason::Address => "bad address",
            Reason::Range => "bad count or range",
            Reason::SectorNumber => "bad sector number",
            Reason::ProtectedSector => "write-protected sector",
            Reason::Unsupported => "unsupported erase",
            Reason::Speed => "bad speed",
        }
    }
}

/// The rule that refused a command.
#[derive(Clone, Copy, Debug, PartialEq, Eq, PartialOrd, Ord)]
pub enum Refused {
    /// The second byte of a command is not the complement of the first.
    Complement,
    /// A complement or checksum after the command is wrong.
    Checksum,
    Unknown(Miss),
    /// The command is protected and protection is on.
    Protected,
    NoRegion(Outside),
    /// The X bytes begin in a region and leave it.
    Range(Outside),
    /// USD is written from its first address with X not 64, or from another (`Behind`).
    UsdRule(Miss),
    /// A write-protected sector is touched or named.
    ProtectedSector(Which),
    /// A sector number or index is over 31.
    SectorNumber(Which, Miss),
    /// The erase selector is from 32 to 0xFFFA.
    Selector(Miss),
    /// The special erase selector is not one that erases.
    SpecialErase(Miss),
    /// The same, while a sector is write-protected that all flash would name.
    SpecialEraseOfProtected,
    /// The jump address is not in flash or SRAM.
    JumpAddress(Outside),
    /// The address is not a sector start in flash.
    SectorStart(Outside),
    /// The sectors begin in flash and leave it.
    SectorRange(Miss),
    /// The DLC is not the one that the command needs.
    Dlc(Miss),
    Speed(Miss),
    /// A frame of another ID came while gathering.
    OtherId(Miss),
    DlcZero,
    /// Extra bytes are in an index list.
    ExtraBytes(Miss),
}

impl Refused {
    /// The reason that document 02 gives the rule.
    pub fn reason(self) -> Reason {
        match self {
            Refused::Complement | Refused::Dlc(_) => Reason::Form,
            Refused::Unknown(_) => Reason::Unknown,
            Refused::Protected => Reason::Access,
            Refused::OtherId(_) | Refused::DlcZero => Reason::OtherFrame,
            Refused::Checksum => Reason::Checksum,
            Refused::NoRegion(_) | Refused::JumpAddress(_) | Refused::SectorStart(_) => Reason::Address,
            Refused::Range(_) | Refused::UsdRule(_) | Refused::Selector(_) | Refused::SectorRange(_) | Refused::ExtraBytes(_) => {
                Reason::Range
            }
            Refused::SectorNumber(..) => Reason::SectorNumber,
            Refused::ProtectedSector(_) => Reason::ProtectedSector,
            Refused::SpecialErase(_) | Refused::SpecialEraseOfProtected => Reason::Unsupported,
            Refused::Speed(_) => Reason::Speed,
        }
    }
}

/// What a test says: the rule that an input breaks, if it does.
pub type Test = Option<Refused>;

/// The rule that refused an input, and the next reason that holds beside its own, if one does.
#[derive(Clone, Copy, Debug, PartialEq, Eq, PartialOrd, Ord)]
pub struct Refusal {
    pub rule: Refused,
    pub also: Option<Reason>,
}

/// What a test of a rule says.
pub fn broken_if(breaks: bool, rule: Refused) -> Test {
    breaks.then_some(rule)
}

/// Judges an input by all its tests, in whatever order they are given: the first reason of the list that holds refuses it.
pub fn judge(tests: &[&[Test]]) -> Result<(), Refusal> {
    let mut broken: Vec<Refused> = tests.iter().flat_map(|tests| tests.iter().copied().flatten()).collect();
    broken.sort_by_key(|rule| rule.reason());
    let Some(rule) = broken.first().copied() else {
        return Ok(());
    };
    let also = broken.iter().map(|rule| rule.reason()).find(|reason| *reason > rule.reason());
    Err(Refusal { rule, also })
}

/// What is there for an input that breaks none of the rules.
pub fn judged<T>(tests: &[&[Test]], found: Option<T>) -> Result<T, Refusal> {
    judge(tests)?;
    Ok(found.expect("what no rule refuses is there"))
}
