//! The session, its carriers and steps, and when it is sound.

use crate::near::{Edge, Miss};

pub const CARRIER_NONE: u8 = 0;
pub const CARRIER_UART: u8 = 1;
pub const CARRIER_CAN: u8 = 2;
pub const CARRIER_RUNNING: u8 = 3;
pub const HIGHEST_SPEED: u8 = 3;
pub const FRESH_SPEED: u8 = 2;
pub const STAGED_BYTES: usize = 257;

/// What a step may expect: `least` for X = 1, `apart` more for each further X, up to `greatest`.
#[derive(Clone, Copy, Debug, PartialEq, Eq)]
pub struct Expects {
    least: usize,
    greatest: usize,
    apart: usize,
}

impl Expects {
    /// A step that always expects the same number.
    pub(crate) const fn just(number: usize) -> Expects {
        Expects { least: number, greatest: number, apart: 1 }
    }

    /// A step that expects from `least` to `greatest`, in strides of `apart`.
    const fn range(least: usize, greatest: usize, apart: usize) -> Expects {
        Expects { least, greatest, apart }
    }

    /// Refuses a number that the step may not expect.
    fn test(&self, expected: usize) -> Result<(), Unsound> {
        match expected {
            _ if expected > self.beyond() || expected + self.apart < self.least => Err(Unsound::Expected(Miss::Far)),
            _ if expected + self.apart == self.least => Err(Unsound::Expected(Miss::Before)),
            _ if expected == self.beyond() => Err(Unsound::Expected(Miss::Behind)),
            _ if !(expected + self.apart - self.least).is_multiple_of(self.apart) => Err(Unsound::Expected(Miss::Between)),
            _ => Ok(()),
        }
    }

    /// The number that the step may expect for X, or for the X nearest to it.
    pub(crate) fn near(&self, x: usize) -> usize {
        self.for_count(x.min(self.count_of(self.greatest)))
    }

    /// Tells whether numbers between those that the step may expect are not allowed.
    pub(crate) fn has_gaps(&self) -> bool {
        self.apart > 1
    }

    /// The number that the step would expect for one X too many.
    pub(crate) fn beyond(&self) -> usize {
        self.greatest + self.apart
    }

    /// The number expected when the step is entered for X.
    pub(crate) fn for_count(&self, x: usize) -> usize {
        self.least + (x - 1) * self.apart
    }

    /// Where X lies among those that the step may be entered for.
    pub(crate) fn edge(&self, x: usize) -> Edge {
        Edge::of(x, 1, self.count_of(self.greatest))
    }

    /// X, read back from an allowed expected number.
    pub(crate) fn count_of(&self, expected: usize) -> usize {
        (expected - self.least) / self.apart + 1
    }
}

/// The only step of carriers none and running.
const ONLY_STEP: u8 = 0;

/// What carriers none and running expect.
const ONLY_EXPECTS: Expects = Expects::just(1);

/// The UART steps in document 01's order; a step stands for its command too.
#[derive(Clone, Copy, Debug, PartialEq, Eq, PartialOrd, Ord)]
#[repr(u8)]
pub enum UartStep {
    /// A command and its complement.
    Idle = 0,
    /// Address of 0x11 and its XOR.
    ReadAddress,
    /// Address of 0x21 and its XOR.
    JumpAddress,
    /// Address of 0x31 and its XOR.
    WriteAddress,
    /// Address of 0xAC and its XOR.
    CrcAddress,
    /// Read length less one and its complement.
    ReadLength,
    /// Write length less one.
    WriteLength,
    /// X bytes to write and the XOR.
    WriteData,
    /// Erase selector, two bytes.
    EraseSelector,
    /// XOR of a special erase selector.
    SpecialCheck,
    /// X two-byte sector numbers and the XOR.
    EraseList,
    /// Protect length less one.
    ProtectLength,
    /// X sector indexes and the XOR.
    ProtectList,
    /// Two bytes of sectors less one, and their check.
    CrcCount,
}

impl UartStep {
    /// Every UART step, placed at its number.
    pub const ALL: [UartStep; 14] = [
        UartStep::Idle,
        UartStep::ReadAddress,
        UartStep::JumpAddress,
        UartStep::WriteAddress,
        UartStep::CrcAddress,
        UartStep::ReadLength,
        UartStep::WriteLength,
        UartStep::WriteData,
        UartStep::EraseSelector,
        UartStep::SpecialCheck,
        UartStep::EraseList,
        UartStep::ProtectLength,
        UartStep::ProtectList,
        UartStep::CrcCount,
    ];

    /// The UART step with this number, if there is one.
    pub fn numbered(number: u8) -> Option<UartStep> {
        UartStep::ALL.get(usize::from(number)).copied()
    }

    /// The step that comes before it in its command.
    const fn before(self) -> Option<UartStep> {
        match self {
            UartStep::Idle => None,
            UartStep::ReadAddress | UartStep::JumpAddress | UartStep::WriteAddress | UartStep::CrcAddress => Some(UartStep::Idle),
            UartStep::EraseSelector | UartStep::ProtectLength => Some(UartStep::Idle),
            UartStep::ReadLength => Some(UartStep::ReadAddress),
            UartStep::WriteLength => Some(UartStep::WriteAddress),
            UartStep::WriteData => Some(UartStep::WriteLength),
            UartStep::SpecialCheck | UartStep::EraseList => Some(UartStep::EraseSelector),
            UartStep::ProtectList => Some(UartStep::ProtectLength),
            UartStep::CrcCount => Some(UartStep::CrcAddress),
        }
    }

    /// How many bytes of the command come before the step's first; the steps before it always expect the same number.
    fn bytes_before(self) -> usize {
        self.before().map_or(0, |before| before.bytes_before() + before.expects().least)
    }

    /// What the step may expect.
    pub const fn expects(self) -> Expects {
        match self {
            UartStep::Idle | UartStep::ReadLength | UartStep::EraseSelector => Expects::just(2),
            UartStep::ReadAddress | UartStep::JumpAddress | UartStep::WriteAddress | UartStep::CrcAddress => Expects::just(5),
            UartStep::WriteLength | UartStep::SpecialCheck | UartStep::ProtectLength => Expects::just(1),
            UartStep::WriteData | UartStep::ProtectList => Expects::range(2, 257, 1),
            UartStep::EraseList => Expects::range(3, 65, 2),
            UartStep::CrcCount => Expects::just(3),
        }
    }
}

/// The CAN steps in document 01's order; a step stands for its command too.
#[derive(Clone, Copy, Debug, PartialEq, Eq, PartialOrd, Ord)]
#[repr(u8)]
pub enum CanStep {
    /// A command frame.
    Idle = 0,
    /// X bytes to write.
    WriteData,
    /// X two-byte sector numbers.
    EraseList,
    /// X sector indexes.
    ProtectList,
}

impl CanStep {
    /// Every CAN step, placed at its number.
    pub const ALL: [CanStep; 4] = [CanStep::Idle, CanStep::WriteData, CanStep::EraseList, CanStep::ProtectList];

    /// The CAN step with this number, if there is one.
    pub fn numbered(number: u8) -> Option<CanStep> {
        CanStep::ALL.get(usize::from(number)).copied()
    }

    /// What the step may expect.
    pub const fn expects(self) -> Expects {
        match self {
            CanStep::Idle => Expects::just(1),
            CanStep::WriteData | CanStep::ProtectList => Expects::range(1, 256, 1),
            CanStep::EraseList => Expects::range(2, 64, 2),
        }
    }
}

/// The carrier and step of a sound session.
#[derive(Clone, Copy, Debug, PartialEq, Eq, PartialOrd, Ord)]
pub enum Step {
    None,
    Uart(UartStep),
    Can(CanStep),
    Running,
}

impl Step {
    /// The step that a carrier number and a step number name, if there is one.
    pub fn named(carrier: u8, step: u8) -> Option<Step> {
        match carrier {
            CARRIER_NONE if step == ONLY_STEP => Some(Step::None),
            CARRIER_UART => UartStep::numbered(step).map(Step::Uart),
            CARRIER_CAN => CanStep::numbered(step).map(Step::Can),
            CARRIER_RUNNING if step == ONLY_STEP => Some(Step::Running),
            _ => None,
        }
    }

    /// What the step may expect.
    pub fn expects(self) -> Expects {
        match self {
            Step::None | Step::Running => ONLY_EXPECTS,
            Step::Uart(step) => step.expects(),
            Step::Can(step) => step.expects(),
        }
    }

    /// The carrier's number.
    pub fn carrier(self) -> u8 {
        match self {
            Step::None => CARRIER_NONE,
            Step::Uart(_) => CARRIER_UART,
            Step::Can(_) => CARRIER_CAN,
            Step::Running => CARRIER_RUNNING,
        }
    }

    /// The step's number within its carrier.
    pub fn number(self) -> u8 {
        match self {
            Step::None | Step::Running => ONLY_STEP,
            Step::Uart(step) => step as u8,
            Step::Can(step) => step as u8,
        }
    }
}

/// Where a session goes after an accepted input.
#[derive(Clone, Copy, Debug, PartialEq, Eq)]
pub enum Next {
    /// It stays in its step and waits for more.
    Same,
    /// The command is finished.
    Idle,
    /// The command is finished and a new speed is in force.
    IdleAtSpeed(u8),
    /// It enters a step for X and keeps its address.
    Enter(Step, usize),
    /// It enters a step for X with an accepted address or special selector.
    EnterAt(Step, usize, u32),
    /// It becomes fresh.
    Reset,
    /// It runs from the target of an accepted Jump.
    Running(u32),
}

/// Why a session is unsound.
#[derive(Clone, Copy, Debug, PartialEq, Eq, PartialOrd, Ord)]
pub enum Unsound {
    /// The carrier exceeds 3.
    Carrier,
    /// The step is not one of this carrier's.
    Step(u8),
    /// The speed exceeds 3.
    Speed,
    /// What is expected is not allowed for the step.
    Expected(Miss),
    /// Taken is not below expected.
    Taken(Edge),
}

/// All that the board remembers between calls, apart from the memories.
#[derive(Clone, Copy, Debug, PartialEq, Eq)]
pub struct Session {
    /// 0 none, 1 UART, 2 CAN, 3 running.
    pub carrier: u8,
    /// The step's number within its carrier.
    pub step: u8,
    pub taken: usize,
    pub expected: usize,
    /// The accepted address, special selector or jump target.
    pub address: u32,
    pub speed: u8,
    /// The bytes taken so far, each at its index.
    pub staged: [u8; STAGED_BYTES],
}

impl Session {
    /// A fresh session: speed 2, expected 1 and every other number 0.
    pub fn power_on() -> Session {
        Session { carrier: CARRIER_NONE, step: ONLY_STEP, taken: 0, expected: 1, address: 0, speed: FRESH_SPEED, staged: [0; STAGED_BYTES] }
    }

    /// The session's step, or why the session is unsound.
    pub fn sound_step(&self) -> Result<Step, Unsound> {
        let no_step = if self.carrier > CARRIER_RUNNING { Unsound::Carrier } else { Unsound::Step(self.carrier) };
        let step = Step::named(self.carrier, self.step).ok_or(no_step)?;
        step.expects().test(self.expected)?;
        match self.taken {
            _ if self.speed > HIGHEST_SPEED => Err(Unsound::Speed),
            taken if taken >= self.expected => Err(Unsound::Taken(Edge::of(taken, self.expected, usize::MAX))),
            _ => Ok(step),
        }
    }

    /// Where a NACK falls that this session meets at its step: on UART at the step's last byte, counted from the command's first, and on CAN
    /// behind so many bytes that were gathered before the frame.
    pub(crate) fn place(&self, step: Step) -> u16 {
        let place = match step {
            Step::Uart(step) => step.bytes_before() + self.expected,
            Step::None | Step::Can(_) | Step::Running => self.taken,
        };
        place as u16
    }

    /// Tells whether no command is under way.
    pub fn is_between_commands(&self) -> bool {
        let idle = Step::named(self.carrier, self.step).is_some_and(|step| step.number() == ONLY_STEP);
        idle && self.taken == 0
    }

    /// Puts one byte at index taken and counts it.
    pub(crate) fn stage(&mut self, byte: u8) {
        self.staged[self.taken] = byte;
        self.taken += 1;
    }

    /// How many bytes the step still expects.
    pub(crate) fn left(&self) -> usize {
        self.expected - self.taken
    }

    /// Tells whether the step has taken all that it expects.
    pub(crate) fn has_all(&self) -> bool {
        self.taken >= self.expected
    }

    /// Connects a carrier by going idle on it.
    pub(crate) fn connect(&mut self, idle: Step) {
        self.address = 0;
        self.enter(idle, 1);
    }

    /// Goes where an accepted input leads.
    pub(crate) fn go(&mut self, next: Next) {
        match next {
            Next::Same => {}
            Next::Idle => self.go_idle(),
            Next::IdleAtSpeed(speed) => {
                self.speed = speed;
                self.go_idle();
            }
            Next::Enter(step, x) => self.enter(step, x),
            Next::EnterAt(step, x, address) => {
                self.address = address;
                self.enter(step, x);
            }
            Next::Reset => *self = Session::power_on(),
            Next::Running(target) => self.run(target),
        }
    }

    /// Goes idle on the connected carrier, which keeps the speed and sets the address 0.
    fn go_idle(&mut self) {
        match self.carrier {
            CARRIER_UART => self.connect(Step::Uart(UartStep::Idle)),
            CARRIER_CAN => self.connect(Step::Can(CanStep::Idle)),
            _ => {}
        }
    }

    /// Enters a step for X with nothing taken and the staged bytes 0.
    fn enter(&mut self, step: Step, x: usize) {
        self.carrier = step.carrier();
        self.step = step.number();
        self.taken = 0;
        self.expected = step.expects().for_count(x);
        self.staged = [0; STAGED_BYTES];
    }

    /// Becomes running: the target as address, every other number as fresh.
    fn run(&mut self, target: u32) {
        *self = Session::power_on();
        self.carrier = CARRIER_RUNNING;
        self.address = target;
    }
}
