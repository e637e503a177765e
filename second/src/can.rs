//! The CAN conversation: a command frame, and for three commands the frames gathered after it.

use crate::commands::{
    count_sent_as_one_less, EraseSelector, ACCESS_PROTECT, ACCESS_UNPROTECT, CAN_LIST, DEVICE_ID, ERASE, FIRMWARE_CRC, GET_COMMANDS,
    GET_DEVICE_ID, GET_VERSION, JUMP, PROTECT, READ_MEMORY, RESET_DEVICE, SPEED, UNPROTECT, VERSION, WRITE_MEMORY,
};
use crate::effects::{self, Done};
use crate::ends::Effect;
use crate::frame::{frame_bytes, Frame, FRAME_DATA_BYTES};
use crate::memories::Memories;
use crate::near::{Edge, Miss};
use crate::refused::{broken_if, judge, judged, Refusal, Refused, Test};
use crate::reply::{Reply, ACK, NACK};
use crate::session::{CanStep, Next, Session, Step, HIGHEST_SPEED};

/// The ID of the frame that connects CAN.
pub const CONNECT_ID: u16 = 0x79;

/// Reply frames that all bear one ID.
struct Frames<'r, 'b> {
    id: u16,
    reply: &'r mut Reply<'b>,
}

impl Frames<'_, '_> {
    /// Sends one frame of up to eight bytes, the unused ones 0.
    fn send(&mut self, data: &[u8]) {
        self.reply.extend(&frame_bytes(self.id, data));
    }

    /// Sends one byte a frame.
    fn send_each(&mut self, bytes: &[u8]) {
        for byte in bytes {
            self.send(&[*byte]);
        }
    }
}

/// Takes one frame while no carrier is connected.
pub fn connect(session: &mut Session, frame: &Frame, reply: &mut Reply) -> Effect {
    if frame.id != CONNECT_ID {
        return Effect::Unheard;
    }
    reply.extend(&frame_bytes(CONNECT_ID, &[ACK]));
    session.connect(Step::Can(CanStep::Idle));
    Effect::Connected
}

/// Takes one frame of a connected session; a refusal ends with NACK and leaves the session idle.
pub fn take_frame(
    step: CanStep,
    session: &mut Session,
    frame: &Frame,
    memories: &mut Memories,
    reply: &mut Reply,
) -> Result<Effect, Refusal> {
    let mut frames = Frames { id: running_id(step).unwrap_or(frame.id), reply };
    let taken = match step {
        CanStep::Idle => command(frame, memories, &mut frames),
        _ => gather(step, session, frame, memories, &mut frames),
    };
    let next = taken.map_or(Next::Idle, |(_, next)| next);
    if taken.is_err() {
        frames.send(&[NACK]);
    }
    session.go(next);
    taken.map(|(effect, _)| effect)
}

/// The ID of the command that a gathering step stands for.
pub fn running_id(step: CanStep) -> Option<u16> {
    match step {
        CanStep::Idle => None,
        CanStep::WriteData => Some(WRITE_MEMORY),
        CanStep::EraseList => Some(ERASE),
        CanStep::ProtectList => Some(PROTECT),
    }
}

/// The DLC that a command must have, if it needs one.
pub fn needed_dlc(command: u16) -> Option<usize> {
    match command {
        READ_MEMORY | WRITE_MEMORY => Some(5),
        JUMP => Some(4),
        ERASE | SPEED => Some(2),
        PROTECT => Some(1),
        FIRMWARE_CRC => Some(6),
        _ => None,
    }
}

/// What a command frame breaks by its DLC and ID, and by protection; the data are read whatever the DLC is.
fn form_of(frame: &Frame, memories: &Memories) -> [Test; 3] {
    let needed = needed_dlc(frame.id).unwrap_or(frame.dlc);
    let known = CAN_LIST[1..].iter().any(|command| u16::from(*command) == frame.id);
    let miss = Miss::by_high_byte(CAN_LIST[1..].contains(&(frame.id as u8)));
    [
        broken_if(frame.dlc != needed, Refused::Dlc(Miss::of(frame.dlc, needed, needed))),
        broken_if(!known, Refused::Unknown(miss)),
        effects::locked(frame.id, memories),
    ]
}

/// Takes a command frame: its ID is the command.
fn command(frame: &Frame, memories: &mut Memories, frames: &mut Frames) -> Result<Done, Refusal> {
    let form = form_of(frame, memories);
    match frame.id {
        SPEED => speed(frame, &form, frames),
        READ_MEMORY => read_memory(frame, &form, memories, frames),
        JUMP => jump(frame, &form, frames),
        WRITE_MEMORY => write_memory(frame, &form, memories, frames),
        ERASE => erase(frame, &form, memories, frames),
        FIRMWARE_CRC => firmware_crc(frame, &form, memories, frames),
        _ => {
            judge(&[&form])?;
            Ok(obey(frame, memories, frames))
        }
    }
}

/// Obeys a command that has no further rules.
fn obey(frame: &Frame, memories: &mut Memories, frames: &mut Frames) -> Done {
    match frame.id {
        GET_COMMANDS => tell(&[(CAN_LIST.len() - 1) as u8], &CAN_LIST, frames),
        GET_VERSION => tell(&[], &VERSION, frames),
        GET_DEVICE_ID => tell(&[], &DEVICE_ID, frames),
        PROTECT => {
            let x = count_sent_as_one_less(frame.bytes[0]);
            frames.send(&[ACK]);
            enter_list(CanStep::ProtectList, x)
        }
        UNPROTECT | ACCESS_PROTECT | ACCESS_UNPROTECT | RESET_DEVICE => {
            frames.send_each(&[ACK, ACK]);
            effects::resetting(frame.id, memories)
        }
        _ => unreachable!("a listed command is obeyed"),
    }
}

/// Answers an asking command one byte a frame: ACK, its head and body, ACK.
fn tell(head: &[u8], body: &[u8], frames: &mut Frames) -> Done {
    frames.send(&[ACK]);
    frames.send_each(head);
    frames.send_each(body);
    frames.send(&[ACK]);
    (Effect::Told, Next::Idle)
}

/// Enters a list's gathering step for X.
fn enter_list(step: CanStep, x: usize) -> Done {
    let step = Step::Can(step);
    (Effect::Entered(step, step.expects().edge(x)), Next::Enter(step, x))
}

/// Takes 0x03: the first byte 0 to 3 is the new speed, the second byte is free.
fn speed(frame: &Frame, form: &[Test], frames: &mut Frames) -> Result<Done, Refusal> {
    let speed = frame.bytes[0];
    let (number, highest) = (usize::from(speed), usize::from(HIGHEST_SPEED));
    judge(&[form, &[broken_if(number > highest, Refused::Speed(Miss::of(number, 0, highest)))]])?;
    frames.send_each(&[ACK, ACK]);
    Ok((Effect::ChangedSpeed(Edge::of(number, 0, highest)), Next::IdleAtSpeed(speed)))
}

/// Takes 0x11: ACK, then frames of eight and a last with what remains.
fn read_memory(frame: &Frame, form: &[Test], memories: &Memories, frames: &mut Frames) -> Result<Done, Refusal> {
    let x = count_sent_as_one_less(frame.bytes[4]);
    let (effect, data) = effects::read(memories, frame.address(), x, form)?;
    frames.send(&[ACK]);
    for part in data.chunks(FRAME_DATA_BYTES) {
        frames.send(part);
    }
    Ok((effect, Next::Idle))
}

/// Takes 0x21: ACK and jump.
fn jump(frame: &Frame, form: &[Test], frames: &mut Frames) -> Result<Done, Refusal> {
    let running = effects::jump(frame.address(), form)?;
    frames.send(&[ACK]);
    Ok(running)
}

/// Takes 0x31: range, USD rule and sector protection are tested with the command frame.
fn write_memory(frame: &Frame, form: &[Test], memories: &Memories, frames: &mut Frames) -> Result<Done, Refusal> {
    let x = count_sent_as_one_less(frame.bytes[4]);
    let (memory, offset) = effects::writable(memories, frame.address(), x, form)?;
    frames.send(&[ACK]);
    let step = Step::Can(CanStep::WriteData);
    let edge = Edge::of(offset, 0, memory.region().bytes - 1);
    Ok((Effect::EnteredAt(step, memory, edge), Next::EnterAt(step, x, frame.address())))
}

/// Takes 0x44: a list is gathered, a special erase is ACK and then ACK or NACK.
fn erase(frame: &Frame, form: &[Test], memories: &mut Memories, frames: &mut Frames) -> Result<Done, Refusal> {
    let (x, impossible) = match EraseSelector::from_bytes(frame.bytes[0], frame.bytes[1]) {
        Ok(EraseSelector::Special(selector)) => return erase_special(selector, form, memories, frames),
        Ok(EraseSelector::List(x)) => (Some(x), None),
        Err(rule) => (None, Some(rule)),
    };
    let x = judged(&[form, &[impossible]], x)?;
    frames.send(&[ACK]);
    Ok(enter_list(CanStep::EraseList, x))
}

/// Takes a special erase: a right form is one ACK, whatever follows, and a second one says that it is done.
fn erase_special(selector: u32, form: &[Test], memories: &mut Memories, frames: &mut Frames) -> Result<Done, Refusal> {
    if form.iter().all(Option::is_none) {
        frames.send(&[ACK]);
    }
    let done = effects::erase_special(memories, selector, form)?;
    frames.send(&[ACK]);
    Ok(done)
}

/// Takes 0xAC: ACK, one frame of four.
fn firmware_crc(frame: &Frame, form: &[Test], memories: &Memories, frames: &mut Frames) -> Result<Done, Refusal> {
    let sectors = count_sent_as_one_less(u16::from_be_bytes([frame.bytes[4], frame.bytes[5]]));
    let (effect, crc) = effects::firmware_crc(memories, frame.address(), sectors, form)?;
    frames.send(&[ACK]);
    frames.send(&crc.to_be_bytes());
    Ok((effect, Next::Idle))
}

/// Gathers a frame of the running command: extra bytes are dropped by a write, refused by a list.
fn gather(step: CanStep, session: &mut Session, frame: &Frame, memories: &mut Memories, frames: &mut Frames) -> Result<Done, Refusal> {
    let room = session.left();
    let tests = [
        broken_if(frame.id != frames.id, Refused::OtherId(Miss::by_high_byte(frame.id as u8 == frames.id as u8))),
        broken_if(frame.dlc == 0, Refused::DlcZero),
        broken_if(frame.dlc > room && step != CanStep::WriteData, Refused::ExtraBytes(Miss::of(frame.dlc, 1, room))),
    ];
    let mut gathered = *session;
    for byte in frame.data().iter().take(room) {
        gathered.stage(*byte);
    }
    if !gathered.has_all() {
        judge(&[&tests])?;
        *session = gathered;
        return Ok((Effect::Waits, Next::Same));
    }
    let (effect, next) = end_gathering(step, &gathered, memories, &tests)?;
    frames.send(&[ACK]);
    let padded = frame.dlc > room;
    Ok((if padded { Effect::WrotePadded } else { effect }, next))
}

/// Ends a command that has all it expects, or would have if its last frame were used; idle gathers nothing.
fn end_gathering(step: CanStep, gathered: &Session, memories: &mut Memories, of_frame: &[Test]) -> Result<Done, Refusal> {
    let bytes = &gathered.staged[..gathered.expected];
    match step {
        CanStep::Idle => unreachable!("an idle board gathers nothing"),
        CanStep::WriteData => effects::write(memories, gathered.address, bytes, of_frame),
        CanStep::EraseList => effects::erase_list(memories, bytes, of_frame),
        CanStep::ProtectList => effects::protect_only(memories, bytes, of_frame),
    }
}
