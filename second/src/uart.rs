//! The UART conversation: bytes are staged until a step has all it expects, then the step ends.

use crate::board::SECTORS;
use crate::commands::{
    count_sent_as_one_less, EraseSelector, ACCESS_PROTECT, ACCESS_UNPROTECT, DEVICE_ID, ERASE, FIRMWARE_CRC, GET_COMMANDS, GET_DEVICE_ID,
    GET_VERSION, JUMP, PROTECT, READ_MEMORY, RESET_DEVICE, UART_LIST, UNPROTECT, VERSION, WRITE_MEMORY,
};
use crate::effects::{self, Done};
use crate::ends::Effect;
use crate::memories::Memories;
use crate::near::{Edge, Miss};
use crate::refused::{broken_if, judge, judged, Refusal, Refused, Test};
use crate::reply::{Reply, ACK, NACK};
use crate::session::{Next, Session, Step, UartStep};

/// The byte that connects UART.
pub const CONNECT_BYTE: u8 = 0x7F;

/// Takes one byte while no carrier is connected.
pub fn connect(session: &mut Session, byte: u8, reply: &mut Reply) -> Effect {
    if byte != CONNECT_BYTE {
        return Effect::Unheard;
    }
    reply.push(ACK);
    session.connect(Step::Uart(UartStep::Idle));
    Effect::Connected
}

/// Takes one byte of a connected session; a refusal is one NACK and leaves the session idle.
pub fn take_byte(step: UartStep, session: &mut Session, byte: u8, memories: &mut Memories, reply: &mut Reply) -> Result<Effect, Refusal> {
    session.stage(byte);
    if !session.has_all() {
        return Ok(Effect::Waits);
    }
    let ended = end_step(step, session, memories, reply);
    let next = ended.map_or(Next::Idle, |(_, next)| next);
    if ended.is_err() {
        reply.push(NACK);
    }
    session.go(next);
    ended.map(|(effect, _)| effect)
}

/// Ends a step that has all it expects; it replies nothing before its last test has passed.
fn end_step(step: UartStep, session: &Session, memories: &mut Memories, reply: &mut Reply) -> Result<Done, Refusal> {
    let bytes = &session.staged[..session.expected];
    let address = session.address;
    let x = step.expects().count_of(session.expected);
    match step {
        UartStep::Idle => command(bytes, memories, reply),
        UartStep::ReadAddress => region_address(bytes, UartStep::ReadLength, reply),
        UartStep::JumpAddress => jump_address(bytes, reply),
        UartStep::WriteAddress => region_address(bytes, UartStep::WriteLength, reply),
        UartStep::CrcAddress => crc_address(bytes, reply),
        UartStep::ReadLength => read_length(bytes, address, memories, reply),
        UartStep::WriteLength => Ok(enter_list(UartStep::WriteData, bytes)),
        UartStep::WriteData => write_data(bytes, x, address, memories, reply),
        UartStep::EraseSelector => erase_selector(bytes),
        UartStep::SpecialCheck => special_check(bytes, address, memories, reply),
        UartStep::EraseList => erase_list(bytes, x, memories, reply),
        UartStep::ProtectLength => Ok(enter_list(UartStep::ProtectList, bytes)),
        UartStep::ProtectList => protect_list(bytes, x, memories, reply),
        UartStep::CrcCount => crc_count(bytes, address, memories, reply),
    }
}

/// Ends the idle step: a command and its complement, refused if wrong, unknown or protected.
fn command(bytes: &[u8], memories: &mut Memories, reply: &mut Reply) -> Result<Done, Refusal> {
    let command = u16::from(bytes[0]);
    let complement = broken_if(bytes[1] != !bytes[0], Refused::Complement);
    let unknown = broken_if(!UART_LIST[1..].contains(&bytes[0]), Refused::Unknown(Miss::Far));
    judge(&[&[complement, unknown, effects::locked(command, memories)]])?;
    match command {
        GET_COMMANDS => Ok(tell(&[UART_LIST.len() as u8], &UART_LIST, reply)),
        GET_VERSION => Ok(tell(&[], &VERSION, reply)),
        GET_DEVICE_ID => Ok(tell(&[], &DEVICE_ID, reply)),
        READ_MEMORY => Ok(begin(UartStep::ReadAddress, reply)),
        JUMP => Ok(begin(UartStep::JumpAddress, reply)),
        WRITE_MEMORY => Ok(begin(UartStep::WriteAddress, reply)),
        ERASE => Ok(begin(UartStep::EraseSelector, reply)),
        PROTECT => Ok(begin(UartStep::ProtectLength, reply)),
        FIRMWARE_CRC => Ok(begin(UartStep::CrcAddress, reply)),
        UNPROTECT | ACCESS_PROTECT | ACCESS_UNPROTECT | RESET_DEVICE => {
            reply.extend(&[ACK, ACK]);
            Ok(effects::resetting(command, memories))
        }
        _ => unreachable!("a listed command is obeyed"),
    }
}

/// Answers an asking command: ACK, its head and body, ACK.
fn tell(head: &[u8], body: &[u8], reply: &mut Reply) -> Done {
    reply.push(ACK);
    reply.extend(head);
    reply.extend(body);
    reply.push(ACK);
    (Effect::Told, Next::Idle)
}

/// Answers ACK and enters a command's first step.
fn begin(step: UartStep, reply: &mut Reply) -> Done {
    reply.push(ACK);
    enter(step, 1)
}

/// Enters a step for X.
fn enter(step: UartStep, x: usize) -> Done {
    let step = Step::Uart(step);
    (Effect::Entered(step, step.expects().edge(x)), Next::Enter(step, x))
}

/// Enters, without an answer, a step for the X that was sent as one less.
fn enter_list(step: UartStep, bytes: &[u8]) -> Done {
    enter(step, count_sent_as_one_less(bytes[0]))
}

/// The XOR of all the bytes.
pub fn xor(bytes: &[u8]) -> u8 {
    bytes.iter().fold(0, |sum, byte| sum ^ byte)
}

/// Tests whether a checksum is not the right one.
fn wrong_sum(sent: u8, right: u8) -> Test {
    broken_if(sent != right, Refused::Checksum)
}

/// The four address bytes, high first, and whether the fifth is not their XOR.
fn checked_address(bytes: &[u8]) -> (u32, [Test; 1]) {
    let address = [bytes[0], bytes[1], bytes[2], bytes[3]];
    (u32::from_be_bytes(address), [wrong_sum(bytes[4], xor(&address))])
}

/// The X items before the last byte, and whether that is not the XOR of X - 1 and of all of them.
fn checked_items(bytes: &[u8], x: usize) -> (&[u8], [Test; 1]) {
    let (items, check) = bytes.split_at(bytes.len() - 1);
    let sent = (x - 1) as u8;
    (items, [wrong_sum(check[0], sent ^ xor(items))])
}

/// Ends the address of 0x11 or 0x31, which must be in a region.
fn region_address(bytes: &[u8], then: UartStep, reply: &mut Reply) -> Result<Done, Refusal> {
    let (address, check) = checked_address(bytes);
    let (memory, edge) = effects::in_a_region(address, &check)?;
    reply.push(ACK);
    let step = Step::Uart(then);
    Ok((Effect::EnteredAt(step, memory, edge), Next::EnterAt(step, 1, address)))
}

/// Ends the address of 0x21: ACK and jump.
fn jump_address(bytes: &[u8], reply: &mut Reply) -> Result<Done, Refusal> {
    let (address, check) = checked_address(bytes);
    let running = effects::jump(address, &check)?;
    reply.push(ACK);
    Ok(running)
}

/// Ends the address of 0xAC, which must be a sector start in flash.
fn crc_address(bytes: &[u8], reply: &mut Reply) -> Result<Done, Refusal> {
    let (address, check) = checked_address(bytes);
    let sector = effects::sector_start(address, &check)?;
    reply.push(ACK);
    let step = Step::Uart(UartStep::CrcCount);
    Ok((Effect::Entered(step, Edge::of(sector, 0, SECTORS - 1)), Next::EnterAt(step, 1, address)))
}

/// Ends 0x11: length less one and its complement, then ACK and the data.
fn read_length(bytes: &[u8], address: u32, memories: &Memories, reply: &mut Reply) -> Result<Done, Refusal> {
    let check = [wrong_sum(bytes[1], !bytes[0])];
    let (effect, data) = effects::read(memories, address, count_sent_as_one_less(bytes[0]), &check)?;
    reply.push(ACK);
    reply.extend(data);
    Ok((effect, Next::Idle))
}

/// Ends 0x31: the data and the XOR of length less one and data, then one ACK.
fn write_data(bytes: &[u8], x: usize, address: u32, memories: &mut Memories, reply: &mut Reply) -> Result<Done, Refusal> {
    let (data, check) = checked_items(bytes, x);
    let done = effects::write(memories, address, data, &check)?;
    reply.push(ACK);
    Ok(done)
}

/// Ends the selector of 0x44, which is answered only if it is refused.
fn erase_selector(bytes: &[u8]) -> Result<Done, Refusal> {
    let selector = EraseSelector::from_bytes(bytes[0], bytes[1]);
    match judged(&[&[selector.err()]], selector.ok())? {
        EraseSelector::List(x) => Ok(enter(UartStep::EraseList, x)),
        EraseSelector::Special(selector) => {
            let step = Step::Uart(UartStep::SpecialCheck);
            let specials = [EraseSelector::FIRST_SPECIAL, EraseSelector::LAST_SPECIAL].map(usize::from);
            let edge = Edge::of(selector as usize, specials[0], specials[1]);
            Ok((Effect::Entered(step, edge), Next::EnterAt(step, 1, selector)))
        }
    }
}

/// Ends a special erase: the check is against the XOR of the address's two low bytes.
fn special_check(bytes: &[u8], address: u32, memories: &mut Memories, reply: &mut Reply) -> Result<Done, Refusal> {
    let [_, _, high, low] = address.to_be_bytes();
    let done = effects::erase_special(memories, address, &[wrong_sum(bytes[0], high ^ low)])?;
    reply.push(ACK);
    Ok(done)
}

/// Ends 0x44 with a list: X sector numbers and the XOR of selector and numbers.
fn erase_list(bytes: &[u8], x: usize, memories: &mut Memories, reply: &mut Reply) -> Result<Done, Refusal> {
    let (list, check) = checked_items(bytes, x);
    let done = effects::erase_list(memories, list, &check)?;
    reply.push(ACK);
    Ok(done)
}

/// Ends 0x63: X indexes and the XOR of all, then reset.
fn protect_list(bytes: &[u8], x: usize, memories: &mut Memories, reply: &mut Reply) -> Result<Done, Refusal> {
    let (indexes, check) = checked_items(bytes, x);
    let done = effects::protect_only(memories, indexes, &check)?;
    reply.push(ACK);
    Ok(done)
}

/// Ends 0xAC: two bytes of sectors less one and their XOR with 0xFF, then ACK and the CRC.
fn crc_count(bytes: &[u8], address: u32, memories: &Memories, reply: &mut Reply) -> Result<Done, Refusal> {
    let sectors = count_sent_as_one_less(u16::from_be_bytes([bytes[0], bytes[1]]));
    let check = [wrong_sum(bytes[2], bytes[0] ^ bytes[1] ^ 0xFF)];
    let (effect, crc) = effects::firmware_crc(memories, address, sectors, &check)?;
    reply.push(ACK);
    reply.extend(&crc.to_be_bytes());
    Ok((effect, Next::Idle))
}
