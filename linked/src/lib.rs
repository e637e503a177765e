//! The proved board, linked from its static library: its calls, over slices that the caller
//! lends, and a session that keeps its bytes.
//!
//! The proved functions ask nothing of their caller: any slices of any length may be lent, and the
//! answer to wrong ones is a number. Nothing checks the declarations below against those functions
//! but this package's tests.

/// The number of an accepted call; a refused one has its cause's, 1 to 5.
pub const ACCEPTED: u8 = 0;

/// How many bytes a session has.
pub const SESSION_BYTES: usize = 280;

/// What length, reason and place are before a call, which writes all three.
const UNWRITTEN: (usize, u8, u16) = (usize::MAX, u8::MAX, u16::MAX);

/// The calls of `libexports.a`. A slice is passed as a pointer and then a length.
mod exported {
    extern "C" {
        pub fn oilthicket_power_on(session: *mut u8, session_length: usize) -> u8;

        pub fn oilthicket_take_byte(
            session: *mut u8,
            session_length: usize,
            byte: u8,
            flash: *mut u8,
            flash_length: usize,
            sram: *mut u8,
            sram_length: usize,
            usd: *mut u8,
            usd_length: usize,
            buffer: *mut u8,
            buffer_length: usize,
            length: *mut usize,
            reason: *mut u8,
            place: *mut u16,
        ) -> u8;

        pub fn oilthicket_take_bytes(
            session: *mut u8,
            session_length: usize,
            bytes: *const u8,
            bytes_length: usize,
            flash: *mut u8,
            flash_length: usize,
            sram: *mut u8,
            sram_length: usize,
            usd: *mut u8,
            usd_length: usize,
            buffer: *mut u8,
            buffer_length: usize,
            taken: *mut usize,
            length: *mut usize,
            reason: *mut u8,
            place: *mut u16,
        ) -> u8;

        pub fn oilthicket_take_frame(
            session: *mut u8,
            session_length: usize,
            frame: *const u8,
            frame_length: usize,
            flash: *mut u8,
            flash_length: usize,
            sram: *mut u8,
            sram_length: usize,
            usd: *mut u8,
            usd_length: usize,
            buffer: *mut u8,
            buffer_length: usize,
            length: *mut usize,
            reason: *mut u8,
            place: *mut u16,
        ) -> u8;
    }
}

/// What is lent to a taking call besides its session.
#[derive(Debug)]
pub struct Lent<'a> {
    /// The flash.
    pub flash: &'a mut [u8],
    /// The SRAM.
    pub sram: &'a mut [u8],
    /// The user system data.
    pub usd: &'a mut [u8],
    /// The reply buffer.
    pub buffer: &'a mut [u8],
}

/// What a taking call gives back.
#[derive(Clone, Copy, Debug, PartialEq, Eq)]
pub struct Taken {
    /// 0 for accepted, else the cause's number.
    pub number: u8,
    /// The length of the reply, which stands at the front of the reply buffer.
    pub length: usize,
    /// The number of the reason of a NACK in the reply, 1 to 11; 0 where there is none.
    pub reason: u8,
    /// Where that NACK fell: on UART the byte of the command, from 1; on CAN the bytes gathered before the frame. 0 where there is none.
    pub place: u16,
}

/// What a call that takes a slice of UART bytes gives back.
#[derive(Clone, Copy, Debug, PartialEq, Eq)]
pub struct TakenBytes {
    /// 0 for accepted, else the cause's number: 1, 4 or 5.
    pub number: u8,
    /// How many bytes were taken, from the first on.
    pub taken: usize,
    /// The length of their joined replies, which stand at the front of the reply buffer.
    pub length: usize,
    /// The number of the reason of the last NACK in the replies, 1 to 10; 0 where there is none.
    pub reason: u8,
    /// Where that NACK fell: the byte of its own command, from 1. 0 where there is none.
    pub place: u16,
}

/// Powers the board on: writes a fresh session into a slice of 280 bytes and gives 0. Any other
/// slice is left as it is, and the answer is 4.
pub fn power_on(session: &mut [u8]) -> u8 {
    // SAFETY: the pointer and the length are one slice's, lent for the call.
    unsafe { exported::oilthicket_power_on(session.as_mut_ptr(), session.len()) }
}

/// Takes one UART byte with the session in a slice, which then holds the next one.
pub fn take_byte(session: &mut [u8], byte: u8, lent: &mut Lent) -> Taken {
    let (mut length, mut reason, mut place) = UNWRITTEN;
    // SAFETY: each pointer and length are one slice's; `&mut` keeps the slices apart for the call.
    let number = unsafe {
        exported::oilthicket_take_byte(
            session.as_mut_ptr(),
            session.len(),
            byte,
            lent.flash.as_mut_ptr(),
            lent.flash.len(),
            lent.sram.as_mut_ptr(),
            lent.sram.len(),
            lent.usd.as_mut_ptr(),
            lent.usd.len(),
            lent.buffer.as_mut_ptr(),
            lent.buffer.len(),
            &mut length,
            &mut reason,
            &mut place,
        )
    };
    Taken {
        number,
        length,
        reason,
        place,
    }
}

/// Takes a slice of UART bytes with the session in a slice, which then holds the next one; stops
/// before a byte for which under 257 bytes of the buffer are left, and behind one that makes the
/// board run.
pub fn take_bytes(session: &mut [u8], bytes: &[u8], lent: &mut Lent) -> TakenBytes {
    let (mut length, mut reason, mut place) = UNWRITTEN;
    let mut taken = usize::MAX;
    // SAFETY: each pointer and length are one slice's; `&mut` keeps the slices apart for the call.
    let number = unsafe {
        exported::oilthicket_take_bytes(
            session.as_mut_ptr(),
            session.len(),
            bytes.as_ptr(),
            bytes.len(),
            lent.flash.as_mut_ptr(),
            lent.flash.len(),
            lent.sram.as_mut_ptr(),
            lent.sram.len(),
            lent.usd.as_mut_ptr(),
            lent.usd.len(),
            lent.buffer.as_mut_ptr(),
            lent.buffer.len(),
            &mut taken,
            &mut length,
            &mut reason,
            &mut place,
        )
    };
    TakenBytes {
        number,
        taken,
        length,
        reason,
        place,
    }
}

/// Takes one CAN frame with the session in a slice, which then holds the next one.
pub fn take_frame(session: &mut [u8], frame: &[u8], lent: &mut Lent) -> Taken {
    let (mut length, mut reason, mut place) = UNWRITTEN;
    // SAFETY: each pointer and length are one slice's; `&mut` keeps the slices apart for the call.
    let number = unsafe {
        exported::oilthicket_take_frame(
            session.as_mut_ptr(),
            session.len(),
            frame.as_ptr(),
            frame.len(),
            lent.flash.as_mut_ptr(),
            lent.flash.len(),
            lent.sram.as_mut_ptr(),
            lent.sram.len(),
            lent.usd.as_mut_ptr(),
            lent.usd.len(),
            lent.buffer.as_mut_ptr(),
            lent.buffer.len(),
            &mut length,
            &mut reason,
            &mut place,
        )
    };
    Taken {
        number,
        length,
        reason,
        place,
    }
}

/// A session that keeps its bytes between calls.
#[derive(Clone, Debug, PartialEq, Eq)]
pub struct Session {
    /// Carrier, step, taken, expected, address, speed and the staged bytes, numbers high byte first.
    pub bytes: [u8; SESSION_BYTES],
}

impl Session {
    /// A fresh session.
    pub fn power_on() -> Session {
        let mut bytes = [0; SESSION_BYTES];
        power_on(&mut bytes);
        Session { bytes }
    }

    /// Takes one UART byte, and becomes the next session.
    pub fn take_byte(&mut self, byte: u8, lent: &mut Lent) -> Taken {
        take_byte(&mut self.bytes, byte, lent)
    }

    /// Takes a slice of UART bytes, and becomes the next session.
    pub fn take_bytes(&mut self, bytes: &[u8], lent: &mut Lent) -> TakenBytes {
        take_bytes(&mut self.bytes, bytes, lent)
    }

    /// Takes one CAN frame, and becomes the next session.
    pub fn take_frame(&mut self, frame: &[u8], lent: &mut Lent) -> Taken {
        take_frame(&mut self.bytes, frame, lent)
    }
}
