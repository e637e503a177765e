//! A second reading of the classroom boot board: three lent memories, a session and three calls.
//!
//! Each module carries one chapter of document 01 and uses its words.

pub mod board;
pub mod calls;
pub mod commands;
pub mod crc;
pub mod desk;
pub mod dice;
pub mod ends;
pub mod files;
pub mod frame;
pub mod keep;
pub mod line;
pub mod memories;
pub mod near;
pub mod port;
pub mod raw;
pub mod reached;
pub mod refused;
pub mod script;
pub mod session;
pub mod slices;
pub mod srecord;
pub mod stream;
pub mod sweep;
pub mod vector;
pub mod vectors;

mod can;
mod edges;
mod effects;
mod hex;
mod inputs;
mod reply;
mod steps;
mod uart;

pub use calls::{take_can_frame, take_uart_byte, Cause, Outcome, ACCEPTED};
pub use memories::{Memories, Store};
pub use session::Session;
pub use slices::{take_uart_bytes, SliceOutcome};
