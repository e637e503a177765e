//! Tests of the second board; every expected value is taken from the documents or `expected/`. Where the words of document 02 leave a reason
//! or a place open, `reasons.talk` follows the reading that the README gives under "Why a NACK fell".

mod bench;
mod calls;
mod crc;
mod desk;
mod files;
mod keeping;
mod port;
mod programs;
mod slices;
mod talks;
mod vectors;
