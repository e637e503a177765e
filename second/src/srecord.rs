//! S-record texts (document 02, Wish 1): their lines, their records, and loading one into an image.

pub mod load;
pub mod met;
pub mod record;
pub mod said;

pub use load::{load, Answer};
pub use record::Record;

/// The lines of a text, which end in LF or CR LF, the last one optionally; the CR of a line that has no LF is its own.
pub fn lines(text: &[u8]) -> impl Iterator<Item = &[u8]> {
    let lines = text.split_inclusive(|character| *character == b'\n');
    lines.map(|line| match line {
        [line @ .., b'\r', b'\n'] => line,
        [line @ .., b'\n'] => line,
        line => line,
    })
}
