//! Tests of the linked board: the second program says what each call must give and leave.

mod bench;
mod random_calls;
mod runs;
mod slices;
mod talk;
mod wrong_lengths;
