//! Single calls that are right, one for each step, command and effect, and each of them with one thing wrong.

use crate::ends::{Effect, End, Met};
use crate::frame::{FRAME_DATA_BYTES, HIGHEST_ID};
use crate::session::STAGED_BYTES;
use crate::vector::{Vector, BYTE, DLC, EXPECTED, FRAME, TAKEN, VECTOR_BYTES};
use crate::vectors::random;
use std::mem::discriminant;

/// How many random vectors the right ones are chosen from: so many reach everything.
const CHOSEN_FROM: usize = 4_500;

/// Vectors of a seed that are heard and obeyed, no two of which agree in step, command and effect, and each of them with one thing wrong.
pub fn sweep(seed: u64) -> Vec<Vector> {
    let mut right: Vec<(Met, Vector)> = Vec::new();
    for vector in random(seed, CHOSEN_FROM) {
        let met = vector.met();
        let obeyed = matches!(met.end, End::Did(effect) if effect != Effect::Unheard);
        if obeyed && !right.iter().any(|(other, _)| is_like(&met, other)) {
            right.push((met, vector));
        }
    }
    let step = |met: &Met| (met.given, met.at);
    let first_at_step = |index: usize| !right[..index].iter().any(|(other, _)| step(other) == step(&right[index].0));
    let varied = |index: usize| {
        let vector = &right[index].1;
        let at_step = if first_at_step(index) { [with_other_ids(vector), with_other_numbers(vector)].concat() } else { vec![] };
        [vec![vector.clone()], with_one_bit_wrong(vector), with_other_bytes(vector), with_other_dlcs(vector), at_step].concat()
    };
    (0..right.len()).flat_map(varied).filter(Vector::is_in_order).collect()
}

/// Tells whether two vectors met the same step, command and effect, however near an edge.
fn is_like(met: &Met, other: &Met) -> bool {
    let did = |met: &Met| match met.end {
        End::Did(effect) => Some(discriminant(&effect)),
        _ => None,
    };
    (met.given, met.at, met.command, did(met)) == (other.given, other.at, other.command, did(other))
}

/// The vector with each bit of its line wrong, one at a time.
fn with_one_bit_wrong(vector: &Vector) -> Vec<Vector> {
    (0..VECTOR_BYTES).flat_map(|place| (0..u8::BITS).map(move |bit| vector.with(place, &[vector.byte_at(place) ^ 1 << bit]))).collect()
}

/// The vector with each UART byte.
fn with_other_bytes(vector: &Vector) -> Vec<Vector> {
    (u8::MIN..=u8::MAX).map(|byte| vector.with(BYTE, &[byte])).collect()
}

/// The vector with each ID that its frame may have.
fn with_other_ids(vector: &Vector) -> Vec<Vector> {
    (0..=HIGHEST_ID).map(|id| vector.with(FRAME, &id.to_be_bytes())).collect()
}

/// The vector with each DLC that its frame may have.
fn with_other_dlcs(vector: &Vector) -> Vec<Vector> {
    (0..=FRAME_DATA_BYTES).map(|dlc| vector.with(DLC, &[dlc as u8])).collect()
}

/// The vector with nothing taken and each number expected, and with each number taken, past all that can be right.
fn with_other_numbers(vector: &Vector) -> Vec<Vector> {
    let numbers = 0..STAGED_BYTES as u64 + 3;
    let expected = numbers.clone().map(|number| vector.with(TAKEN, &[0; 8]).with(EXPECTED, &number.to_be_bytes()));
    expected.chain(numbers.map(|number| vector.with(TAKEN, &number.to_be_bytes()))).collect()
}
