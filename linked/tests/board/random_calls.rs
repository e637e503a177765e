//! Random single calls, each on a session and buffers of its own: wrong lengths, unsound sessions,
//! huge numbers and frames of any length among them.

use crate::bench::{handed_back, session_bytes, wanted, Bench};
use linked::Taken;
use second::vector::{Vector, BYTE};
use second::vectors::{random, reached};
use second::Outcome;

/// The seed of the vectors, and how many calls are made, where the environment says no other.
const SEED: u64 = 1;
const CALLS: usize = 100_000;

/// How many calls must have each number, of so many.
const ENOUGH: usize = 100;

/// How many of the vectors are looked at for what they reach.
const LOOKED_AT: usize = 5_000;

/// What a vector lends.
fn lent(vector: &Vector) -> Bench {
    Bench {
        session: session_bytes(&vector.session()).to_vec(),
        store: vector.store(),
        buffer: vector.reply(),
    }
}

/// Makes a vector's call on the linked board: what it gives, and all that it leaves.
fn linked_call(vector: &Vector) -> (Taken, Bench) {
    let mut bench = lent(vector);
    let taken = match vector.frame() {
        None => bench.take_byte(vector.byte_at(BYTE)),
        Some(frame) => bench.take_frame(frame),
    };
    (taken, bench)
}

/// Makes a vector's call on the second board: what it gives, and all that it leaves.
fn second_call(vector: &Vector) -> (Taken, Bench) {
    let after = vector.call();
    let outcome = Outcome::of(after.called, after.session);
    let bench = Bench {
        session: session_bytes(&outcome.session).to_vec(),
        store: after.store,
        buffer: after.reply,
    };
    (handed_back(&outcome), bench)
}

/// Both boards give the same number, length, reason and place, and leave the same bytes everywhere.
#[test]
fn random_calls_agree() {
    let (seed, calls) = (wanted("LINKED_SEED", SEED), wanted("LINKED_CALLS", CALLS));
    let mut numbers = [0; 6];
    for vector in random(seed, calls) {
        let (taken, bench) = linked_call(&vector);
        let (expected, left) = second_call(&vector);
        let line = String::from_utf8_lossy(&vector.line()).into_owned();
        assert_eq!(taken, expected, "{line}");
        assert!(bench == left, "a lent byte differs: {line}");
        numbers[usize::from(taken.number)] += 1;
    }
    println!("seed {seed}, {calls} calls agree; by their number, 0 to 5: {numbers:?}");
    assert!(calls < CALLS || numbers.iter().all(|count| *count >= ENOUGH));
}

/// The vectors reach all that can come of a call.
#[test]
fn random_calls_reach_all_that_can_come() {
    assert_eq!(
        reached(&random(SEED, LOOKED_AT)).missing(),
        Vec::<String>::new()
    );
}
