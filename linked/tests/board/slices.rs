//! Slices of UART bytes, cut anywhere and with any room, on sessions of talks and on any others: the
//! linked board gives and leaves what the second board's slice call does, and what single calls do.

use crate::bench::{session_bytes, slice_handed_back, wanted, Bench, UNTOUCHED};
use linked::TakenBytes;
use second::dice::Dice;
use second::ends::Kind;
use second::frame::frame_bytes;
use second::line::{Line, LINE_BYTES};
use second::vector::{Vector, BYTE};
use second::{raw, script, take_can_frame, take_uart_bytes, vectors, Session, Store};

/// The seed of the inputs, where the environment says no other.
const SEED: u64 = 1;

/// How many slices are given to sessions of random vectors, and how many must have each number.
const SLICES: usize = 10_000;
const ENOUGH: usize = 20;

/// How many raw talks are cut into slices, of how many bytes, and of how many lines scripts are.
const TALKS: u64 = 10;
const TALK_BYTES: usize = 30_000;
const LINES: usize = 1_500;

/// The longest slice of a talk, and the most bytes of one on a vector's session.
const LONGEST: usize = 1_200;
const BEHIND: usize = 400;

/// The room that every single call takes.
const SINGLE: usize = 257;

/// The second board, which every slice hands on.
struct Second {
    session: Session,
    store: Store,
}

/// A room: one at the edge, some, or enough for most slices.
fn room(dice: &mut Dice) -> usize {
    let any = dice.below(2_000);
    let close = dice.between(SINGLE, SINGLE + 8);
    dice.one_of(&[
        0, 256, 257, 258, 513, 514, close, close, any, any, 5_000, 5_000,
    ])
}

/// Gives a slice to both boards, tests that they give and leave the same, and goes on with that.
fn both(bytes: &[u8], room: usize, bench: &mut Bench, second: &mut Second) -> TakenBytes {
    bench.buffer = vec![UNTOUCHED; room];
    let mut reply = bench.buffer.clone();
    let outcome = take_uart_bytes(second.session, bytes, &mut second.store.lend(), &mut reply);
    let taken = bench.take_bytes(bytes);
    second.session = outcome.session;
    assert_eq!(taken, slice_handed_back(&outcome));
    assert!(
        bench.session == session_bytes(&second.session),
        "the sessions differ"
    );
    assert!(bench.store == second.store, "the memories differ");
    assert!(bench.buffer == reply, "the buffers differ");
    taken
}

/// Tests that single calls of the linked board, over the bytes that a slice took, leave what it left,
/// and that the next one would have been refused, for the room that is left or behind a Jump.
fn as_single_calls(bytes: &[u8], taken: &TakenBytes, mut before: Bench, after: &Bench) {
    before.buffer = vec![UNTOUCHED; SINGLE];
    let (mut replies, mut last) = (Vec::new(), (0, 0));
    for byte in &bytes[..taken.taken] {
        let single = before.take_byte(*byte);
        assert_eq!(single.number, linked::ACCEPTED);
        replies.extend_from_slice(&before.buffer[..single.length]);
        if single.reason > 0 {
            last = (single.reason, single.place);
        }
    }
    assert_eq!((taken.reason, taken.place), last);
    assert!(before.session == after.session && before.store == after.store);
    assert_eq!(taken.length, replies.len());
    let (said, rest) = after.buffer.split_at(taken.length);
    assert!(said == replies && rest.iter().all(|byte| *byte == UNTOUCHED));
    if taken.number == linked::ACCEPTED && taken.taken < bytes.len() {
        let runs = before.take_byte(bytes[taken.taken]).number == 5;
        assert!(runs || rest.len() < SINGLE);
    }
}

/// Cuts bytes into slices at random places and gives them to both boards, until all are taken or the
/// board is running.
fn talk(bytes: &[u8], dice: &mut Dice, bench: &mut Bench, second: &mut Second) {
    let mut rest = bytes;
    while !rest.is_empty() {
        let most = rest.len().min(LONGEST);
        let bound = dice.one_of(&[1, 2, 10, most, most]).min(most);
        let length = dice.between(0, bound);
        let (slice, room) = (&rest[..length], room(dice));
        let before = bench.clone();
        let taken = both(slice, room, bench, second);
        as_single_calls(slice, &taken, before, bench);
        rest = &rest[taken.taken..];
        if taken.number == 5 {
            return;
        }
        assert_eq!(taken.number, linked::ACCEPTED);
    }
}

/// Fresh boards, just powered.
fn fresh() -> (Bench, Second) {
    let (session, store) = (Session::power_on(), Store::fresh());
    (Bench::fresh(), Second { session, store })
}

/// Raw talks of one power on, in slices, up to the Jump at their end and behind it.
#[test]
fn raw_talks_in_slices() {
    let first = wanted("LINKED_SEED", SEED);
    for seed in (0..TALKS).map(|talk| first.wrapping_add(talk)) {
        let (mut bench, mut second) = fresh();
        let mut dice = Dice::seeded(seed);
        let bytes = raw::random(seed, TALK_BYTES);
        talk(&bytes, &mut dice, &mut bench, &mut second);
        assert_eq!(bench.session[0], 3);
    }
}

/// Scripts on both carriers, the bytes of each line in slices: also while CAN is connected.
#[test]
fn scripts_in_slices() {
    let first = wanted("LINKED_SEED", SEED);
    for seed in (0..TALKS).map(|talk| first.wrapping_add(talk)) {
        let (mut bench, mut second) = fresh();
        let mut dice = Dice::seeded(seed);
        for line in script::random(Kind::Mixed, seed, LINES) {
            let mut space = [0; LINE_BYTES];
            match Line::read(&line, &mut space) {
                Some(Line::Uart(bytes)) => talk(bytes, &mut dice, &mut bench, &mut second),
                Some(Line::Can(id, data)) => frame(&frame_bytes(id, data), &mut bench, &mut second),
                _ => {
                    linked::power_on(&mut bench.session);
                    second.session = Session::power_on();
                }
            }
        }
    }
}

/// Gives a CAN frame to both boards; that they agree on it is tested elsewhere.
fn frame(frame: &[u8], bench: &mut Bench, second: &mut Second) {
    bench.buffer = vec![UNTOUCHED; 363];
    let mut reply = bench.buffer.clone();
    let outcome = take_can_frame(second.session, frame, &mut second.store.lend(), &mut reply);
    second.session = outcome.session;
    assert_eq!(bench.take_frame(frame).number, outcome.number);
}

/// What is given to the session of a vector: nothing, its byte, or more bytes behind that.
fn slice(vector: &Vector, raw: &[u8], dice: &mut Dice) -> Vec<u8> {
    let from = dice.below(raw.len() - BEHIND);
    let behind = dice.below(BEHIND);
    let behind = dice.one_of(&[0, 1, 9, behind, behind]);
    let mut bytes = vec![vector.byte_at(BYTE)];
    bytes.extend_from_slice(&raw[from..][..behind]);
    bytes.truncate(dice.one_of(&[0, 1, bytes.len(), bytes.len(), bytes.len(), bytes.len()]));
    bytes
}

/// Slices on the sessions and memories of random vectors: wrong lengths, unsound and running ones,
/// and every step with anything staged among them.
#[test]
fn random_slices_agree() {
    let (seed, slices) = (
        wanted("LINKED_SEED", SEED),
        wanted("LINKED_CALLS", SLICES * 10) / 10,
    );
    let (mut dice, raw) = (Dice::seeded(seed), raw::random(seed, TALK_BYTES));
    let mut numbers = [0; 6];
    for vector in vectors::random(seed, slices) {
        let (session, store) = (vector.session(), vector.store());
        let mut bench = Bench {
            session: session_bytes(&session).to_vec(),
            store: store.clone(),
            buffer: vec![],
        };
        let before = bench.clone();
        let (bytes, room) = (slice(&vector, &raw, &mut dice), room(&mut dice));
        let mut second = Second { session, store };
        let taken = both(&bytes, room, &mut bench, &mut second);
        as_single_calls(&bytes, &taken, before, &bench);
        numbers[usize::from(taken.number)] += 1;
    }
    println!("seed {seed}, {slices} slices agree; by their number, 0 to 5: {numbers:?}");
    assert!(numbers[2] == 0 && numbers[3] == 0);
    assert!(slices < SLICES || [0, 1, 4, 5].iter().all(|number| numbers[*number] >= ENOUGH));
}
