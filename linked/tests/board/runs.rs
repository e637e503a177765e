//! Runs of calls on one session's slice, which each call hands on to the next.

use crate::bench::{handed_back, session_bytes, Bench, UNTOUCHED};
use second::ends::Kind;
use second::frame::frame_bytes;
use second::line::{Line, LINE_BYTES};
use second::script::random;
use second::{take_can_frame, take_uart_byte, Outcome, Session, Store};

/// How many scripts are run, and of how many lines.
const SCRIPTS: u64 = 10;
const LINES: usize = 2_000;

/// The second board, which every call hands on.
struct Second {
    session: Session,
    store: Store,
}

impl Second {
    /// Tests that the linked board gave and left what the second one did, and goes on with that.
    fn agrees(&mut self, taken: linked::Taken, outcome: Outcome, reply: &[u8], bench: &Bench) {
        assert_eq!(taken, handed_back(&outcome));
        self.session = outcome.session;
        assert!(
            bench.session == session_bytes(&self.session),
            "the sessions differ"
        );
        assert!(bench.store == self.store, "the memories differ");
        assert_eq!(bench.buffer, reply);
    }
}

/// Gives a UART byte to both boards.
fn byte(byte: u8, bench: &mut Bench, second: &mut Second) {
    let mut reply = bench.buffer.clone();
    let outcome = take_uart_byte(second.session, byte, &mut second.store.lend(), &mut reply);
    let taken = bench.take_byte(byte);
    second.agrees(taken, outcome, &reply, bench);
}

/// Gives a CAN frame to both boards.
fn frame(frame: &[u8], bench: &mut Bench, second: &mut Second) {
    let mut reply = bench.buffer.clone();
    let outcome = take_can_frame(second.session, frame, &mut second.store.lend(), &mut reply);
    let taken = bench.take_frame(frame);
    second.agrees(taken, outcome, &reply, bench);
}

/// Powers both boards on.
fn power_on(bench: &mut Bench, second: &mut Second) {
    assert_eq!(linked::power_on(&mut bench.session), linked::ACCEPTED);
    second.session = Session::power_on();
    assert!(bench.session == session_bytes(&second.session));
}

/// Whole scripts on both carriers agree, call by call.
#[test]
fn whole_scripts_agree() {
    for seed in 1..=SCRIPTS {
        let mut bench = Bench::fresh();
        let mut second = Second {
            session: Session::power_on(),
            store: Store::fresh(),
        };
        for line in random(Kind::Mixed, seed, LINES) {
            let mut space = [0; LINE_BYTES];
            match Line::read(&line, &mut space) {
                Some(Line::Uart(bytes)) => {
                    bytes
                        .iter()
                        .for_each(|one| byte(*one, &mut bench, &mut second));
                }
                Some(Line::Can(id, data)) => frame(&frame_bytes(id, data), &mut bench, &mut second),
                Some(Line::PowerOn) => power_on(&mut bench, &mut second),
                None => bench.buffer.fill(UNTOUCHED),
            }
        }
    }
}
