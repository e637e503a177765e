//! The programs that print random inputs, and what every program answers to other words.

use crate::bench::{run, Bench};
use second::Session;
use std::path::Path;
use std::thread;

const SCRIPT: &str = env!("CARGO_BIN_EXE_script");
const VECTORS: &str = env!("CARGO_BIN_EXE_vectors");

/// A program, its words to print random inputs and to count what some reach, and inputs enough to reach everything.
const RANDOM: [(&str, &str, &str, usize); 4] = [
    (SCRIPT, "uart", "uart count", 3_000),
    (SCRIPT, "mixed", "mixed count", 5_000),
    (VECTORS, "generate", "count", 4_500),
    (SCRIPT, "raw", "raw count", 60_000),
];

/// Words that are none of a program's, one behind each bar.
const OTHER_WORDS: [(&str, &str); 7] = [
    (env!("CARGO_BIN_EXE_desk"), "--help|why|--why --why|--why f|f|--Why|-why|--keep|--why --keep|--keep f --why|--keep f g|--st"),
    (env!("CARGO_BIN_EXE_port"), "--help|st|--st --st|--st f|f|--ST|--keep|--st --keep|--keep f --st|--keep f g|--why|--keep f --keep f"),
    (env!("CARGO_BIN_EXE_image"), "|--help|f|f new|f new x|f new 32768|f new -32769|f new 0x10|f new 0 old more"),
    (env!("CARGO_BIN_EXE_images"), "--help|f 0|f 0 32770|f x 0"),
    (env!("CARGO_BIN_EXE_srecords"), "|--help|x|1 x|1 2 more|1 2 covered 3"),
    (SCRIPT, "|--help|uart|uart 1|uart 1 x|mixed -1 9|mixed 1 9 all|raw|raw 1|raw 1 x|raw x 1|other 1 9|characters 1|characters covered"),
    (VECTORS, "|--help|generate|generate 1|generate 1 x|generate -1 9|sweep|sweep x|run 1"),
];

/// Runs a program that needs no file.
fn said(program: &str, words: &str, input: &str) -> (String, String, i32) {
    run(Path::new(env!("CARGO_TARGET_TMPDIR")), program, words, input)
}

/// A seed determines its inputs, another gives others, and fewer are the first of more, but for raw bytes, which have an end.
#[test]
fn a_seed_determines_its_inputs() {
    for (program, print, _, _) in RANDOM.into_iter().filter(|(_, print, _, _)| *print != "raw") {
        let printed = |seed, count| said(program, &format!("{print} {seed} {count}"), "").0;
        let all = printed(7, 700);
        assert_ne!(all, printed(8, 700));
        for count in [0, 1, 2, 99, 700] {
            let first: String = all.split_inclusive('\n').take(count).collect();
            assert_eq!((printed(7, count), first.matches('\n').count()), (first, count));
        }
    }
}

/// Raw bytes are as many as are wanted; a seed determines them, and the talk before their end is the first of a longer one. One Jump is
/// obeyed among the last 300, to the start of flash, and bytes stand behind it.
#[test]
fn raw_bytes_and_their_end() {
    let printed =
        |seed, count: usize| said(SCRIPT, &format!("raw {seed} {count}"), "").0.chars().map(|byte| byte as u8).collect::<Vec<u8>>();
    let long = printed(7, 9_000);
    assert!(long == printed(7, 9_000) && long != printed(8, 9_000));
    for count in [0, 1, 12, 299, 300, 301, 2_000, 9_000] {
        let bytes = printed(7, count);
        let before_end = count.saturating_sub(300);
        assert!(bytes.len() == count && bytes[..before_end] == long[..before_end]);
    }
    for seed in 1..=20 {
        let (bytes, mut bench) = (printed(seed, 3_000), Bench::at(Session::power_on()));
        let runs_at = bytes.iter().position(|byte| !bench.uart(&[*byte]).is_empty() && bench.session.carrier == 3).unwrap();
        assert!((2_700..2_980).contains(&runs_at) && bench.session.address == 0x0800_0000, "{seed}: {runs_at}");
        assert_eq!(bytes[runs_at + 1..][..3], [0x7F, 0x01, 0xFE]);
    }
}

/// Inputs reach every pair of the table and none outside it, and are counted alike when they are made and when they are given.
#[test]
fn inputs_reach_all_that_can_come() {
    let reach_all = |(program, print, count, enough): (&str, &str, &str, usize)| {
        for seed in [1, 2, 200, u64::MAX] {
            let (inputs, reached, status) = said(program, &format!("{print} {seed} {enough} covered"), "");
            assert_eq!(status, 0, "{print} {seed}: {reached}");
            assert!(seed > 1 || said(program, &format!("{count} covered"), &inputs) == (String::new(), reached, 0));
        }
    };
    thread::scope(|scope| RANDOM.map(|random| scope.spawn(move || reach_all(random))).map(|ended| ended.join().unwrap()));
}

/// A pair that is not reached is a failure only if all is to be covered, and one outside the table always: here a frame in a talk on UART.
#[test]
fn what_is_not_reached_and_what_should_not_be() {
    let crc_count = "not reached: Byte at Uart(CrcCount): Nack(SectorRange(Behind))\n";
    let reply_length = "not reached: Byte at no step: Cause(ReplyLength)\n";
    for (program, words, input, told, expected) in [
        (SCRIPT, "uart 1 9", "", crc_count, 0),
        (SCRIPT, "uart 1 9 covered", "", crc_count, 1),
        (SCRIPT, "uart count", "C 079\n", "not in the table: Frame at None: Did(Connected)\n", 1),
        (SCRIPT, "raw 1 9", "", crc_count, 0),
        (SCRIPT, "raw 1 9 covered", "", crc_count, 1),
        (SCRIPT, "raw count", "\u{7F}!\u{DE} \0\0\0 ", "not in the table: Byte at Uart(JumpAddress): Did(Jumped(Sram, Least))\n", 1),
        (VECTORS, "generate 1 9", "", reply_length, 0),
        (VECTORS, "generate 1 9 covered", "", reply_length, 1),
    ] {
        let (_, reached, status) = said(program, words, input);
        assert!(reached.contains(told) && status == expected, "{words}");
    }
}

/// What is counted is what the board did: here it connects, takes a wrong complement, and meets a line that is none.
#[test]
fn a_short_script_is_counted_by_hand() {
    let (_, report, status) = said(SCRIPT, "uart count", "U 7F 00\nU 0F\nQ\n");
    let reached: Vec<&str> = report.lines().filter(|line| line.starts_with("      1 ")).map(str::trim_start).collect();
    let by_hand = [
        "1 Byte at None: Did(Connected)",
        "1 Byte at Uart(Idle): Did(Waits)",
        "1 Byte at Uart(Idle), command 0x00: Nack(Complement)",
        "1 NoLine at Uart(Idle): Did(Unheard)",
    ];
    assert_eq!((reached, status), (by_hand.to_vec(), 0));
    assert!(report.lines().last().unwrap().starts_with("4 of "));
}

/// Other words give the program's usage on standard error, and exit status 2.
#[test]
fn other_words_are_refused() {
    for (program, others) in OTHER_WORDS {
        let name = Path::new(program).file_name().unwrap().to_str().unwrap();
        for words in others.split('|') {
            let (out, usage, status) = said(program, words, "");
            assert_eq!((out.as_str(), status), ("", 2), "{name} {words}");
            assert!(usage.starts_with(&format!("{name} ")));
        }
    }
}
