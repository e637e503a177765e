//! The option `--keep` of `port` and `desk`: a file of 41,024 bytes that holds a board's memories before what changed them is answered.

use crate::bench::{hex, run, with_xor, Parts};
use second::desk::Desk;
use second::keep::Kept;
use second::port::Port;
use second::stream::{serve, Answers, Broken};
use second::Store;
use std::fs;
use std::io::{self, Write};
use std::path::{Path, PathBuf};

const PORT: &str = env!("CARGO_BIN_EXE_port");
const DESK: &str = env!("CARGO_BIN_EXE_desk");

/// A write of AA to the start of flash, behind connecting.
const WRITE: &str = "7F 31 CE 08 00 00 00 08 00 AA AA";

/// An empty folder of this name.
fn folder(name: &str) -> PathBuf {
    let folder = Path::new(env!("CARGO_TARGET_TMPDIR")).join(name);
    let _ = fs::remove_dir_all(&folder);
    fs::create_dir_all(&folder).unwrap();
    folder
}

/// The bytes of a file that keeps memories: "USD A5 then all FF, flash FF, SRAM 00" where they are fresh.
fn bytes_of(store: &Store) -> Vec<u8> {
    [&store.flash[..], &store.sram, &store.usd].concat()
}

/// Runs a program with words on bytes, a character for each.
fn said(folder: &Path, program: &str, words: &str, bytes: &str) -> (String, String, i32) {
    let input: String = hex(bytes).into_iter().map(char::from).collect();
    run(folder, program, words, &input)
}

/// The names in a folder.
fn names(folder: &Path) -> Vec<String> {
    fs::read_dir(folder).unwrap().map(|entry| entry.unwrap().file_name().into_string().unwrap()).collect()
}

/// A missing file is made with the memories of a fresh board, even if nothing comes in; no part of it is left.
#[test]
fn a_missing_file_is_made() {
    let folder = folder("made");
    let fresh = [vec![0xFF; 32_768], vec![0; 8_192], vec![0xA5], vec![0xFF; 63]].concat();
    for (program, words, name) in [(PORT, "--keep", "a"), (PORT, "--st --keep", "b"), (DESK, "--keep", "c"), (DESK, "--why --keep", "d")] {
        assert_eq!(said(&folder, program, &format!("{words} {name}"), ""), (String::new(), String::new(), 0));
        assert_eq!(fs::read(folder.join(name)).unwrap(), fresh);
    }
    assert_eq!(names(&folder).len(), 4);
}

/// What one run wrote another one reads, on either program, and each memory stands in its place.
#[test]
fn what_is_kept_is_read_again() {
    let folder = folder("kept");
    let usd = with_xor(&[&[0x3F, 0xA5][..], &[0x5A; 7], &[0xFF; 56]].concat());
    let usd: String = usd.iter().map(|byte| format!(" {byte:02X}")).collect();
    let talk = format!("{WRITE} 31 CE 20 00 1F FF C0 00 BB BB 31 CE 1F FF F8 00 18{usd}");
    assert_eq!(said(&folder, PORT, "--keep board", &talk).0, "y".repeat(10));
    let mut store = Store::fresh();
    (store.flash[0], store.sram[8_191]) = (0xAA, 0xBB);
    store.usd[1..8].fill(0x5A);
    assert_eq!(fs::read(folder.join("board")).unwrap(), bytes_of(&store));
    let typed = "U 7F 11 EE 08 00 00 00 08 00 FF\nU 11 EE 20 00 1F FF C0 00 FF 01 FF\nU 44 BB 00 00 00 00 00\n";
    let printed = "> 79 79 79 79 AA\n> 79 79 79 BB 1F\n! 1 2 bad complement or DLC\n> 79 79\n";
    assert_eq!(run(&folder, DESK, "--why --keep board", typed), (printed.to_owned(), String::new(), 0));
    store.flash[0] = 0xFF;
    assert_eq!(fs::read(folder.join("board")).unwrap(), bytes_of(&store));
}

/// A file of another length is refused with its name and length before anything is read, and stays as it is.
#[test]
fn a_file_of_another_length() {
    let folder = folder("lengths");
    for (length, program) in [0, 1, 41_023, 41_025, 100_000].into_iter().flat_map(|length| [(length, PORT), (length, DESK)]) {
        let held = vec![0xA5; length];
        fs::write(folder.join("short"), &held).unwrap();
        let why = format!("short: it has {length} bytes, and a board's memories are 41024\n");
        assert_eq!(said(&folder, program, "--keep short", "7F"), (String::new(), why, 1));
        assert!(fs::read(folder.join("short")).unwrap() == held);
    }
    assert_eq!(said(&folder, PORT, "--keep .", "7F"), (String::new(), ".: Is a directory\n".to_owned(), 1));
    assert_eq!(said(&folder, PORT, "--keep no/board", "7F"), (String::new(), "no/board: No such file or directory\n".to_owned(), 1));
}

/// An output that tells, at each write, what the file holds then.
struct Watch<'f>(&'f Path, Vec<(Vec<u8>, Vec<u8>)>);

impl Write for Watch<'_> {
    /// Keeps what is written and what the file holds.
    fn write(&mut self, bytes: &[u8]) -> io::Result<usize> {
        self.1.push((bytes.to_vec(), fs::read(self.0)?));
        Ok(bytes.len())
    }

    /// Does nothing, since nothing is held.
    fn flush(&mut self) -> io::Result<()> {
        Ok(())
    }
}

/// Serves a board that a file keeps; each answer, and what the file held when it was written.
fn watched<B: Answers>(file: &Path, board: impl Fn(Store) -> B, parts: &[&[u8]]) -> Vec<(Vec<u8>, Vec<u8>)> {
    let kept = Kept::open(file).unwrap();
    let mut output = Watch(file, vec![]);
    let mut input = Parts(parts.iter().map(|part| Ok(part.to_vec())).collect());
    serve(&mut board(kept.store().clone()), Some(kept), &mut input, &mut output).unwrap();
    output.1
}

/// The file holds what a read changed when the answer to that read is written.
#[test]
fn kept_before_it_is_answered() {
    let (folder, mut store) = (folder("before"), Store::fresh());
    let fresh = bytes_of(&store);
    store.flash[0] = 0xAA;
    let (write, changed) = (hex(WRITE), bytes_of(&store));
    let answers = watched(&folder.join("port"), |store| Port::with(store, false), &[&write[..10], &write[10..], &hex("01 FE")]);
    let expected = [("79 79 79", &fresh), ("79", &changed), ("79 20 01 07 79", &changed)];
    assert!(answers == expected.map(|(bytes, held)| (hex(bytes), held.clone())));
    let lines = [&b"U 7F\nU 31 CE 08 00 00 00 08 00 AA\nU"[..], b" AA\n", b"P"];
    let answers = watched(&folder.join("desk"), |store| Desk::with(store, false), &lines);
    let expected = [("> 79\n> 79 79\n", &fresh), ("> 79\n", &changed), (">\n", &changed)];
    assert!(answers == expected.map(|(text, held)| (text.into(), held.clone())));
}

/// The file is written only where a read changed the memories, and where it cannot be, nothing is answered.
#[test]
fn written_only_where_memories_change() {
    let folder = folder("only");
    let path = folder.join("board");
    let kept = Kept::open(&path).unwrap();
    fs::remove_file(&path).unwrap();
    let parts = ["7F 00 FF", "31 CE 08 00 00 00 08 00 FF FF", "31 CE 08 00 00 00 08 00 AA AB", "44 BB FF FF 00", "92 6D"].map(hex);
    let mut output = Vec::new();
    serve(&mut Port::with(Store::fresh(), false), Some(kept), &mut Parts(parts.map(Ok).into()), &mut output).unwrap();
    assert!(!path.exists() && output.len() == 1 + 17 + 3 + 3 + 2 + 2);
    let kept = Kept::open(&path).unwrap();
    fs::remove_dir_all(&folder).unwrap();
    let mut output = Vec::new();
    let ended = serve(&mut Port::with(Store::fresh(), false), Some(kept), &mut Parts(vec![Ok(hex(WRITE))]), &mut output);
    assert!(matches!(ended, Err(Broken::File(error)) if error.kind() == io::ErrorKind::NotFound) && output.is_empty());
}

/// Where the part cannot take the file's place, here since a folder has its name by then, the part is removed and nothing is answered.
#[test]
fn no_part_is_left_of_a_failure() {
    let folder = folder("part");
    let path = folder.join("board");
    let kept = Kept::open(&path).unwrap();
    fs::remove_file(&path).unwrap();
    fs::create_dir(&path).unwrap();
    let mut output = Vec::new();
    let ended = serve(&mut Port::with(Store::fresh(), false), Some(kept), &mut Parts(vec![Ok(hex(WRITE))]), &mut output);
    assert!(matches!(ended, Err(Broken::File(_))) && output.is_empty());
    assert_eq!(names(&folder), ["board"]);
}
