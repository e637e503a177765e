//! S-record files: the table of stored ones, single lines, the programs, and random files.

use crate::bench::{pairs, run};
use second::files::RandomFile;
use second::srecord::{load, said, Answer, Record};
use std::fs;
use std::path::{Path, PathBuf};

/// What must be said of each stored file, written down from the documents.
const TABLE: &str = include_str!("../../../expected/files.md");

/// Where the files are stored.
const STORED: &str = concat!(env!("CARGO_MANIFEST_DIR"), "/../crates/image_stored/data");

const SRECORDS: &str = env!("CARGO_BIN_EXE_srecords");

/// The bytes of an image, and what one holds before.
const IMAGE_BYTES: usize = 32_768;
const BEFORE: u8 = 0x5A;

/// The most characters of a file.
const MOST_CHARACTERS: usize = 2_097_152;

/// Loads a stored file into so many bytes; a refused one must leave every byte.
fn loaded(file: &str, shift: i16, bytes: usize) -> (Answer, Vec<u8>) {
    let mut image = vec![BEFORE; bytes];
    let answer = load(&fs::read(Path::new(STORED).join(file)).unwrap(), shift, &mut image);
    assert!(answer.is_ok() || image == vec![BEFORE; bytes], "{file}");
    (answer, image)
}

/// Each row of the table: a file, its shift, the image's bytes, and what is said; R1 to R15. The program says the same, and makes an
/// image only where the file is not refused.
#[test]
fn stored_files_are_told_as_the_table_says() {
    let new = folder("stored").join("new");
    let rows = TABLE.lines().filter(|line| line.starts_with("| `"));
    assert!(rows.clone().count() > 200);
    for row in rows {
        let cells: Vec<&str> = row.split('|').map(|cell| cell.trim().trim_matches('`')).collect();
        let [_, file, shift, bytes, told, ..] = cells[..] else { panic!("{row}") };
        let (answer, image) = loaded(file, shift.parse().unwrap(), bytes.parse().unwrap());
        assert_eq!(format!("{file}{}", said::said(&answer)), told);
        if image.len() == IMAGE_BYTES {
            let _ = fs::remove_file(&new);
            let words = format!("{file} {} {shift}", new.display());
            assert_eq!(image_in(Path::new(STORED), &words), gives(told, answer.is_ok()));
            assert_eq!(new.exists(), answer.is_ok());
        }
    }
}

/// R1, R6, R14: the place is the address with the shift, less 0x08000000; other bytes stay.
#[test]
fn bytes_go_to_their_places() {
    for (file, shift, place, bytes) in [
        ("first-byte.s37", 0, 0, &[0x11][..]),
        ("first-byte.s37", i16::MAX, 0x7FFF, &[0x11]),
        ("two-sectors.s37", 0, 0x03FF, &[0x31, 0x32]),
        ("across-the-end.s37", -1, 0x7FFE, &[0x01, 0x02]),
        ("far-above-flash.s37", i16::MIN, 0x7FFF, &[0x44]),
        ("byte-above-flash.s37", i16::MIN, 0, &[0x01]),
        ("far-below-flash.s37", i16::MAX, 0, &[0x45]),
    ] {
        let mut expected = vec![BEFORE; IMAGE_BYTES];
        expected[place..place + bytes.len()].copy_from_slice(bytes);
        assert_eq!(loaded(file, shift, IMAGE_BYTES).1, expected, "{file}");
    }
}

/// R2, R11: a line gives its data digits, as part of the text, whatever its checksum, which has one right value.
#[test]
fn checksums_and_the_digits_of_the_data() {
    for checksum in 0..=255 {
        let line = format!("S106123400aB0A{checksum:02X}");
        let record = Record::read(line.as_bytes()).unwrap();
        assert_eq!((record.address, record.data, record.is_right), (0x1234, &b"00aB0A"[..], checksum == 0xFE));
        assert_eq!(record.data.as_ptr(), line[8..].as_ptr());
    }
}

/// R7, R8: S in front, a type that carries three bytes with this count, and nothing but hex digits, in either case, behind the count.
#[test]
fn every_character_of_a_line() {
    for (place, character) in pairs((0..2).chain(4..16), 0..=255) {
        let mut line = *b"S30608000000AB46";
        line[place] = character;
        let is_good = match place {
            0 => character == b'S',
            1 => (b'0'..=b'3').contains(&character),
            _ => character.is_ascii_hexdigit(),
        };
        assert_eq!(Record::read(&line).is_ok(), is_good, "{place} {character}");
    }
}

/// A folder of its own for a test, in which `f.s37` is a file of one byte, 0xAB at the start of flash.
fn folder(name: &str) -> PathBuf {
    let folder = Path::new(env!("CARGO_TARGET_TMPDIR")).join(name);
    let _ = fs::remove_dir_all(&folder);
    fs::create_dir_all(&folder).unwrap();
    fs::write(folder.join("f.s37"), "S0030000FC\r\nS30608000000AB46\r\nS70508000000F2\r\n").unwrap();
    folder
}

/// Runs `image` in a folder.
fn image_in(folder: &Path, words: &str) -> (String, String, i32) {
    run(folder, env!("CARGO_BIN_EXE_image"), words, "")
}

/// What `image` says of a file, with the stream and the exit status of one that is taken or refused.
fn gives(said: &str, is_taken: bool) -> (String, String, i32) {
    let line = format!("{said}\n");
    if is_taken {
        (line, String::new(), 0)
    } else {
        (String::new(), line, 1)
    }
}

/// Requires that `image` refuses with these words, makes no image, and leaves one that is there.
fn refuses(folder: &Path, words: &str, said: &str) {
    fs::write(folder.join("kept"), "kept").unwrap();
    for new in ["new", "kept"] {
        assert_eq!(image_in(folder, &words.replace("NEW", new)), gives(said, false));
    }
    assert!(!folder.join("new").exists());
    assert_eq!(fs::read(folder.join("kept")).unwrap(), b"kept");
}

/// `image` writes the erased image or the old one, which may be the new one too, with the loaded bytes, moved by the shift.
#[test]
fn images_are_written() {
    let folder = folder("written");
    let mut old: Vec<u8> = (0..IMAGE_BYTES).map(|place| place as u8).collect();
    fs::write(folder.join("old"), &old).unwrap();
    let mut erased = vec![0xFF; IMAGE_BYTES];
    for (words, image, place) in
        [("f.s37 new 32767", &mut erased, IMAGE_BYTES - 1), ("f.s37 new 16 old", &mut old.clone(), 16), ("f.s37 old 0 old", &mut old, 0)]
    {
        image[place] = 0xAB;
        assert_eq!(image_in(&folder, words), gives("f.s37: 1 byte in 1 sector", true));
        assert_eq!(fs::read(folder.join(words.split(' ').nth(1).unwrap())).unwrap(), *image);
    }
}

/// What cannot be opened, read or written is told in the system's words, the old image first; an old image of another length is
/// refused by its own name, before any fault of the file.
#[test]
fn refusals_are_told() {
    let folder = folder("refused");
    fs::write(folder.join("bad"), "bad").unwrap();
    for bytes in [0, 1, IMAGE_BYTES - 1, IMAGE_BYTES + 1, 3 * IMAGE_BYTES] {
        fs::write(folder.join("old"), vec![0; bytes]).unwrap();
        refuses(&folder, "bad NEW 0 old", "old: wrong image length: 32768 bytes wanted");
    }
    for (words, said) in [
        ("none NEW 0", "none: No such file or directory"),
        ("f.s37 NEW 0 none", "none: No such file or directory"),
        ("none NEW 0 nor", "nor: No such file or directory"),
        ("f.s37 none/new 0", "none/new: No such file or directory"),
        (". NEW 0", ".: Is a directory"),
        ("f.s37 . 0", ".: Is a directory"),
        ("f.s37/f NEW 0", "f.s37/f: Not a directory"),
    ] {
        refuses(&folder, words, said);
    }
}

/// A file of 2 MiB is read, and a longer one refused before anything of it is.
#[test]
fn long_files_are_refused() {
    let folder = folder("long");
    let (header, end) = ("S0030000FC\n", "S9030000FC");
    let headers = (MOST_CHARACTERS - end.len()) / header.len();
    let rest = MOST_CHARACTERS - end.len() - headers * header.len();
    let full = header.repeat(headers).replacen('\n', "\r\n", rest) + end;
    assert_eq!(full.len(), MOST_CHARACTERS);
    fs::write(folder.join("f"), &full).unwrap();
    assert_eq!(image_in(&folder, "f full 0"), gives("f: 0 bytes in 0 sectors", true));
    for (text, said) in [
        (full + "\n", "f: longer than 2097152 characters"),
        ("x".repeat(MOST_CHARACTERS + 1), "f: longer than 2097152 characters"),
        ("x".repeat(MOST_CHARACTERS), "f:1: bad line"),
    ] {
        fs::write(folder.join("f"), text).unwrap();
        refuses(&folder, "f NEW 0", said);
    }
}

/// `images` keeps one array, and prints the rows that each file changes.
#[test]
fn images_print_what_changes() {
    let folder = folder("images");
    fs::write(folder.join("bad"), "bad").unwrap();
    let erased = " FF".repeat(14);
    for (words, said) in [
        ("f.s37 0 32768 f.s37 0 32768 f.s37 1 32768", format!("@0000: AB FF{erased}\n@@0000: AB AB{erased}\n")),
        ("f.s37 0 32768 f.s37 32767 32768", format!("@0000: AB FF{erased}\n@7FF0:{erased} FF AB\n")),
        ("f.s37 0 32769", "f.s37: wrong image length: 32768 bytes wanted\n".into()),
        ("bad 0 0 bad 0 32768", "bad: wrong image length: 32768 bytes wanted\nbad:1: bad line\n".into()),
    ] {
        let said = said.replace('@', "f.s37: 1 byte in 1 sector\n");
        assert_eq!(run(&folder, env!("CARGO_BIN_EXE_images"), words, ""), (said, String::new(), 0));
    }
}

/// A seed determines its file, which the program prints with how it is to be loaded.
#[test]
fn a_seed_determines_its_file() {
    for seed in 1..20 {
        let file = RandomFile::of(seed);
        assert_ne!(file, RandomFile::of(seed + 1));
        let text = file.text.into_iter().map(char::from).collect();
        assert_eq!(run(Path::new("."), SRECORDS, &seed.to_string(), ""), (text, format!("{} {}\n", file.shift, file.onto), 0));
    }
}

/// The files of the seeds 1 to 4,000 reach all that can come of a file; those of few seeds do not.
#[test]
fn files_reach_all_that_can_come_of_one() {
    for (words, reached, status) in [("1 4000 covered", "113 of 113 reached\n", 0), ("1 40 covered", "", 1), ("1 40", "", 0)] {
        let (out, _, ended) = run(Path::new("."), SRECORDS, words, "");
        assert!(out.ends_with(reached) && ended == status, "{out}");
    }
}
