//! Random words and files of any bytes, from seeds: never a panic, status 0, 1 or 2, and something on standard error
//! wherever the status is not 0: one line, and where a slip in a short form is marked two more.

use std::ffi::OsString;
use std::fs;
use std::os::unix::ffi::OsStringExt;
use std::path::Path;

use generate::{any_valid, damaged_rows, text_of, Random};
use process::{example, kept};

use crate::{folder, load, text, WORKBENCH};

const NAMES: [&str; 11] =
    ["list", "why", "long", "short", "load", "set", "write", "profile", "draw", "help", "--load"];
const WORDS: [&str; 16] = [
    "file",
    "table",
    "new",
    "--help",
    "--svg",
    "--dot",
    "1",
    "12",
    "865",
    "866",
    "-32768",
    "",
    ".",
    "..",
    "-",
    "nowhere/new",
];

/// A word of any kind: a name, a file, a number, or some bytes, none of which leads out of the folder.
fn any_word(random: &mut Random) -> OsString {
    match random.below(8) {
        0 => OsString::from(random.pick(&NAMES)),
        1..=5 => OsString::from(random.pick(&WORDS)),
        6 => OsString::from((random.below(70_000) as i64 - 35_000).to_string()),
        _ => {
            let bytes = (0..random.below(6)).map(|_| 1 + random.below(255) as u8);
            OsString::from_vec(bytes.filter(|byte| *byte != b'/').collect())
        }
    }
}

/// Words that a command can do something with.
fn right_words(name: &str) -> &'static [&'static str] {
    match name {
        "load" | "--load" => &["file", "new"],
        "set" => &["table", "55", "4", "7"],
        "write" => &["table"],
        "draw" => &["file", "5", "--dot"],
        "help" => &["draw"],
        _ => &["file"],
    }
}

/// The words of a command, some of them wrong, and sometimes more or fewer.
fn any_words(random: &mut Random) -> Vec<OsString> {
    let name = random.pick(&NAMES);
    let mut words: Vec<OsString> = right_words(name).iter().map(OsString::from).collect();
    words.insert(0, OsString::from(name));
    for word in &mut words {
        if random.below(8) == 0 {
            *word = any_word(random);
        }
    }
    match random.below(12) {
        0 => words.push(any_word(random)),
        1 => words.truncate(random.below(words.len() + 1)),
        _ => {}
    }
    words
}

/// A file of any bytes, of the bytes of a procedure, or of something near to one.
fn any_file(random: &mut Random) -> Vec<u8> {
    let file = any_valid(random);
    let mut bytes = if random.below(2) == 0 { file.text() } else { text_of(&damaged_rows(random, &file)) };
    match random.below(4) {
        0 => (0..random.below(70_000)).map(|_| random.below(256) as u8).collect(),
        1 => {
            bytes.truncate(random.below(bytes.len() + 1));
            bytes
        }
        2 => {
            let length = bytes.len();
            bytes[random.below(length)] = random.below(256) as u8;
            bytes
        }
        _ => bytes,
    }
}

/// A table, mostly with another number somewhere, or some bytes.
fn any_table(random: &mut Random, table: &[u8]) -> Vec<u8> {
    let mut bytes = table.to_vec();
    for _ in 0..random.below(3) {
        bytes[random.below(2_000)] = random.below(256) as u8;
    }
    bytes.truncate(if random.below(4) == 0 { random.below(30_000) } else { bytes.len() });
    bytes
}

fn run_in(folder: &Path, words: &[OsString], about: &str) -> i32 {
    let words: Vec<_> = words.iter().map(OsString::as_os_str).collect();
    let output = WORKBENCH.with(&words).current_dir(folder).output().expect("the program starts");
    let said = String::from_utf8_lossy(&output.stderr);
    let status = output.status.code().unwrap_or(-1);
    assert!((0..=2).contains(&status), "{about}: {words:?}: {output:?}");
    assert!(!said.contains("panicked"), "{about}: {words:?}: {said}");
    if status != 0 {
        assert!(
            said.starts_with("workbench: ") && matches!(said.lines().count(), 1 | 3),
            "{about}: {words:?}: {said}"
        );
    }
    status
}

#[test]
fn any_words_and_any_bytes() {
    let folder = folder("seeds");
    load(&example("units.txt"), &folder.join("units.table"));
    let table = fs::read(folder.join("units.table")).expect("the table");
    let mut came = [0; 3];
    for seed in 55_000_000..55_001_000 {
        let random = &mut Random::new(seed);
        kept(&folder, "file".as_ref(), &any_file(random));
        kept(&folder, "table".as_ref(), &any_table(random, &table));
        let words = any_words(random);
        came[run_in(&folder, &words, &format!("seed {seed}")) as usize] += 1;
    }
    assert!(came.iter().all(|count| *count >= 150), "{came:?}");
    let left = fs::read_dir(&folder).expect("the folder").map(|entry| entry.expect("a file").file_name());
    let hidden: Vec<OsString> =
        left.filter(|name| name.to_string_lossy().starts_with(".workbench")).collect();
    assert!(hidden.is_empty(), "{hidden:?} in {}", text(&folder));
}
