//! Wrong words, files and tables that are none, and places that cannot be written to: a message on standard
//! error and a status, nothing on standard output, and every file as it was.

use std::ffi::OsStr;
use std::fs;
use std::os::unix::ffi::OsStrExt;
use std::os::unix::fs::FileTypeExt;
use std::path::{Path, PathBuf};
use std::process::{Command, Output};

use generate::{any_valid, damaged_rows, padded, table_of, text_of, Random, Row, MOST_LINES};
use pithread::Table;
use process::{example, full_device, kept};

use crate::{folder, load, text, workbench, WORKBENCH};

fn expect(words: &[&str], status: i32, message: &str) {
    WORKBENCH.expect(&workbench(words), status, message);
}

/// The table of an example, in a folder of its own.
fn units_table(name: &str) -> PathBuf {
    let table = folder(name).join("table");
    load(&example("units.txt"), &table);
    table
}

/// How many files and folders there are in a folder.
fn count_in(folder: &Path) -> usize {
    fs::read_dir(folder).expect("the folder").count()
}

/// The folder has the table alone, and the table is the one that was loaded.
fn expect_as_it_was(table: &Path) {
    let file = fs::read(example("units.txt")).expect("an example");
    let loaded = Table::load(&file).expect("it loads");
    assert!(fs::read(table).expect("the table") == loaded.as_bytes());
    assert_eq!(count_in(table.parent().expect("a folder")), 1, "something is left beside {table:?}");
}

#[test]
fn wrong_words() {
    let table = units_table("words");
    let table = text(&table);
    let wrong: [(&[&str], &str); 14] = [
        (&[], "usage: ./run NAME WORD..; './run help' names all commands"),
        (&["load"], "usage: ./run load FILE TABLE; './run help load' says more"),
        (&["load", "a"], "usage: ./run load FILE TABLE"),
        (&["load", "a", "b", "c"], "usage: ./run load FILE TABLE"),
        (&["set"], "usage: ./run set TABLE LINE FIELD NUMBER"),
        (&["--set", table, "55", "4"], "usage: ./run set TABLE LINE FIELD NUMBER"),
        (&["set", table, "55", "4", "1", "1"], "usage: ./run set TABLE LINE FIELD NUMBER"),
        (&["write"], "usage: ./run write TABLE"),
        (&["write", table, table], "usage: ./run write TABLE"),
        (&["profile"], "usage: ./run profile FILE"),
        (&["--profile", table, table], "usage: ./run profile FILE"),
        (&["Profile", table], "\"Profile\" is no command; './run help' names all commands"),
        (&["--print", table], "\"--print\" is no command; "),
        (&["---write", table], "\"---write\" is no command; "),
    ];
    for (words, message) in wrong {
        expect(words, 2, message);
    }
    let no_text = WORKBENCH.run(&[OsStr::from_bytes(b"write\xff"), OsStr::new(table)]);
    WORKBENCH.expect(&no_text, 2, "is no command; ");
    expect_as_it_was(Path::new(table));
}

#[test]
fn numbers_outside_their_range() {
    let table = units_table("numbers");
    let path = text(&table);
    let no_numbers = ["", " 1", "1 ", "+1", "--1", "-", "1.5", "0x1", "x", "１", "99999999999999999999"];
    for word in no_numbers.into_iter().chain(["-32769", "32768", "65535"]) {
        expect(&["set", path, "55", "4", word], 2, "is no number from -32768 to 32767; usage:");
    }
    for word in no_numbers.into_iter().chain(["0", "-1", "866", "18446744073709551616"]) {
        expect(&["set", path, word, "4", "1"], 2, "is no number from 1 to 865; usage:");
    }
    for word in no_numbers.into_iter().chain(["0", "-1", "13"]) {
        expect(&["set", path, "55", word, "1"], 2, "is no number from 1 to 12; usage:");
    }
    expect_as_it_was(&table);
}

#[test]
fn what_cannot_be_read() {
    let table = units_table("unread");
    let path = text(&table);
    for missing in ["", "no/such/file", "two\nlines\u{1b}[2J", "/", "."] {
        expect(&["load", missing, path], 2, "cannot be read: ");
        expect(&["set", missing, "1", "1", "1"], 2, "cannot be read: ");
        expect(&["write", missing], 2, "cannot be read: ");
        expect(&["profile", missing], 2, "cannot be read: ");
    }
    expect_as_it_was(&table);
}

#[test]
fn refused_files() {
    let table = units_table("refused");
    let folder = folder("refused-files");
    let right = fs::read(example("relay.txt")).expect("an example");
    let mut range = right.clone();
    range[3 * 73 + 6 + 5] = b'9';
    let files: [(&[u8], &str); 5] = [
        (b"\n", "is refused, ground 1: "),
        (&right[..right.len() - 1], "is refused, ground 1: "),
        (&[0xff; 730], "is refused, ground 2, line 1: "),
        (&range, "is refused, ground 4, line 4: "),
        (&vec![b' '; 63_146], "is refused, ground 1: "),
    ];
    for (bytes, message) in files {
        let file = kept(&folder, OsStr::new("file"), bytes);
        expect(&["load", text(&file), text(&table)], 1, message);
        expect(&["profile", text(&file)], 1, message);
    }
    expect_as_it_was(&table);
}

#[test]
fn tables_of_another_length() {
    let folder = folder("lengths");
    for length in [0, 1, 20_759, 20_761, 63_145] {
        let bytes = vec![0; length];
        let table = kept(&folder, OsStr::new("table"), &bytes);
        let message = "is refused, ground 8: a buffer has the wrong length; a table has 20760 bytes";
        expect(&["write", text(&table)], 1, message);
        expect(&["set", text(&table), "1", "1", "1"], 1, message);
        assert!(fs::read(&table).expect("the table") == bytes);
    }
}

#[test]
fn a_table_of_zeros() {
    let zeros = kept(&folder("zeros"), OsStr::new("table"), &[0; 20_760]);
    let message = "ground 9: no procedure file has this table; a load of its lines says ground 3, line 1: ";
    expect(&["write", text(&zeros)], 1, message);
}

/// The numbers of a file's text, a row for each line.
fn rows_of(text: &str) -> Vec<Row> {
    let numbers =
        |line: &str| line.split_whitespace().map(|field| field.parse().expect("a number")).collect();
    let lines: Vec<Vec<i16>> = text.lines().map(numbers).collect();
    lines.iter().map(|line| padded(line)).collect()
}

/// The program refuses the table of these rows, and names this ground and line.
fn expect_refused(folder: &Path, rows: &[Row], ground: i32, line: i32, about: &str) {
    let table = kept(folder, OsStr::new("table"), &table_of(rows));
    let output = workbench(&["write", text(&table)]);
    let fault = format!("a load of its lines says ground {ground}, line {line}: ");
    assert!(String::from_utf8_lossy(&output.stderr).contains(&fault), "{about}: {output:?}");
    WORKBENCH.expect(&output, 1, "is refused, ground 9: no procedure file has this table; ");
}

#[test]
fn a_refused_table_is_told_by_its_line() {
    let folder = folder("told");
    let expected = fs::read_to_string(example("refused/expected")).expect("the table of the refused files");
    let mut grounds = Vec::new();
    for entry in expected.lines().filter(|line| !line.starts_with('#')) {
        let words: Vec<&str> = entry.split_whitespace().collect();
        let [name, ground, line] = words[..] else { panic!("{entry}") };
        let [ground, line] = [ground, line].map(|word| word.parse().expect("a number"));
        if (3..=7).contains(&ground) {
            let text = fs::read_to_string(example(&format!("refused/{name}.txt"))).expect("a refused file");
            expect_refused(&folder, &rows_of(&text), ground, line, name);
            grounds.push(ground);
        }
    }
    grounds.dedup();
    assert_eq!(grounds, [3, 4, 5, 6, 7]);
}

#[test]
fn a_damaged_table_is_told_by_its_line() {
    let folder = folder("damaged");
    let mut came = [0; 8];
    for seed in 52_000_000..52_000_400 {
        let random = &mut Random::new(seed);
        let file = any_valid(random);
        let rows = damaged_rows(random, &file);
        let Err(refusal) = reference::load(&text_of(&rows)) else { continue };
        if rows.len() <= MOST_LINES && rows.last() != Some(&[0; 12]) {
            expect_refused(&folder, &rows, refusal.ground, refusal.line, &format!("seed {seed}"));
            came[refusal.ground as usize] += 1;
        }
    }
    assert!(came[3..].iter().all(|count| *count >= 5), "{came:?}");
}

#[test]
fn a_file_that_cannot_be_written() {
    let table = units_table("full");
    let mut command = WORKBENCH.with(&[OsStr::new("write"), table.as_os_str()]);
    let output = command.stdout(full_device()).output().expect("the program starts");
    WORKBENCH.expect(&output, 2, "the file cannot be written: ");
    WORKBENCH.expect_status_alone(&[OsStr::new("write"), table.as_os_str()]);
}

#[test]
fn places_that_are_no_place_for_a_table() {
    let around = folder("places");
    let [inner, pipe] = ["folder", "pipe"].map(|name| around.join(name));
    fs::create_dir(&inner).expect("a folder is made");
    assert!(Command::new("mkfifo").arg(&pipe).status().expect("it starts").success());
    let nowhere = inner.join("no/such/folder/table");
    for place in ["", "/", "..", text(&inner), text(&pipe), text(&nowhere)] {
        expect(&["load", text(&example("units.txt")), place], 2, "cannot be written: ");
    }
    assert!(fs::metadata(&pipe).expect("the pipe").file_type().is_fifo());
    assert_eq!([count_in(&inner), count_in(&around)], [0, 2]);
}

/// Runs the program where no file may have more than some kilobytes.
fn where_files_are_short(words: &[&str]) -> Output {
    let script = "trap '' XFSZ; ulimit -f 8; exec \"$0\" \"$@\"";
    let program = env!("CARGO_BIN_EXE_workbench");
    Command::new("sh").args(["-c", script, program]).args(words).output().expect("the shell starts")
}

#[test]
fn a_table_is_written_whole_or_not_at_all() {
    let table = units_table("whole");
    let other = example("pool.txt");
    for words in [&["load", text(&other), text(&table)][..], &["set", text(&table), "55", "4", "1"]] {
        WORKBENCH.expect(&where_files_are_short(words), 2, "cannot be written: ");
        expect_as_it_was(&table);
    }
    let empty = folder("whole-fresh");
    let fresh = empty.join("table");
    WORKBENCH.expect(&where_files_are_short(&["load", text(&other), text(&fresh)]), 2, "cannot be written: ");
    assert_eq!(count_in(&empty), 0);
}

#[test]
fn nobody_reads_what_it_says() {
    WORKBENCH.expect_status_alone(&[]);
}
