//! What is no file: folders, devices, fifos with and without a writer; a table for a procedure and the reverse; modes
//! of files; and standard output that is closed.

use std::ffi::OsStr;
use std::fs::{self, File, Permissions};
use std::os::unix::fs::PermissionsExt;
use std::path::{Path, PathBuf};
use std::process::{Command, Output, Stdio};
use std::thread;

use process::{example, kept};

use crate::{done, folder, load, text, workbench, WORKBENCH};

/// Each command that reads a file, on this one.
fn expect_of_each(path: &str, status: i32, message: &str) {
    let other = folder("of-each").join("table");
    let commands: [&[&str]; 7] = [
        &[path],
        &["list", path],
        &["load", path, text(&other)],
        &["set", path, "1", "1", "1"],
        &["write", path],
        &["profile", path],
        &["draw", path, "5", "--svg"],
    ];
    for words in commands {
        WORKBENCH.expect(&workbench(words), status, message);
    }
    assert!(!other.exists());
}

fn fifo_in(folder: &Path) -> PathBuf {
    let fifo = folder.join("fifo");
    assert!(Command::new("mkfifo").arg(&fifo).status().expect("it starts").success());
    fifo
}

#[test]
fn what_is_no_file_is_told_by_its_kind() {
    let around = folder("kinds");
    expect_of_each(text(&around), 2, "cannot be read: it is a folder, not a file");
    expect_of_each("/dev/zero", 2, "\"/dev/zero\" cannot be read: it is a device, not a file");
    expect_of_each("/dev/null", 2, "cannot be read: it is a device, not a file");
    expect_of_each(text(&fifo_in(&around)), 2, "cannot be read: it is a fifo, and nobody writes to it");
}

#[test]
fn a_place_that_is_no_file_is_told_by_its_kind() {
    let around = folder("places-by-kind");
    let fifo = fifo_in(&around);
    let places = [(text(&around), "a folder"), ("/dev/null", "a device"), (text(&fifo), "a fifo")];
    for (place, what) in places {
        let message = format!("cannot be written: it is {what}, not a file");
        WORKBENCH.expect(&workbench(&["load", text(&example("units.txt")), place]), 2, &message);
    }
}

/// A writer that comes late, writes in pieces, or never ends.
#[test]
fn a_fifo_with_a_writer_is_read() {
    let fifo = fifo_in(&folder("writer"));
    let words = ["profile", text(&fifo)];
    let written = |script: &str| -> Output {
        let mut writer =
            Command::new("sh").args(["-c", script, text(&fifo), text(&example("crew.txt"))]).spawn();
        let writer = writer.as_mut().expect("the shell starts");
        let output = workbench(&words);
        writer.wait().expect("it ends");
        output
    };
    for script in
        ["cat \"$1\" >\"$0\"", "sleep 0.2; (head -c 100 \"$1\"; sleep 0.1; tail -c +101 \"$1\") >\"$0\""]
    {
        let output = written(script);
        assert!(output.status.success() && output.stderr.is_empty(), "{output:?}");
    }
    WORKBENCH.expect(&written("yes >\"$0\" 2>/dev/null"), 1, "is refused, ground 1: ");
    let none = written("sleep 0.1; exec 3>\"$0\"; sleep 0.2");
    assert!(none.status.success(), "a writer that writes nothing makes a file without bytes: {none:?}");
}

#[test]
fn a_table_for_a_procedure_and_the_reverse() {
    let table = folder("mistaken").join("table");
    load(&example("units.txt"), &table);
    let hint = "ground 1: the file ends inside a line, or has more than 865 lines; a table has 20760 bytes, as this \
                file does: './run write' prints the file of a table";
    let other = table.with_file_name("other");
    let commands: [&[&str]; 3] = [
        &["load", text(&table), text(&other)],
        &["profile", text(&table)],
        &["draw", text(&table), "5", "--dot"],
    ];
    for words in commands {
        WORKBENCH.expect(&workbench(words), 1, hint);
    }
    let hint = "ground 8: a buffer has the wrong length; a table has 20760 bytes; this is a procedure file: './run load' \
                makes the table of one";
    for name in ["units.txt", "refused/next-not-forward.txt"] {
        let file = example(name);
        WORKBENCH.expect(&workbench(&["write", text(&file)]), 1, hint);
        WORKBENCH.expect(&workbench(&["set", text(&file), "1", "1", "1"]), 1, hint);
    }
}

#[test]
fn a_table_keeps_its_mode() {
    let folder = folder("modes");
    for mode in [0o600, 0o640, 0o664, 0o755, 0o200 | 0o444] {
        let table = kept(&folder, OsStr::new("table"), b"something else");
        fs::set_permissions(&table, Permissions::from_mode(mode)).expect("they are set");
        load(&example("units.txt"), &table);
        done(&["set", text(&table), "55", "4", "5"]);
        let now = fs::metadata(&table).expect("the table").permissions().mode() & 0o7777;
        assert_eq!(now, mode, "{now:o}");
    }
}

#[test]
fn a_table_that_nobody_may_write_stays() {
    let folder = folder("read-only");
    let table = folder.join("table");
    load(&example("units.txt"), &table);
    let before = fs::read(&table).expect("the table");
    fs::set_permissions(&table, Permissions::from_mode(0o444)).expect("they are set");
    for words in
        [&["set", text(&table), "55", "4", "5"][..], &["load", text(&example("pool.txt")), text(&table)]]
    {
        let message = "cannot be written: its mode lets nobody write to it";
        WORKBENCH.expect(&workbench(words), 2, message);
    }
    assert!(fs::read(&table).expect("the table") == before);
    assert_eq!(fs::read_dir(&folder).expect("the folder").count(), 1);
}

/// Runs the program from a shell with this behind its words.
fn redirected(words: &[&str], to: &str) -> Output {
    let script = format!("exec \"$0\" \"$@\" {to}");
    let program = env!("CARGO_BIN_EXE_workbench");
    Command::new("sh").args(["-c", &script, program]).args(words).output().expect("the shell starts")
}

#[test]
fn standard_output_that_is_closed_full_or_read_by_nobody() {
    let table = folder("closed").join("table");
    load(&example("units.txt"), &table);
    let crew = example("crew.txt");
    let commands: [(&[&str], &str); 5] = [
        (&["write", text(&table)], "file"),
        (&["profile", text(&crew)], "answer"),
        (&["draw", text(&crew), "5", "--svg"], "picture"),
        (&["help"], "help"),
        (&["help", "draw"], "help"),
    ];
    for (words, what) in commands {
        let message = format!("the {what} cannot be written: ");
        let closed = redirected(words, ">&-");
        WORKBENCH.expect(&closed, 2, &format!("{message}standard output is closed"));
        WORKBENCH.expect(&redirected(words, ">/dev/full"), 2, &message);
        WORKBENCH.expect(&unread(words), 2, &message);
        assert!(redirected(words, ">/dev/null").status.success(), "{words:?}");
        assert!(redirected(words, "1<>/dev/null").status.success(), "{words:?}");
        assert_eq!(redirected(words, ">&- 2>&-").status.code(), Some(2), "{words:?}");
    }
    assert!(redirected(&["load", text(&crew), text(&table)], ">&- 2>&- <&-").status.success());
}

/// Runs the program with a pipe for its standard output that nobody reads.
fn unread(words: &[&str]) -> Output {
    let mut child = Command::new(env!("CARGO_BIN_EXE_workbench"));
    let (reader, writer) = std::io::pipe().expect("a pipe");
    drop(reader);
    child.args(words).stdout(Stdio::from(writer)).stderr(Stdio::piped());
    child.spawn().and_then(|child| child.wait_with_output()).expect("the program starts")
}

/// Files that are opened while others read them: none is left behind, and each run ends.
#[test]
fn several_at_a_time() {
    let folder = folder("several-at-a-time");
    thread::scope(|scope| {
        for number in 0..8 {
            let table = folder.join(format!("table-{number}"));
            scope.spawn(move || load(&example("units.txt"), &table));
        }
    });
    assert_eq!(fs::read_dir(&folder).expect("the folder").count(), 8);
    assert!(File::open(folder.join("table-7")).is_ok());
}
