//! Pictures that are drawn, and what cannot be: wrong words, files that are none, and places that cannot be written
//! to.

use std::ffi::OsStr;
use std::fs;
use std::os::unix::ffi::OsStrExt;
use std::path::Path;
use std::process::Output;

use process::{example, full_device, kept};

use crate::{folder, WORKBENCH};

fn picture(words: &[&OsStr]) -> Output {
    WORKBENCH.run(words)
}

fn words<'a>(path: &'a Path, steps: &'a str, form: &'a str) -> [&'a OsStr; 4] {
    [OsStr::new("draw"), path.as_os_str(), OsStr::new(steps), OsStr::new(form)]
}

fn expect(output: Output, status: i32, message: &str) {
    WORKBENCH.expect(&output, status, message);
}

#[test]
fn right_words_draw() {
    for (form, beginning) in [("--svg", "<svg "), ("--dot", "digraph waits {")] {
        let relay = ["0", "007", "65535"].map(|steps| ("relay.txt", steps));
        for (name, steps) in relay.into_iter().chain([("empty_slot.txt", "0"), ("empty_slot.txt", "5")]) {
            let output = picture(&words(&example(name), steps, form));
            assert!(output.status.success() && output.stderr.is_empty(), "{output:?}");
            assert!(String::from_utf8_lossy(&output.stdout).starts_with(beginning), "{output:?}");
        }
    }
}

#[test]
fn wrong_words() {
    let path = example("relay.txt");
    let right = words(&path, "5", "--svg");
    for count in 1..4 {
        expect(picture(&right[..count]), 2, "usage: ./run draw FILE STEPS --svg|--dot");
    }
    expect(picture(&[&right[..], &right[3..]].concat()), 2, "usage:");
    for steps in ["", "-1", "+1", " 1", "1.5", "65536", "99999999999999999999", "x", "１"] {
        expect(picture(&words(&path, steps, "--svg")), 2, "is no number from 0 to 65535");
    }
    expect(
        picture(&[right[0], right[1], OsStr::from_bytes(b"\xff"), right[3]]),
        2,
        "is no number from 0 to 65535",
    );
    for form in ["", "svg", "--SVG", "--png", "--svg "] {
        expect(picture(&words(&path, "5", form)), 2, "is neither --svg nor --dot");
    }
    expect(
        picture(&[right[0], right[1], right[2], OsStr::from_bytes(b"--\xff")]),
        2,
        "is neither --svg nor --dot",
    );
}

#[test]
fn what_cannot_be_read() {
    for path in ["", "no/such/file.txt", "two\nlines\u{1b}[2J", "/", "."] {
        expect(picture(&words(Path::new(path), "5", "--svg")), 2, "cannot be read");
    }
    let long = "x".repeat(5_000);
    expect(picture(&words(Path::new(&long), "5", "--svg")), 2, "cannot be read");
    expect(
        picture(&["draw".as_ref(), OsStr::from_bytes(b"\xff\xfe"), "5".as_ref(), "--dot".as_ref()]),
        2,
        "cannot be read",
    );
}

#[test]
fn refused_files() {
    let right = fs::read(example("relay.txt")).expect("an example");
    let mut range = right.clone();
    range[3 * 73 + 6 + 5] = b'9';
    let files: [(&str, &[u8], &str); 6] = [
        ("newline", b"\n", "is refused, ground 1: "),
        ("cut", &right[..right.len() - 1], "is refused, ground 1: "),
        ("bytes", &[0xff; 730], "is refused, ground 2, line 1: "),
        ("range", &range, "is refused, ground 4, line 4: "),
        ("whole lines, but too many", &right[..73].repeat(866), "is refused, ground 1: "),
        ("one byte too many", &vec![b' '; 63_146], "is refused, ground 1: "),
    ];
    let folder = folder("picture-refused");
    for (name, bytes, message) in files {
        let path = kept(&folder, OsStr::new(name), bytes);
        for form in ["--svg", "--dot"] {
            expect(picture(&words(&path, "5", form)), 1, message);
        }
    }
}

#[test]
fn a_name_that_is_no_text() {
    let right = fs::read(example("relay.txt")).expect("an example");
    let folder = folder("picture-names");
    let path = kept(&folder, OsStr::from_bytes(b"<\xff&\n>.txt"), &right);
    let output = picture(&words(&path, "5", "--svg"));
    let drawn = String::from_utf8(output.stdout).expect("a picture is text");
    assert!(output.status.success(), "{drawn}");
    assert!(drawn.contains(">&lt;\u{fffd}&amp;\u{fffd}&gt;.txt after 5 steps</text>"), "{drawn}");
}

#[test]
fn a_picture_that_cannot_be_written() {
    let mut command = WORKBENCH.with(&words(&example("relay.txt"), "5", "--svg"));
    let output = command.stdout(full_device()).output().expect("the program starts");
    expect(output, 2, "the picture cannot be written: ");
}
