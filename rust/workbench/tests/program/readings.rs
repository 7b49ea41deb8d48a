//! Why files are refused, and the short form there and back.

use std::ffi::OsStr;
use std::fs;
use std::path::{Path, PathBuf};
use std::process::Output;

use pithread::Table;

use crate::{done, folder, text, workbench};

/// The procedure files of a folder of the examples, without the one that has no bytes.
fn examples(name: &str) -> Vec<PathBuf> {
    let folder = Path::new(env!("CARGO_MANIFEST_DIR")).join("../../examples").join(name);
    let files = fs::read_dir(folder).expect("the folder").map(|file| file.expect("a file").path());
    let is_procedure = |path: &PathBuf| path.extension() == Some(OsStr::new("txt")) && has_bytes(path);
    let mut files: Vec<PathBuf> = files.filter(is_procedure).collect();
    files.sort();
    files
}

fn has_bytes(path: &PathBuf) -> bool {
    fs::metadata(path).is_ok_and(|about| about.len() > 0)
}

/// The program ended with a status and said this; the words may go over several lines.
fn expect(output: &Output, status: i32, message: &str) {
    let said = String::from_utf8_lossy(&output.stderr);
    assert_eq!(output.status.code(), Some(status), "{said}");
    assert!(said.starts_with("workbench: ") && said.contains(message), "{message}: {said}");
}

fn kept(folder: &Path, name: &str, bytes: &[u8]) -> PathBuf {
    let path = folder.join(name);
    fs::write(&path, bytes).expect("the file can be written");
    path
}

/// The first fault is the one that the loader names, for each of them, and of a file that loads there is none.
#[test]
fn why_goes_by_the_loader() {
    let (mut refused, mut loaded) = (0, 0);
    for path in [examples("."), examples("refused")].concat() {
        let file = fs::read(&path).expect("an example");
        let output = workbench(&["why", text(&path)]);
        let printed = String::from_utf8(output.stdout.clone()).expect("words");
        match Table::load(&file) {
            Ok(_) => {
                loaded += 1;
                assert!(
                    output.status.success() && printed.starts_with("The file loads; "),
                    "{path:?}: {output:?}"
                );
            }
            Err(refusal) => {
                refused += 1;
                assert_eq!(printed.lines().next(), Some(refusal.to_string().as_str()), "{path:?}");
                expect(&output, 1, &format!("is refused, {refusal}"));
            }
        }
    }
    assert!(refused >= 15 && loaded >= 15, "{refused} refused, {loaded} loaded");
}

#[test]
fn the_sums_stand_side_by_side() {
    let path = Path::new(env!("CARGO_MANIFEST_DIR")).join("../../examples/refused/node-counts-disagree.txt");
    let output = workbench(&["why", text(&path)]);
    let printed = String::from_utf8(output.stdout).expect("words");
    assert!(printed.contains("nodes") && printed.contains("header"), "{printed}");
}

#[test]
fn short_and_long_again() {
    let folder = folder("short");
    for path in examples(".") {
        let (short, said) = done(&["short", text(&path)]);
        assert_eq!(said, "");
        assert!(short.contains(&b'#'), "{path:?} has comments");
        let short = kept(&folder, "mine.short", &short);
        let (long, _) = done(&["long", text(&short)]);
        assert_eq!(long, fs::read(&path).expect("an example"), "{path:?}");
        let (again, _) = done(&["long", text(&path)]);
        assert_eq!(again, long, "{path:?}");
    }
}

#[test]
fn slips_are_marked_in_the_short_form() {
    let folder = folder("slips");
    for (name, bytes, message) in [
        ("number", &b"3 0 0 1\n5 2-50\n"[..], "line 2, column 3: "),
        ("comma", b"3 0 0 1\n5, 0\n", "line 2, column 2: "),
        ("range", b"3 0 0 1\n5 40000\n", "line 2, column 3: "),
        ("thirteen", b"3 0 0 1\n5 0 0 0 0 0 0 0 0 0 0 0 0\n", "line 2, column 25: "),
        ("text", b"3 0 0 1\n5 0 an end\n", "line 2, column 5: "),
    ] {
        let path = kept(&folder, name, bytes);
        for command in ["why", "long", "short"] {
            let output = workbench(&[command, text(&path)]);
            expect(&output, 1, message);
            let said = String::from_utf8_lossy(&output.stderr);
            assert!(said.trim_end().ends_with('^'), "{said}");
        }
    }
}

/// A fault is told with its line in the short form too.
#[test]
fn a_short_form_that_is_refused() {
    let folder = folder("refused");
    let path = kept(&folder, "mine.short", b"# a node of no kind\n3 0 0 1\n\n5 7\n");
    let output = workbench(&["why", text(&path)]);
    expect(&output, 1, "ground 4, line 3");
    let printed = String::from_utf8(output.stdout).expect("words");
    assert!(printed.contains("in line 4 of the short form:\n5 7\n  ^\n"), "{printed}");
    expect(&workbench(&["short", text(&path)]), 1, "'./run why' says more");
}

#[test]
fn a_file_without_bytes() {
    let path = kept(&folder("empty"), "empty", b"");
    let (printed, said) = done(&["why", text(&path)]);
    assert!(printed.ends_with(b"Was that meant?\n") && said.is_empty());
    assert_eq!(done(&["long", text(&path)]).0, b"");
}

#[test]
fn a_file_that_is_too_long_to_read() {
    let path = kept(&folder("endless"), "endless", &b"# \n".repeat(400_000));
    for command in ["why", "long", "short"] {
        expect(&workbench(&[command, text(&path)]), 2, "has more than 1000000 bytes");
    }
}
