//! What the program says of itself.

use std::ffi::OsStr;
use std::fs;
use std::path::Path;

use process::full_device;

use crate::{done, workbench, WORKBENCH};

/// The names of all subcommands, as the overview shows them.
fn names(overview: &str) -> Vec<&str> {
    overview.lines().filter_map(|line| line.strip_prefix("./run ")?.split(' ').next()).collect()
}

fn help(words: &[&str]) -> String {
    let (printed, said) = done(words);
    assert_eq!(said, "", "{words:?}");
    String::from_utf8(printed).expect("help is text")
}

#[test]
fn the_overview_is_the_one_that_is_kept() {
    let path = Path::new(env!("CARGO_MANIFEST_DIR")).join("help.txt");
    let kept = fs::read_to_string(path).expect("the text that ./run shows");
    assert_eq!(help(&["help"]), kept, "'workbench help >rust/workbench/help.txt' makes the kept one anew");
    assert_eq!(help(&["--help"]), kept);
    assert_eq!(
        names(&kept),
        ["list", "why", "long", "short", "load", "set", "write", "profile", "draw", "help"]
    );
}

#[test]
fn each_subcommand_has_a_help_with_an_example() {
    let overview = help(&["help"]);
    for name in names(&overview) {
        let text = help(&["help", name]);
        let (call, rest) = text.split_once('\n').expect("the first line is the call");
        let about = rest.split('\n').next().expect("the second line says what it does");
        let line = overview.lines().find(|line| line.starts_with(&format!("./run {name} "))).expect(name);
        assert!(line.starts_with(call) && line.ends_with(about), "{line}: {text}");
        let example = text.lines().skip_while(|line| !line.starts_with("Example")).nth(2);
        assert!(example.is_some_and(|line| line.starts_with("    ./run ")), "{text}");
        assert!(text.contains(&format!("\n    ./run {name}")) || name == "list", "{text}");
        assert!(text.ends_with('\n') && text.lines().all(|line| line.len() <= 120), "{text}");
        for words in [&[name, "--help"][..], &[name, "a", "--help"], &["help", name]] {
            assert_eq!(help(words), text, "{words:?}");
        }
    }
}

/// The files of the folder `help` are those of the subcommands.
#[test]
fn no_help_is_left_over() {
    let folder = Path::new(env!("CARGO_MANIFEST_DIR")).join("help");
    let files = fs::read_dir(folder).expect("the folder").map(|file| file.expect("a file").file_name());
    let mut files: Vec<String> = files.map(|name| name.to_string_lossy().into_owned()).collect();
    files.sort();
    let overview = help(&["help"]);
    let mut known: Vec<String> = names(&overview).iter().map(|name| format!("{name}.txt")).collect();
    known.sort();
    assert_eq!(files, known);
}

#[test]
fn help_for_what_is_no_command() {
    for name in ["", "Load", "--load", "\u{1b}[2J"] {
        let message = "is no command; './run help' names all commands; usage: ./run help [NAME]";
        WORKBENCH.expect(&workbench(&["help", name]), 2, message);
    }
    WORKBENCH.expect(&workbench(&["help", "load", "set"]), 2, "usage: ./run help [NAME]");
}

#[test]
fn help_that_cannot_be_written() {
    for words in [&["help"][..], &["help", "set"], &["set", "--help"]] {
        let words: Vec<&OsStr> = words.iter().map(OsStr::new).collect();
        let output = WORKBENCH.with(&words).stdout(full_device()).output().expect("the program starts");
        WORKBENCH.expect(&output, 2, "the help cannot be written: ");
        WORKBENCH.expect_status_alone(&words);
    }
}
