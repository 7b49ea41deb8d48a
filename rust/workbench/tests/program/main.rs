//! The program as its users run it: procedures that are listed, loaded, edited, written, checked, drawn and told in words, its help, and
//! what can go wrong.

mod edits;
mod files;
mod helps;
mod hostile;
mod listings;
mod pictures;
mod profiles;
mod readings;
mod seeds;

use std::ffi::OsStr;
use std::path::{Path, PathBuf};
use std::process::Output;

use process::{empty_folder, Program};

const WORKBENCH: Program = Program::new("workbench", env!("CARGO_BIN_EXE_workbench"));

fn workbench(words: &[&str]) -> Output {
    WORKBENCH.run(&words.iter().map(OsStr::new).collect::<Vec<&OsStr>>())
}

/// An empty folder, for one test alone.
fn folder(name: &str) -> PathBuf {
    empty_folder(env!("CARGO_TARGET_TMPDIR"), &format!("workbench-{name}"))
}

fn text(path: &Path) -> &str {
    path.to_str().expect("the folders of the tests have names that are text")
}

/// What a command that is done prints to standard output and says on standard error.
fn done(words: &[&str]) -> (Vec<u8>, String) {
    let output = workbench(words);
    assert!(output.status.success(), "{output:?}");
    (output.stdout, String::from_utf8(output.stderr).expect("messages are text"))
}

fn load(file: &Path, table: &Path) {
    assert_eq!(done(&["load", text(file), text(table)]), (Vec::new(), String::new()));
}
