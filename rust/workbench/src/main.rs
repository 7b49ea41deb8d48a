//! The workbench: one program for people who write, mend and try procedure files. `./run` builds it and hands it
//! its words; the first of them names a subcommand, and `subcommands` has the table of these. The engine alone
//! decides; the program only shows.
//!
//! Status: 0 it is done, 1 the file or the table was refused, 2 the words on the command line are wrong, or
//! something cannot be read or written.

mod asked;
mod draft;
mod draw;
mod forbidden;
mod help;
mod kept;
mod list;
mod procedure;
mod profile;
mod reading;
mod subcommands;
mod table;

use std::ffi::OsString;
use std::process::ExitCode;

/// What messages on standard error begin with.
const PROGRAM: &str = "workbench";

fn main() -> ExitCode {
    let words: Vec<OsString> = std::env::args_os().skip(1).collect();
    command::end(PROGRAM, subcommands::work(&words))
}
