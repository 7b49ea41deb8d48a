//! What a program for people is made of: the words on a command line, reading and printing, and how it ends.

mod input;
mod output;

pub use input::{other_than_file, read};
pub use output::print;

use std::ffi::OsStr;
use std::fmt::Display;
use std::io::{self, Write};
use std::ops::RangeInclusive;
use std::process::ExitCode;
use std::str::FromStr;

/// Why a program did not do what it was asked for, in words for its user.
pub enum Failure {
    /// A file or a table was refused. Status 1.
    Refused(String),
    /// The words on the command line are wrong, or something cannot be read or written. Status 2.
    Failed(String),
}

/// Says on standard error why a program failed, if it did; the status to end with.
pub fn end(program: &str, done: Result<(), Failure>) -> ExitCode {
    let (message, status) = match done {
        Ok(()) => return ExitCode::SUCCESS,
        Err(Failure::Refused(message)) => (message, 1),
        Err(Failure::Failed(message)) => (message, 2),
    };
    say(program, &message);
    ExitCode::from(status)
}

/// Says something on standard error. Where that cannot be written to, the status has to do.
pub fn say(program: &str, message: &str) {
    _ = writeln!(io::stderr(), "{program}: {message}");
}

/// The number that a word stands for: digits, perhaps behind a minus, and in the range.
pub fn number_of<T>(word: &OsStr, range: RangeInclusive<T>, usage: &str) -> Result<T, Failure>
where
    T: FromStr + PartialOrd + Display,
{
    let plain = word.to_str().filter(|word| !word.starts_with('+'));
    let number = plain.and_then(|word| word.parse().ok()).filter(|number| range.contains(number));
    number.ok_or_else(|| {
        let (least, most) = range.into_inner();
        Failure::Failed(format!("{word:?} is no number from {least} to {most}; {usage}"))
    })
}
