//! What a subcommand is asked for: the words behind its name.

use std::ffi::{OsStr, OsString};
use std::fmt::Display;
use std::ops::RangeInclusive;
use std::path::Path;
use std::str::FromStr;

use command::{number_of, Failure};

/// The words for a subcommand, as many as it takes. Places are counted from 0.
pub struct Asked<'a> {
    words: &'a [OsString],
    usage: &'a str,
}

impl<'a> Asked<'a> {
    /// These words, and the line that says how they should be.
    pub fn new(words: &'a [OsString], usage: &'a str) -> Asked<'a> {
        Asked { words, usage }
    }

    /// The word at a place, if there is one.
    pub fn word(&self, place: usize) -> Option<&'a OsStr> {
        self.words.get(place).map(OsString::as_os_str)
    }

    /// The word at a place as the name of a file.
    pub fn path(&self, place: usize) -> Result<&'a Path, Failure> {
        self.word(place).map(Path::new).ok_or_else(|| self.wrong("a name is missing"))
    }

    /// The word at a place as a number in this range.
    pub fn number<T>(&self, place: usize, range: RangeInclusive<T>) -> Result<T, Failure>
    where
        T: FromStr + PartialOrd + Display,
    {
        let word = self.word(place).ok_or_else(|| self.wrong("a number is missing"))?;
        number_of(word, range, self.usage)
    }

    /// What is wrong with the words, and how they should be.
    pub fn wrong(&self, why: &str) -> Failure {
        Failure::Failed(format!("{why}; {}", self.usage))
    }
}
