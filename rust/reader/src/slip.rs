//! What is wrong with a short form, and where.

use std::error::Error;
use std::fmt;
use std::ops::Range;

use pithread::Table;

use crate::mark::Marked;
use crate::text::NUMBER;

/// What a slip is.
#[derive(Clone, Debug, PartialEq, Eq)]
pub enum SlipKind {
    /// A word is no number.
    NoNumber(String),
    /// A number is written in another form than its own.
    Form(String, i16),
    /// There is a comma.
    Comma,
    /// A number does not fit a field.
    Outside(String),
    /// A line has more than twelve fields.
    Thirteenth,
    /// A text has no `#` in front of it.
    Text,
    /// There are more lines than a procedure file may have.
    ManyLines,
    /// No line has a number.
    NoLine,
}

impl fmt::Display for SlipKind {
    fn fmt(&self, formatter: &mut fmt::Formatter) -> fmt::Result {
        match self {
            SlipKind::NoNumber(word) => write!(formatter, "{word} is no number; expected: {NUMBER}"),
            SlipKind::Form(word, number) => write!(formatter, "{word} is written as {number}"),
            SlipKind::Comma => formatter.write_str("a comma; numbers have blanks between them"),
            SlipKind::Outside(word) => write!(formatter, "{word} does not fit a field; expected: {NUMBER}"),
            SlipKind::Thirteenth => formatter.write_str("a line has twelve fields, and this is the 13th"),
            SlipKind::Text => formatter.write_str("a text without # in front of it"),
            SlipKind::ManyLines => {
                write!(formatter, "a procedure file has at most {} lines, and here is one more", Table::ROWS)
            }
            SlipKind::NoLine => {
                formatter.write_str("no line has a number; a file that is meant to be empty has no bytes")
            }
        }
    }
}

/// Where a short form cannot be taken, and why.
#[derive(Clone, Debug, PartialEq, Eq)]
pub struct Slip {
    /// What it is.
    pub kind: SlipKind,
    /// The line of the short form, counted from 1.
    pub line: usize,
    /// The column of the short form, counted from 1 in characters.
    pub column: usize,
    /// The line with the part that is wrong.
    pub marked: Marked,
}

impl Slip {
    /// A slip in a line, counted from 1, at some of its characters.
    pub(crate) fn new(kind: SlipKind, line: usize, text: &str, part: Range<usize>) -> Slip {
        Slip { kind, line, column: part.start + 1, marked: Marked::new(text, part) }
    }
}

impl fmt::Display for Slip {
    fn fmt(&self, formatter: &mut fmt::Formatter) -> fmt::Result {
        write!(formatter, "line {}, column {}: {}\n{}", self.line, self.column, self.kind, self.marked)
    }
}

impl Error for Slip {}
