//! A line of text with a part of it marked.

use std::fmt;
use std::ops::Range;

use pithread::Row;

use crate::text::{LINE_WIDTH, WIDTH};

/// The most characters of a line that are shown.
const MOST_SHOWN: usize = 100;
/// How many characters are shown in front of the mark if not all can be.
const SHOWN_BEFORE: usize = 40;

/// A line of text and a part of it. It is printed as two lines, the second with carets under the part.
#[derive(Clone, Debug, PartialEq, Eq)]
pub struct Marked {
    shown: String,
    place: Range<usize>,
}

impl Marked {
    /// Marks a part of a line, given in characters; one past the end may be marked too. Of a long line the
    /// piece around the part is shown.
    pub(crate) fn new(line: &str, part: Range<usize>) -> Marked {
        let count = line.chars().count();
        let first = if count <= MOST_SHOWN { 0 } else { part.start.saturating_sub(SHOWN_BEFORE) };
        let mut shown: String = line.chars().skip(first).take(MOST_SHOWN).map(visible).collect();
        let mut start = part.start - first;
        if first > 0 {
            shown.insert_str(0, "...");
            start += 3;
        }
        if count > first + MOST_SHOWN {
            shown.push_str("...");
        }
        let room = (shown.chars().count() + 1).saturating_sub(start).max(1);
        let width = part.len().clamp(1, room);
        Marked { shown, place: start..start + width }
    }

    /// The line as it is shown.
    pub fn line(&self) -> &str {
        &self.shown
    }

    /// The marked characters of the line as it is shown, counted from 0.
    pub fn place(&self) -> Range<usize> {
        self.place.clone()
    }
}

/// A row in the fixed columns with the number of a field marked, or all from the first number to the last.
pub(crate) fn mark_of(row: &Row, field: Option<usize>) -> Marked {
    let text: String = row.iter().map(|number| format!("{number:6}")).collect();
    let width = |place: usize| row[place].to_string().len();
    let part = match field {
        Some(field) => field * WIDTH - width(field - 1)..field * WIDTH,
        None => WIDTH - width(0)..LINE_WIDTH,
    };
    Marked::new(&text, part)
}

/// A character that takes one place on a screen, for any other.
fn visible(character: char) -> char {
    match character {
        '\t' => ' ',
        _ if character.is_control() => '?',
        _ => character,
    }
}

impl fmt::Display for Marked {
    fn fmt(&self, formatter: &mut fmt::Formatter) -> fmt::Result {
        let (blanks, carets) = (self.place.start, self.place.len());
        write!(formatter, "{}\n{:blanks$}{:^>carets$}", self.shown, "", "")
    }
}
