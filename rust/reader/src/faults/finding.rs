//! One fault of a file, in words.

use std::fmt;

use pithread::Refusal;

use crate::layout::Layout;
use crate::mark::{mark_of, Marked};

/// One fault of a file. It is printed as several lines: the ground, the line with the field marked, what is wrong
/// and what was expected, the line in words, and what leads to it.
#[derive(Clone, Debug, PartialEq, Eq)]
pub struct Finding {
    /// The ground, with the line as the loader counts it.
    pub refusal: Refusal,
    /// Whether another fault comes before this one, so that the loader does not name it.
    pub later: bool,
    /// The field at fault, from 1 to 12, if it is one.
    pub field: Option<usize>,
    /// The line in the fixed columns, with what is at fault marked.
    pub marked: Option<Marked>,
    /// What is wrong.
    pub wrong: String,
    /// What was expected there.
    pub expected: String,
    /// The line in words.
    pub words: Option<String>,
    /// What the fault follows from: a sum, a path, who leads where.
    pub notes: Vec<String>,
}

impl Finding {
    pub(super) fn new(
        refusal: Refusal,
        field: Option<usize>,
        wrong: String,
        expected: impl Into<String>,
    ) -> Finding {
        Finding {
            refusal,
            later: false,
            field,
            marked: None,
            wrong,
            expected: expected.into(),
            words: None,
            notes: Vec::new(),
        }
    }

    pub(super) fn with_notes(self, notes: Vec<String>) -> Finding {
        Finding { notes, ..self }
    }

    pub(super) fn with_marked(self, marked: Marked) -> Finding {
        Finding { marked: Some(marked), ..self }
    }

    /// Marks the place of the fault in its line, and says the line in words.
    pub(super) fn show(&mut self, layout: &Layout) {
        let Some(line) = self.line() else { return };
        let Some(row) = layout.row(line) else { return };
        self.marked = Some(mark_of(row, self.field));
        self.words = Some(layout.words(line));
    }

    /// The number of the ground.
    pub fn ground(&self) -> i32 {
        self.refusal.number()
    }

    /// The line at fault, counted from 1, if the ground names one.
    pub fn line(&self) -> Option<usize> {
        self.refusal.line().map(|line| line as usize)
    }
}

impl fmt::Display for Finding {
    fn fmt(&self, formatter: &mut fmt::Formatter) -> fmt::Result {
        let later = if self.later { "a later fault, " } else { "" };
        write!(formatter, "{later}{}", self.refusal)?;
        if let Some(marked) = &self.marked {
            write!(formatter, "\n{marked}")?;
        }
        write!(formatter, "\n{}; expected: {}", self.wrong, self.expected)?;
        if let Some(words) = &self.words {
            write!(formatter, "\nthe line says: {words}")?;
        }
        self.notes.iter().try_for_each(|note| write!(formatter, "\n{note}"))
    }
}
