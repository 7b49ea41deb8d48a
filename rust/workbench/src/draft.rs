//! A table under edit. Between two edits it need not be the table of any file.

use std::ops::RangeInclusive;

use pithread::header::TABLE_BYTES;
use pithread::{Refusal, Table, FIELDS};

/// The lines of a table, counted from 1.
pub const LINES: RangeInclusive<usize> = 1..=Table::ROWS;
/// The fields of a line, counted from 1.
pub const ALL_FIELDS: RangeInclusive<usize> = 1..=FIELDS;

/// The bytes of a table, any numbers in them.
pub struct Draft {
    bytes: Box<[u8; TABLE_BYTES]>,
}

impl Draft {
    /// Refused with ground 8 for another length than a table has.
    pub fn new(bytes: &[u8]) -> Result<Draft, Refusal> {
        let bytes = Box::new(bytes.try_into().map_err(|_| Refusal::BufferLength)?);
        Ok(Draft { bytes })
    }

    /// The bytes, to be kept.
    pub fn as_bytes(&self) -> &[u8] {
        &self.bytes[..]
    }

    /// Puts a number into a field of a line, and answers which one stood there.
    pub fn set(&mut self, line: usize, field: usize, number: i16) -> i16 {
        let (numbers, _) = self.bytes.as_chunks_mut::<2>();
        let place = &mut numbers[(line - 1) * FIELDS + field - 1];
        i16::from_le_bytes(std::mem::replace(place, number.to_le_bytes()))
    }

    /// The table, or in words why no file has it: the ground of that, and of its lines the ground and the
    /// line that a load of them names.
    pub fn table(&self) -> Result<Table, String> {
        Table::from_bytes(self.as_bytes()).map_err(|refusal| match Table::load(&self.text()) {
            Err(of_lines) => format!("{refusal}; a load of its lines says {of_lines}"),
            Ok(_) => refusal.to_string(),
        })
    }

    /// The lines as text, up to the last one with a number other than 0: no line of a file has zeros alone.
    /// The first line is there in any case, since a text without lines loads to a table of three. A table
    /// whose text loads is the one that it loads to, so that the text of any other is refused.
    fn text(&self) -> Vec<u8> {
        let (numbers, _) = self.bytes.as_chunks::<2>();
        let last = numbers.iter().rposition(|number| *number != [0, 0]);
        let lines = last.map_or(1, |last| last / FIELDS + 1);
        let mut text = String::new();
        for line in numbers.chunks(FIELDS).take(lines) {
            text.extend(line.iter().map(|number| format!("{:6}", i16::from_le_bytes(*number))));
            text.push('\n');
        }
        text.into_bytes()
    }
}
