//! One table written by an engine and by the reference.

use interface::{Write, Written};

use crate::kept::keep;
use crate::padded::Padded;

/// A writer to be held against the reference, with the buffers that it gets.
pub struct Writes {
    write: Write,
    table: Padded,
    file: Padded,
    expected: Vec<u8>,
}

impl Writes {
    pub fn new(write: Write) -> Writes {
        Writes { write, table: Padded::default(), file: Padded::default(), expected: Vec::new() }
    }

    /// Writes into a copy of the buffer, whose content may be anything; table and buffer may have any
    /// length. Answers what both sides answered.
    pub fn compare(&mut self, table: &[u8], buffer: &[u8], about: &str) -> Written {
        self.table.fill(table);
        self.file.fill(buffer);
        self.expected.clear();
        self.expected.extend_from_slice(buffer);
        let expected = reference::write(table, &mut self.expected);
        let given = (self.write)(self.table.content(), self.file.content());
        let used = usize::try_from(expected.bytes).expect("a count of bytes");
        let differs = if given != expected {
            format!("the reference {expected:?}")
        } else if !self.file.is(&self.expected) {
            String::from("as the reference does, with other bytes in the buffer or around it")
        } else if !self.table.is(table) {
            String::from("and the table or what is around it has changed")
        } else if self.expected[used..] != buffer[used..] {
            String::from("and the buffer behind the file has changed")
        } else {
            return given;
        };
        let length = buffer.len();
        let message = format!("{about}: a write into {length} bytes answered {given:?}, {differs}");
        keep(&[table, buffer], &message);
    }

    /// The buffer after the last write.
    pub fn buffer(&self) -> &[u8] {
        &self.expected
    }
}
