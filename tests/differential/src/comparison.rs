//! One file loaded by the archive and by the reference.

use reference::TABLE_BYTES;

use crate::kept::keep;
use crate::padded::{pattern, Padded};

/// Ground and line; 0 and 0 if the file was loaded.
pub type Answer = (i32, i32);

/// A loader to be held against the reference, with room for what both write.
pub struct Comparison {
    load: fn(&[u8], &mut [u8]) -> Answer,
    before: Vec<u8>,
    expected: Vec<u8>,
    given: Padded,
}

impl Comparison {
    pub fn new(load: fn(&[u8], &mut [u8]) -> Answer) -> Comparison {
        Comparison { load, before: Vec::new(), expected: Vec::new(), given: Padded::default() }
    }

    /// Loads into a buffer of the right length; answers what both sides answered.
    pub fn compare(&mut self, file: &[u8], about: &str) -> Answer {
        self.compare_length(file, TABLE_BYTES, about)
    }

    /// Loads into a buffer of this length. Both buffers begin with the same pattern, so that a
    /// refused load that touches its buffer is found.
    pub fn compare_length(&mut self, file: &[u8], length: usize, about: &str) -> Answer {
        self.prepare(length);
        let expected = reference::answer(file, &mut self.expected);
        let given = (self.load)(file, self.given.content());
        let differs = if given != expected {
            format!("the reference {expected:?}")
        } else if !self.given.is(&self.expected) {
            String::from("as the reference does, with other bytes in the table or around it")
        } else if given.0 != 0 && self.expected != self.before {
            String::from("and the table has changed")
        } else {
            return given;
        };
        keep(&[file], &format!("{about}: answered {given:?}, {differs}"));
    }

    /// The table after the last load.
    pub fn table(&self) -> &[u8] {
        &self.expected
    }

    fn prepare(&mut self, length: usize) {
        if self.before.len() != length {
            self.before = pattern(length).collect();
        }
        self.given.fill(&self.before);
        self.expected.clone_from(&self.before);
    }
}
