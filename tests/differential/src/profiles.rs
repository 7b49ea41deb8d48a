//! One table checked for the rental-shop profile by an engine and by the reference.

use interface::Profiled;

use crate::kept::keep;
use crate::padded::Padded;

/// A check to be held against the reference, with the buffer that it gets.
pub struct Profiles {
    profile: fn(&[u8]) -> Profiled,
    table: Padded,
}

impl Profiles {
    pub fn new(profile: fn(&[u8]) -> Profiled) -> Profiles {
        Profiles { profile, table: Padded::default() }
    }

    /// Checks a copy of the table, which may have any length; answers what both sides answered.
    pub fn compare(&mut self, table: &[u8], about: &str) -> Profiled {
        self.table.fill(table);
        let expected = reference::profile(table);
        let given = (self.profile)(self.table.content());
        let differs = if given != expected {
            format!("the reference {expected:?}")
        } else if !self.table.is(table) {
            String::from("and the table or what is around it has changed")
        } else {
            return given;
        };
        keep(&[table], &format!("{about}: the check answered {given:?}, {differs}"));
    }
}
