//! One call on a table and a state by an engine and by the reference.

use generate::Words;
use interface::{Answer, Call, Engine, Seated};

use crate::kept::keep;
use crate::padded::Padded;
use crate::Traffic;

/// An engine to be held against the reference, with the buffers that it gets.
pub struct Calls {
    engine: Engine,
    table: Padded,
    state: Padded,
    rights: Padded,
    expected: Vec<u8>,
}

impl Calls {
    pub fn new(engine: Engine) -> Calls {
        let [table, state, rights] = [(); 3].map(|()| Padded::default());
        Calls { engine, table, state, rights, expected: Vec::new() }
    }

    /// Makes the call on copies of its buffers, of any length; answers what both sides answered.
    pub fn compare<'a>(
        &mut self,
        call: impl Into<Seated<'a>>,
        table: &[u8],
        state: &[u8],
        about: &str,
    ) -> Answer {
        let Seated { call, rights, seat } = call.into();
        self.table.fill(table);
        self.state.fill(state);
        self.rights.fill(rights);
        self.expected.clear();
        self.expected.extend_from_slice(state);
        let expected = reference::ENGINE.answer(call.by(rights, seat), table, &mut self.expected);
        let own = call.by(self.rights.content(), seat);
        let given = self.engine.answer(own, self.table.content(), self.state.content());
        let differs = if given != expected {
            format!("the reference {expected:?}")
        } else if !self.state.is(&self.expected) {
            String::from("as the reference does, with other bytes in the state or around it")
        } else if !self.table.is(table) || !self.rights.is(rights) {
            String::from("and the table, the list of rights or what is around them has changed")
        } else if given.refusal() != 0 && self.expected != state {
            String::from("and the state has changed")
        } else {
            return given;
        };
        let message = format!("{about}: {call:?} by seat {seat} answered {given:?}, {differs}");
        keep(&[table, state, rights], &message);
    }

    /// The same, and counts what the call met.
    pub fn count<'a>(
        &mut self,
        traffic: &mut Traffic,
        call: impl Into<Seated<'a>>,
        table: &[u8],
        state: &[u8],
        about: &str,
    ) -> Answer {
        let seated = call.into();
        let answer = self.compare(seated, table, state, about);
        traffic.add(seated, &answer);
        if seated.call == Call::Collect && answer.refusal() == 0 {
            traffic.add_collection(&Words::new(state), &Words::new(self.state()));
        }
        answer
    }

    /// The state after the last call.
    pub fn state(&self) -> &[u8] {
        &self.expected
    }
}
