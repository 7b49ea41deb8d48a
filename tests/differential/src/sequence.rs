//! Many calls on the state of one file, right and wrong ones.

use generate::{
    any_call, any_caller, changed_state, damaged_table, table_of, woken_state, Caller, File, Layout, Random,
    Words, READY, TABLE_BYTES,
};
use interface::{Answer, Call, Seated, BUFFER_LENGTH, RIGHTS, SEAT, STATE, STATE_BYTES};

use crate::collections::Freed;
use crate::{Calls, Traffic};

/// One file, and the state that the calls so far have led to.
pub struct Sequence<'a> {
    calls: &'a mut Calls,
    traffic: &'a mut Traffic,
    layout: Layout<'a>,
    file: &'a File,
    table: Vec<u8>,
    state: Vec<u8>,
    freed: Freed,
    about: &'a str,
}

impl<'a> Sequence<'a> {
    /// Starts the file's procedures.
    pub fn new(
        calls: &'a mut Calls,
        traffic: &'a mut Traffic,
        file: &'a File,
        about: &'a str,
    ) -> Sequence<'a> {
        let table = table_of(&file.rows);
        let layout = Layout::new(file);
        let state = vec![0x5a; STATE_BYTES];
        let freed = Freed::default();
        let mut sequence = Sequence { calls, traffic, layout, file, table, state, freed, about };
        sequence.call(Call::Start);
        sequence
    }

    /// Makes so many calls, each on what the ones before have led to.
    pub fn play(&mut self, random: &mut Random, calls: usize) {
        for _ in 0..calls {
            self.wake(random);
            match random.below(100) {
                0..76 => {
                    let (call, caller) = self.any_call(random);
                    self.call(caller.makes(call));
                }
                76..93 => self.changed_state(random),
                93..96 => self.changed_table(random),
                96..98 => self.wrong_lengths(random),
                _ => self.changed_both(random),
            }
        }
    }

    /// Where no thread is ready, mostly makes some ready again.
    fn wake(&mut self, random: &mut Random) {
        if Words::new(&self.state).threads(READY).is_empty() && random.chance(70) {
            self.state = woken_state(random, &self.layout, &self.state);
        }
    }

    fn any_call(&self, random: &mut Random) -> (Call, Caller) {
        let call = any_call(random, &self.state, self.layout.ports());
        (call, any_caller(random, call))
    }

    /// A call that counts: the state goes on from it.
    pub fn call<'b>(&mut self, call: impl Into<Seated<'b>>) -> Answer {
        let seated = call.into();
        let call = seated.call;
        let before = self.state.clone();
        let answer = self.calls.count(self.traffic, seated, &self.table, &before, self.about);
        if let (Call::Step { thread }, Answer::Stepped(stepped)) = (call, &answer) {
            if stepped.refusal == 0 {
                self.traffic.add_step(&self.layout, &Words::new(&before), thread as usize, stepped);
            }
        }
        self.go_on(call, &answer, &before);
        answer
    }

    /// Takes the state after the last call, which was made on this one.
    fn go_on(&mut self, call: Call, answer: &Answer, before: &[u8]) {
        self.state.clone_from_slice(self.calls.state());
        if answer.refusal() == 0 {
            self.freed.follow(call, &Words::new(before), &Words::new(&self.state), self.traffic);
        }
    }

    /// A call on a state that was changed. If it is still sound, the calls may go on from there.
    fn changed_state(&mut self, random: &mut Random) {
        let (call, caller) = self.any_call(random);
        let state = changed_state(random, &self.layout, &self.state);
        let answer = self.aside(caller.makes(call), &self.table.clone(), &state);
        if call == Call::Start || [BUFFER_LENGTH, RIGHTS, SEAT].contains(&answer.refusal()) {
            return; // the state was not looked at
        }
        let sound = answer.refusal() != STATE;
        self.traffic.note("changed state is sound", i32::from(sound));
        if sound && random.chance(40) {
            self.go_on(call, &answer, &state);
        }
    }

    fn changed_table(&mut self, random: &mut Random) {
        let (call, caller) = self.any_call(random);
        let table = damaged_table(random, self.file);
        self.aside(caller.makes(call), &table, &self.state.clone());
    }

    fn changed_both(&mut self, random: &mut Random) {
        let (call, caller) = self.any_call(random);
        let table = damaged_table(random, self.file);
        let state = changed_state(random, &self.layout, &self.state);
        self.aside(caller.makes(call), &table, &state);
    }

    fn wrong_lengths(&mut self, random: &mut Random) {
        let (call, caller) = self.any_call(random);
        let (mut table, mut state) = (self.table.clone(), self.state.clone());
        if random.chance(60) {
            table.resize(wrong_length(random, TABLE_BYTES), 0);
        }
        if random.chance(60) {
            state.resize(wrong_length(random, STATE_BYTES), 0);
        }
        self.aside(caller.makes(call), &table, &state);
    }

    /// A call that the state does not go on from.
    fn aside(&mut self, call: Seated, table: &[u8], state: &[u8]) -> Answer {
        let answer = self.calls.count(self.traffic, call, table, state, self.about);
        if answer.refusal() == STATE {
            let fault = reference::fault(table, state).expect("refused for a fault of the state");
            self.traffic.add_fault(fault);
        }
        answer
    }
}

fn wrong_length(random: &mut Random, right: usize) -> usize {
    random.pick(&[0, 1, 24, right - 4, right - 1, right + 1, right + 4, 2 * right, STATE_BYTES, TABLE_BYTES])
}
