//! What many calls have met, so that a run cannot pass by missing its aim.

use std::collections::BTreeMap;

use generate::{guard_holds, right_to, Layout, Words, WAITING};
use interface::{
    Answer, Call, Profiled, Seated, Stepped, Written, BRANCH, CALLED, NOBODY, SEAT, SEATS, WAITS,
};
use reference::Fault;

/// Something that was met: what it was, and a number that says more.
type Event = (&'static str, i32);

/// The actions that have a partner.
const SEND_AND_RECEIVE: [i16; 2] = [1, 2];

#[derive(Default)]
pub struct Traffic {
    calls: usize,
    met: BTreeMap<Event, usize>,
}

impl Traffic {
    /// Counts a call with its answer.
    pub fn add<'a>(&mut self, call: impl Into<Seated<'a>>, answer: &Answer) {
        self.calls += 1;
        let Seated { call, seat, .. } = call.into();
        let name = match call {
            Call::Start => "start",
            Call::Step { .. } => "step",
            Call::Give { .. } => "give",
            Call::Take { .. } => "take",
            Call::Run { .. } => "run",
            Call::Collect => "collect",
        };
        self.note(name, answer.refusal());
        match answer.refusal() {
            0 => {
                self.add_done(call, answer);
                if call != Call::Start {
                    self.note("done by seat", seat as i32);
                }
            }
            SEAT => {
                self.note("19 for a port above 7", i32::from(right_to(call).is_none()));
                self.note("19 for a seat above 7", i32::from(seat as usize >= SEATS));
            }
            _ => {}
        }
    }

    fn add_done(&mut self, call: Call, answer: &Answer) {
        let somebody = |thread: i32| i32::from(thread != NOBODY);
        match answer {
            Answer::Started(_) | Answer::Collected(_) => {}
            Answer::Stepped(stepped) => self.note("act", stepped.act),
            Answer::Given(given) => self.note("given to somebody", somebody(given.thread)),
            Answer::Taken(taken) => self.note("taken from somebody", somebody(taken.thread)),
            Answer::Ran(ran) => {
                self.note("reason", ran.reason);
                self.note("run of hundreds of steps", i32::from(ran.steps >= 200));
                if call == (Call::Run { n: 0 }) {
                    self.note("run of 0 steps, reason", ran.reason);
                }
            }
        }
    }

    /// Counts a write with its answer.
    pub fn add_write(&mut self, written: &Written) {
        self.calls += 1;
        self.note("write", written.refusal);
    }

    /// Counts a check for the profile with its answer.
    pub fn add_profile(&mut self, profiled: &Profiled) {
        self.calls += 1;
        self.note("profile", profiled.refusal);
        if profiled.refusal == 0 {
            self.note("bound", profiled.threads);
        }
    }

    /// Counts what a step that was done did, by the file and by the state before it.
    pub fn add_step(&mut self, layout: &Layout, before: &Words, thread: usize, stepped: &Stepped) {
        match stepped.act {
            BRANCH => {
                self.add_branch(layout, before, thread, stepped);
                let passed = passes_sum(layout, before.thread(thread), stepped.branch);
                self.note("sum passed over for a branch", i32::from(passed));
            }
            WAITS => {
                let branches = layout.node(stepped.node)[2];
                let passed = passes_sum(layout, before.thread(thread), i32::from(branches));
                self.note("sum passed over for a wait", i32::from(passed));
            }
            CALLED => {
                let row = layout.node(stepped.node);
                let own = layout.definition_of(stepped.node) == Some(row[2] as usize);
                self.note("call of itself", i32::from(own));
                let falls = row[3..].windows(2).any(|pair| pair[0] > pair[1] && pair[1] > 0);
                self.note("call that swaps", i32::from(falls));
            }
            _ => {}
        }
    }

    fn add_branch(&mut self, layout: &Layout, before: &Words, thread: usize, stepped: &Stepped) {
        let row = layout.branch(stepped.node, stepped.branch);
        self.note("action", i32::from(row[4]));
        self.note("guard", i32::from(row[1]));
        self.note("branch", stepped.branch);
        if SEND_AND_RECEIVE.contains(&row[4]) {
            let types = layout.definition_of(stepped.node).map(|definition| layout.slot_types(definition));
            let channel = types.is_some_and(|types| types[row[6] as usize] != 0);
            self.note("exchange of a channel", i32::from(channel));
            self.note("exchange with a thread above", i32::from(stepped.partner > thread as i32));
            self.note("another like the partner", i32::from(has_double(before, stepped.partner)));
        }
    }

    /// Counts what is wrong with a state that was refused.
    pub fn add_fault(&mut self, fault: Fault) {
        self.note("fault", fault as i32);
    }

    pub fn note(&mut self, what: &'static str, number: i32) {
        *self.met.entry((what, number)).or_default() += 1;
    }

    pub fn calls(&self) -> usize {
        self.calls
    }

    pub fn print(&self) {
        println!("{} calls", self.calls);
        for ((what, number), times) in &self.met {
            println!("{what} {number}: {times} times");
        }
    }

    /// Each of these numbers came at least so often.
    pub fn expect(&self, what: &'static str, numbers: impl IntoIterator<Item = i32>, times: usize) {
        for number in numbers {
            let met = self.met.get(&(what, number)).copied().unwrap_or(0);
            assert!(met >= times, "{what} {number}: {met} times, wanted {times}");
        }
    }
}

/// Whether among so many branches of a thread's node one has a true guard and a sum that does not fit.
fn passes_sum(layout: &Layout, thread: &[i32], branches: i32) -> bool {
    let mut rows = (0..branches).map(|branch| layout.branch(thread[1], branch));
    rows.any(|row| guard_holds(row, &thread[2..]) && overflows(row, thread))
}

/// Whether the sum or difference of a branch leaves the range of a word.
fn overflows(row: &[i16], thread: &[i32]) -> bool {
    let slot = |field: usize| thread[2 + row[field] as usize];
    match row[4] {
        6 => slot(6).checked_add(slot(7)).is_none(),
        7 => slot(6).checked_sub(slot(7)).is_none(),
        _ => false,
    }
}

/// Whether a thread was waiting and another waited at the same node with the same slots.
fn has_double(before: &Words, thread: i32) -> bool {
    let Ok(thread) = usize::try_from(thread) else { return false };
    let row = before.thread(thread);
    let like = |other: &usize| *other != thread && before.thread(*other) == row;
    row[0] == WAITING && before.threads(WAITING).iter().any(like)
}
