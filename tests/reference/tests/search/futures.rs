//! All that can come after a state within some calls.

use std::collections::HashSet;

use generate::each_call;
use interface::{Call, FRONT_WORDS, NO_CHANNEL_ROW, NO_THREAD_ROW, THREAD_WORDS};
use reference::ENGINE;

/// What the bench gives.
const NUMBERS: [i32; 2] = [0, 1];

/// A state, and the calls that led to it.
struct Reached {
    state: Vec<u8>,
    calls: Vec<Call>,
}

/// What came out of a search.
pub enum Outcome {
    /// The rows stayed as they were in all of so many states.
    Still(usize),
    /// These calls change one of the rows.
    Moves(Vec<Call>),
}

/// Makes every list of at most so many calls on the state, and looks whether one of these threads' rows
/// changes. Two lists that lead to the same state go on in the same way, so that one of them, the
/// shorter, stands for both.
pub fn search(table: &[u8], ports: usize, state: &[u8], threads: &[usize], depth: usize) -> Outcome {
    let mut seen = HashSet::from([state.to_vec()]);
    let mut last = vec![Reached { state: state.to_vec(), calls: Vec::new() }];
    for _ in 0..depth {
        let mut next = Vec::new();
        for reached in &last {
            for call in calls_on(&reached.state, ports) {
                let calls = [&reached.calls[..], &[call]].concat();
                let after = after_call(table, &reached.state, call);
                if threads.iter().any(|thread| row(&after, *thread) != row(state, *thread)) {
                    return Outcome::Moves(calls);
                }
                if seen.insert(after.clone()) {
                    next.push(Reached { state: after, calls });
                }
            }
        }
        last = next;
    }
    Outcome::Still(seen.len())
}

/// A step of each ready thread, whatever the bench can do at each port, and a run of one step.
pub fn calls_on(state: &[u8], ports: usize) -> Vec<Call> {
    let mut calls = each_call(state, ports, &NUMBERS);
    calls.push(Call::Run { n: 1 });
    calls
}

/// The state after a call that is done, or lacks a row.
pub fn after_call(table: &[u8], state: &[u8], call: Call) -> Vec<u8> {
    let mut after = state.to_vec();
    let refusal = ENGINE.answer(call, table, &mut after).refusal();
    assert!([0, NO_THREAD_ROW, NO_CHANNEL_ROW].contains(&refusal), "{call:?} is refused with {refusal}");
    after
}

fn row(state: &[u8], thread: usize) -> &[u8] {
    let start = 4 * (FRONT_WORDS + thread * THREAD_WORDS);
    &state[start..start + 4 * THREAD_WORDS]
}
