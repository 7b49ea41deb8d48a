//! States that calls lead to.

use generate::{any_call, changed_state, table_of, woken_state, File, Layout, Random};
use interface::{Call, STATE_BYTES};
use reference::ENGINE;

use crate::futures::{after_call, calls_on};

/// Calls in a walk.
const CALLS: usize = 60;

/// The states that a random list of calls leads to, the first of them a run, without those after which
/// nothing changed.
pub fn walk(random: &mut Random, file: &File) -> Vec<Vec<u8>> {
    let table = table_of(&file.rows);
    let run = Call::Run { n: random.below(40) as u16 };
    let mut states = vec![after_call(&table, &started(&table), run)];
    for _ in 0..CALLS {
        let last = &states[states.len() - 1];
        let call = random.pick(&calls_on(last, file.size.ports));
        let after = after_call(&table, last, call);
        if after != *last {
            states.push(after);
        }
    }
    states
}

/// The states that a few calls lead to, long runs and changes that leave the state sound among them.
pub fn long_walk(random: &mut Random, file: &File) -> Vec<Vec<u8>> {
    let (table, layout) = (table_of(&file.rows), Layout::new(file));
    let mut state = started(&table);
    let mut states = Vec::new();
    for _ in 0..CALLS / 3 {
        let call = match random.below(3) {
            0 => Call::Run { n: random.below(200) as u16 },
            _ => any_call(random, &state, file.size.ports),
        };
        if call != Call::Start {
            ENGINE.answer(call, &table, &mut state);
        }
        let changed = match random.below(4) {
            0 => woken_state(random, &layout, &state),
            1 => changed_state(random, &layout, &state),
            _ => state.clone(),
        };
        if reference::fault(&table, &changed).is_none() {
            state = changed;
        }
        states.push(state.clone());
    }
    states
}

fn started(table: &[u8]) -> Vec<u8> {
    let mut state = vec![0x5a; STATE_BYTES];
    assert_eq!(reference::start(table, &mut state).refusal, 0);
    state
}
