//! How many threads there are at most, found by going through states.

use std::collections::HashSet;
use std::hash::Hash;

use generate::rental::LED_BRANCHES;
use generate::{each_call, table_of, File, Layout, Words, FREE};
use interface::{Call, FRONT_WORDS, STATE_BYTES, THREADS};
use reference::ENGINE;

/// The most threads that were seen, and whether every state was.
#[derive(Clone, Copy, Debug, PartialEq, Eq)]
pub struct Most {
    pub threads: usize,
    pub everywhere: bool,
}

/// Goes through the states that follow from a first one, until there are so many. States with the same key
/// go on in the same way.
fn search<S, K: Hash + Eq>(
    first: S,
    states: usize,
    key: impl Fn(&S) -> K,
    threads: impl Fn(&S) -> usize,
    after: impl Fn(&S) -> Vec<S>,
) -> Most {
    let mut seen = HashSet::from([key(&first)]);
    let mut most = threads(&first);
    let mut open = vec![first];
    while let Some(state) = open.pop() {
        for next in after(&state) {
            if seen.insert(key(&next)) {
                most = most.max(threads(&next));
                open.push(next);
            }
        }
        if seen.len() > states {
            return Most { threads: most, everywhere: false };
        }
    }
    Most { threads: most, everywhere: true }
}

/// If a thread at a choice may take any branch at any time, whatever its guard and its action ask for. A
/// state is the nodes of all threads, counted over the whole file.
pub fn where_all_goes_ahead(file: &File, states: usize) -> Most {
    let layout = Layout::new(file);
    search(vec![0], states, Vec::clone, Vec::len, |nodes| {
        let mut after = Vec::new();
        for (thread, node) in nodes.iter().enumerate().rev() {
            // Of threads at one node the last stands for all.
            if nodes.get(thread + 1) == Some(node) {
                continue;
            }
            for instead in steps_from(&layout, *node) {
                let mut next = nodes.clone();
                next.swap_remove(thread);
                next.extend(instead);
                next.sort_unstable();
                after.push(next);
            }
        }
        after
    })
}

/// For each step that a thread at this node may make, the nodes of the threads that there are instead of it.
fn steps_from(layout: &Layout, node: usize) -> Vec<Vec<usize>> {
    let row = layout.node(node as i32);
    match row[1] {
        0 => vec![vec![]],
        1 => (0..i32::from(row[2])).map(|branch| targets(layout, node, branch)).collect(),
        _ => vec![vec![layout.nodes_of(row[2] as usize).start]],
    }
}

/// The nodes to which a branch leads.
fn targets(layout: &Layout, node: usize, branch: i32) -> Vec<usize> {
    let row = layout.branch(node as i32, branch);
    let definition = layout.definition_of(node as i32).expect("the node is there");
    let first = layout.nodes_of(definition).start;
    let numbers = if row[4] == 4 { &row[8..10] } else { &row[8..9] };
    numbers.iter().map(|number| first + *number as usize).collect()
}

/// By calls on the reference: each ready thread stepped, numbers given and taken at each port, collections.
pub fn by_calls(file: &File, states: usize) -> Most {
    let table = table_of(&file.rows);
    let mut first = vec![0x5a; STATE_BYTES];
    assert_eq!(reference::start(&table, &mut first).refusal, 0);
    let numbers: Vec<i32> = (0..LED_BRANCHES as i32).collect();
    search(
        first,
        states,
        |state| rows_in_use(state),
        |state| in_use(state),
        |state| {
            let mut calls = each_call(state, file.size.ports, &numbers);
            calls.push(Call::Collect);
            let mut after = vec![state.clone(); calls.len()];
            for (call, next) in calls.into_iter().zip(&mut after) {
                ENGINE.answer(call, &table, next);
            }
            after
        },
    )
}

/// How many threads there are in a state.
fn in_use(state: &[u8]) -> usize {
    THREADS - Words::new(state).threads(FREE).len()
}

/// The rows of the threads that there are, with their numbers, behind the marks.
fn rows_in_use(state: &[u8]) -> Vec<i32> {
    let mut words = Words::new(state);
    let mut rows = words.front()[..FRONT_WORDS - 1].to_vec();
    for thread in (0..THREADS).filter(|thread| words.thread(*thread)[0] != FREE) {
        rows.push(thread as i32);
        rows.extend_from_slice(words.thread(thread));
    }
    rows
}
