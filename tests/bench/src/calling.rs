//! Calls without a clock: one and the same call, so many times, for a program that counts instructions.

use std::hint::black_box;

use generate::standstills::Foot;
use interface::{Engine, Write, FULL_RIGHTS, STATE_BYTES};

use crate::refusing::NO_RIGHTS;
use crate::standing::{alone, chained, largest, mutual, Standing};

/// The number past the last thread: its step is refused once table and state have been judged.
const NO_THREAD: u32 = 64;

/// The words: side, state, call, how many times. Each call is made on the same state.
pub fn make(words: &[String]) {
    let [side, state, call, times] = words else { panic!("four words are wanted: side, state, call, times") };
    let (engine, write): (Engine, Write) = match side.as_str() {
        "archive" => (archive::ENGINE, archive::write),
        "reference" => (reference::ENGINE, reference::write),
        _ => panic!("the sides are archive and reference"),
    };
    let standing = standing(state);
    let thread = standing.steppable().unwrap_or(NO_THREAD);
    let mut room = vec![0; STATE_BYTES];
    for _ in 0..times.parse().expect("the last word is a number") {
        room.copy_from_slice(&standing.state);
        let (table, state) = (black_box(&standing.table), black_box(&mut room));
        let (refusal, due) = match call.as_str() {
            "table" => (write(table, &mut []).refusal, 15),
            "refuse" => ((engine.step)(table, state, black_box(&NO_RIGHTS), 0, thread).refusal, 19),
            _ => one(&engine, call, table, state, thread),
        };
        assert_eq!(refusal, due);
    }
}

fn standing(name: &str) -> Standing {
    match name {
        "alone" => alone(),
        "largest" => largest(),
        "chain" => chained(Foot::Port, 0),
        "chain_last" => chained(Foot::Port, 1),
        "clique" => mutual(0, 0),
        "clique_last" => mutual(0, 1),
        _ => panic!("no state has the name {name}"),
    }
}

/// A call with all rights: its refusal, and what that is to be.
fn one(engine: &Engine, call: &str, table: &[u8], state: &mut [u8], thread: u32) -> (i32, i32) {
    let rights = black_box(&FULL_RIGHTS);
    match call {
        "judge" => ((engine.step)(table, state, rights, 0, NO_THREAD).refusal, 11),
        "step" => ((engine.step)(table, state, rights, 0, thread).refusal, 0),
        "run_none" => ((engine.run)(table, state, rights, 0, 0).refusal, 0),
        "collect" => ((engine.collect)(table, state, rights, 0).refusal, 0),
        _ => panic!("no call has the name {call}"),
    }
}
