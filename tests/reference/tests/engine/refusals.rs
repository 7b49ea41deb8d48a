//! The order of the grounds, and that a refused call changes nothing.

use generate::procedures::ports;
use interface::{Answer, Call, Collected, Given, Ran, Seated, Started, Stepped, Taken, STATE_BYTES};
use reference::{ENGINE, TABLE_BYTES};

use crate::bench::Bench;

const CALLS: [Call; 6] = [
    Call::Start,
    Call::Step { thread: 64 },
    Call::Give { port: 2, number: 3 },
    Call::Take { port: 7 },
    Call::Run { n: 5 },
    Call::Collect,
];

/// All numbers but the ground are 0.
fn refused(call: Call, refusal: i32) -> Answer {
    match call {
        Call::Start => Answer::Started(Started { refusal }),
        Call::Step { .. } => Answer::Stepped(Stepped { refusal, ..Stepped::default() }),
        Call::Give { .. } => Answer::Given(Given { refusal, ..Given::default() }),
        Call::Take { .. } => Answer::Taken(Taken { refusal, ..Taken::default() }),
        Call::Run { .. } => Answer::Ran(Ran { refusal, ..Ran::default() }),
        Call::Collect => Answer::Collected(Collected { refusal, ..Collected::default() }),
    }
}

pub fn check<'a>(call: impl Into<Seated<'a>>, table: &[u8], state: &[u8], ground: i32) {
    let (seated, mut after) = (call.into(), state.to_vec());
    let call = seated.call;
    assert_eq!(ENGINE.answer(seated, table, &mut after), refused(call, ground), "{call:?}");
    assert!(after == state, "{call:?}: the state has changed");
}

#[test]
fn lengths_come_before_the_table() {
    let bench = Bench::new(&ports());
    let right = (bench.table.as_slice(), bench.state.as_slice());
    let bad_table = vec![7; TABLE_BYTES];
    for call in CALLS {
        for length in [0, 1, STATE_BYTES - 1, STATE_BYTES + 1, TABLE_BYTES] {
            check(call, right.0, &vec![7; length], 8);
            check(call, &bad_table, &vec![7; length], 8);
        }
        for length in [0, 24, TABLE_BYTES - 1, TABLE_BYTES + 1, STATE_BYTES] {
            check(call, &vec![0; length], right.1, 8);
        }
    }
}

#[test]
fn the_table_comes_before_the_state() {
    let bench = Bench::new(&ports());
    let mut table = bench.table.clone();
    table[TABLE_BYTES - 1] = 1;
    for call in CALLS {
        check(call, &table, &bench.state, 9);
        check(call, &table, &vec![7; STATE_BYTES], 9);
        check(call, &vec![0; TABLE_BYTES], &bench.state, 9);
    }
}

#[test]
fn the_state_comes_before_the_numbers() {
    let bench = Bench::new(&ports());
    for call in &CALLS[1..] {
        check(*call, &bench.table, &vec![7; STATE_BYTES], 10);
    }
    let mut state = vec![7; STATE_BYTES];
    assert_eq!(reference::start(&bench.table, &mut state).refusal, 0);
    assert!(state == bench.state, "a start does not read the state");
}

#[test]
fn threads_that_are_not_ready() {
    let mut bench = Bench::new(&ports());
    bench.run(100);
    for thread in [0, 1, 2, 63, 64, 65, 256, 1 << 16, 1 << 31, u32::MAX] {
        check(Call::Step { thread }, &bench.table, &bench.state, 11);
    }
    assert_eq!(bench.give(1, 8).thread, 0);
    assert_eq!(bench.step(256).refusal, 11);
    assert_eq!(bench.step(0).refusal, 0);
}

#[test]
fn ports_that_there_are_not() {
    let mut bench = Bench::new(&ports());
    bench.run(100);
    for port in 2..8 {
        check(Call::Give { port, number: 1 }, &bench.table, &bench.state, 12);
        check(Call::Take { port }, &bench.table, &bench.state, 12);
    }
    // Where no file has a port, no seat has a right.
    for port in [8, 9, 128, 256, 1 << 16, 1 << 31, u32::MAX] {
        check(Call::Give { port, number: 1 }, &bench.table, &bench.state, 19);
        check(Call::Take { port }, &bench.table, &bench.state, 19);
    }
}
