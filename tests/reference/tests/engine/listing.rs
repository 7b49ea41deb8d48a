//! The example with its listing, step by step.

use generate::cases::LISTING;
use generate::{padded, File, FREE, READY, WAITING};
use interface::Stepped;

use crate::bench::Bench;

/// Thread, node, act, branch, partner.
const STEPS: [(u32, i32, i32, i32, i32); 7] = [
    (0, 0, 3, 0, -1),
    (0, 1, 3, 0, 1),
    (1, 4, 2, 0, -1),
    (0, 2, 3, 0, -1),
    (0, 3, 3, 0, 1),
    (1, 5, 0, 0, -1),
    (0, 5, 0, 0, -1),
];

pub fn listing() -> File {
    File::new(LISTING.map(padded).to_vec())
}

#[test]
fn each_step_answers_as_listed() {
    let mut bench = Bench::new(&listing());
    for (thread, node, act, branch, partner) in STEPS {
        assert_eq!(bench.step(thread), Stepped { refusal: 0, node, act, branch, partner });
    }
    assert!(bench.words().threads(FREE).len() == 64 && bench.words().channels(0).len() == 128);
}

#[test]
fn the_states_between() {
    let mut bench = Bench::new(&listing());
    assert_eq!((bench.front(), bench.place(0), bench.slots(0)), ([1, 0, 0], (READY, 0), [-1, 0]));
    bench.steps(0, 2);
    assert_eq!((bench.front(), bench.place(0), bench.place(1)), ([2, 1, 0], (READY, 2), (READY, 4)));
    assert_eq!((bench.slots(0), bench.slots(1), bench.channel(0)), ([0, 0], [0, 0], [1, 2, 0]));
    bench.steps(1, 1);
    assert_eq!((bench.place(1), bench.channel(0)), ((WAITING, 4), [1, 2, 1]));
    bench.steps(0, 2);
    assert_eq!((bench.place(0), bench.place(1)), ((READY, 5), (READY, 5)));
    assert_eq!((bench.slots(0), bench.slots(1), bench.channel(0)), ([0, 7], [0, 7], [1, 2, 0]));
    bench.steps(1, 1);
    assert_eq!((bench.place(1), bench.channel(0)), ((FREE, 0), [1, 1, 0]));
}

#[test]
fn a_run_takes_the_same_steps_and_moves_the_turn() {
    let mut bench = Bench::new(&listing());
    let mut turns = Vec::new();
    for (thread, ..) in STEPS {
        assert_eq!(bench.run(1).steps, 1);
        turns.push(bench.front()[2] == thread as i32 + 1);
    }
    assert_eq!(turns, [true; 7]);
    let ran = bench.run(1_000);
    assert_eq!((ran.refusal, ran.steps, ran.reason, ran.thread), (0, 0, 1, -1));
    let ran = Bench::new(&listing()).run(1_000);
    assert_eq!((ran.refusal, ran.steps, ran.reason, ran.thread), (0, 7, 1, -1));
}
