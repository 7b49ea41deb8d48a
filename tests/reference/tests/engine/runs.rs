//! Runs: order of the threads, turn, and reasons.

use generate::procedures::{crowd, ping_pong, reckoner, spawners};
use generate::READY;
use interface::{Ran, ALL_STEPS, LACKED_THREAD_ROW, NONE_READY};

use crate::bench::Bench;
use crate::listing::listing;

#[test]
fn no_steps_asked_for() {
    let done = Ran { refusal: 0, steps: 0, reason: ALL_STEPS, thread: -1 };
    let mut bench = Bench::new(&listing());
    assert_eq!(bench.unchanged(|bench| bench.run(0)), done);
    bench.run(7);
    assert_eq!(bench.unchanged(|bench| bench.run(0)), done);
}

#[test]
fn as_many_as_there_are_is_reason_0() {
    assert_eq!(Bench::new(&listing()).run(7), Ran { refusal: 0, steps: 7, reason: ALL_STEPS, thread: -1 });
    assert_eq!(Bench::new(&listing()).run(8), Ran { refusal: 0, steps: 7, reason: NONE_READY, thread: -1 });
}

#[test]
fn a_run_is_its_steps_from_the_turn_on() {
    for file in [ping_pong(), crowd(60), reckoner(), spawners()] {
        let (mut whole, mut single) = (Bench::new(&file), Bench::new(&file));
        for n in [1, 2, 30, 250, 600] {
            let ran = whole.run(n);
            for _ in 0..ran.steps {
                let turn = single.front()[2] as usize;
                let ready = single.words().threads(READY);
                let next = ready.iter().find(|thread| **thread >= turn).unwrap_or(&ready[0]);
                single.steps(*next as u32, 1);
                assert_eq!(single.front()[2] as usize, turn);
                let mut words = single.words();
                words.front()[2] = (*next as i32 + 1) % 64;
                single.state = words.to_bytes();
            }
            if ran.reason == LACKED_THREAD_ROW {
                let mut words = single.words();
                words.front()[2] = (ran.thread + 1) % 64;
                single.state = words.to_bytes();
            }
            assert!(whole.state == single.state, "n {n}");
        }
    }
}

#[test]
fn the_longest_run() {
    for file in [ping_pong(), crowd(60), reckoner()] {
        let ran = Bench::new(&file).run(u16::MAX);
        assert_eq!(ran, Ran { refusal: 0, steps: 65_535, reason: ALL_STEPS, thread: -1 });
    }
}

#[test]
fn the_crowd_is_as_large_as_asked_for() {
    let mut bench = Bench::new(&crowd(60));
    bench.run(10_000);
    let words = bench.words();
    assert_eq!(words.threads(READY).len() + words.threads(generate::WAITING).len(), 60);
    assert_eq!(bench.channel(0)[1], 60);
}

#[test]
fn a_run_held_up_goes_on_with_the_next_thread() {
    let mut bench = Bench::new(&spawners());
    let mut held_up = 0;
    for _ in 0..200 {
        let ran = bench.run(50);
        if ran.reason == LACKED_THREAD_ROW {
            held_up += 1;
            assert_eq!(bench.front()[2], (ran.thread + 1) % 64);
        }
    }
    assert!(held_up > 100, "{held_up}");
}
