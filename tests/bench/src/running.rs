//! Steps in a second, and nanoseconds for one rendezvous, in long runs.

use std::hint::black_box;

use generate::procedures::{crowd, ping_pong, rally, reckoner, selecting};
use generate::{table_of, File, Words, WAITING};
use interface::{Engine, FULL_RIGHTS, STATE_BYTES};

use crate::report::{heading, line, Unit};
use crate::timing::Times;

/// Steps in one run, which is one sample.
const STEPS: u16 = 20_000;
/// Steps before the first sample, so that all threads are there.
const BEFORE: u16 = 5_000;

pub fn report() {
    heading("steps in a run", Unit::MillionsPerSecond);
    let subjects = [
        ("two threads, to and fro", ping_pong()),
        ("60 threads on one channel", crowd(60)),
        ("guards, sums and calls alone", reckoner()),
    ];
    for (name, file) in subjects {
        line(name, Unit::MillionsPerSecond, &times(&file, usize::from(STEPS)));
    }
}

/// Prints, for each load that other languages have too, its name and the archive's nanoseconds for one
/// rendezvous.
pub fn report_meetings() {
    for (name, file) in [("rally", rally()), ("ping-pong", ping_pong()), ("select", selecting())] {
        println!("{name} {:.1}", times(&file, meetings(&file)).first * 1e9);
    }
}

/// A state after some steps.
fn begun(table: &[u8]) -> Vec<u8> {
    let mut state = vec![0; STATE_BYTES];
    assert_eq!(reference::start(table, &mut state).refusal, 0);
    assert_eq!(reference::run(table, &mut state, &FULL_RIGHTS, 0, BEFORE).steps, i32::from(BEFORE));
    state
}

/// In how many steps of a sample a waiting thread is met.
fn meetings(file: &File) -> usize {
    let table = table_of(&file.rows);
    let mut state = begun(&table);
    let met = (0..STEPS).filter(|_| {
        let before = Words::new(&state).threads(WAITING).len();
        assert_eq!(reference::run(&table, &mut state, &FULL_RIGHTS, 0, 1).steps, 1);
        Words::new(&state).threads(WAITING).len() < before
    });
    met.count()
}

/// Times of a sample by so many pieces.
fn times(file: &File, pieces: usize) -> Times {
    let table = table_of(&file.rows);
    let mut states = [begun(&table), begun(&table)];
    let [first, second] = &mut states;
    let times = Times::take(
        pieces,
        || run(&archive::ENGINE, &table, first),
        || run(&reference::ENGINE, &table, second),
    );
    assert!(states[0] == states[1], "both sides have come to the same state");
    times
}

fn run(engine: &Engine, table: &[u8], state: &mut [u8]) {
    let ran = (engine.run)(black_box(table), black_box(state), black_box(&FULL_RIGHTS), 0, STEPS);
    assert_eq!(ran.steps, i32::from(STEPS));
}
