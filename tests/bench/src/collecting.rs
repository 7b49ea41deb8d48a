//! Microseconds for one collection on 64 waiting threads.

use std::hint::black_box;

use generate::standstills::Foot;
use interface::{Collected, Engine, FULL_RIGHTS, STATE_BYTES, THREADS};

use crate::report::{heading, line, Unit};
use crate::standing::{chained, mutual, Standing};
use crate::timing::Times;

/// Collections in one sample.
const CALLS: usize = 50;

/// A table and a state, and how many threads a collection takes from it.
struct Subject {
    standing: Standing,
    taken: usize,
}

/// In the chains each thread is found by way of the one row above its own, the last thread first.
pub fn report() {
    heading("one collection, 64 threads waiting", Unit::Microseconds);
    let subjects = [
        ("in a chain, nobody taken", chained(Foot::Port, 0), 0),
        ("in a chain, all taken", chained(Foot::Lone, 0), THREADS),
        ("in a clique, nobody taken", mutual(0, 0), 0),
        ("in a clique, all taken", mutual(1, 0), THREADS),
    ];
    for (name, standing, taken) in subjects {
        line(name, Unit::Microseconds, &times(&Subject { standing, taken }));
    }
}

fn times(subject: &Subject) -> Times {
    let mut rooms = [vec![0; STATE_BYTES], vec![0; STATE_BYTES]];
    let [first, second] = &mut rooms;
    let times = Times::take(
        CALLS,
        || sample(&archive::ENGINE, subject, first),
        || sample(&reference::ENGINE, subject, second),
    );
    assert!(rooms[0] == rooms[1], "both sides have come to the same state");
    times
}

fn sample(engine: &Engine, subject: &Subject, state: &mut [u8]) {
    for _ in 0..CALLS {
        state.copy_from_slice(&subject.standing.state);
        let table = black_box(&subject.standing.table);
        let collected = (engine.collect)(table, black_box(state), black_box(&FULL_RIGHTS), 0);
        assert_eq!(collected, Collected { refusal: 0, threads: subject.taken as i32 });
    }
}
