//! Microseconds for one step call, most of which goes into reading the table and the state.

use std::hint::black_box;

use generate::standstills::Foot;
use interface::{Engine, FULL_RIGHTS, STATE_BYTES};

use crate::report::{heading, line, Unit};
use crate::standing::{alone, chained, largest, mutual, Standing};
use crate::timing::Times;

/// Calls in one sample.
const CALLS: usize = 50;

pub fn report() {
    heading("one step call", Unit::Microseconds);
    let subjects = [
        ("one thread, table of 30 lines", alone()),
        ("table of 865 lines", largest()),
        ("64 threads in a chain, the last begins to wait", chained(Foot::Port, 1)),
        ("64 threads in a clique, the last begins to wait", mutual(0, 1)),
    ];
    for (name, standing) in subjects {
        let thread = standing.steppable().expect("a thread is ready");
        let mut room = vec![0; STATE_BYTES];
        let mut other_room = room.clone();
        let times = Times::take(
            CALLS,
            || sample(&archive::ENGINE, &standing, thread, &mut room),
            || sample(&reference::ENGINE, &standing, thread, &mut other_room),
        );
        assert!(room == other_room, "both sides have come to the same state");
        line(name, Unit::Microseconds, &times);
    }
}

fn sample(engine: &Engine, standing: &Standing, thread: u32, state: &mut [u8]) {
    for _ in 0..CALLS {
        state.copy_from_slice(&standing.state);
        let stepped =
            (engine.step)(black_box(&standing.table), black_box(state), black_box(&FULL_RIGHTS), 0, thread);
        assert_eq!(stepped.refusal, 0);
    }
}
