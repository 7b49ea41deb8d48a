//! Microseconds for a call of a seat without the right, and beside it for the judging of the table that comes first.

use std::hint::black_box;

use generate::standstills::Foot;
use interface::{Engine, RIGHTS_BYTES, SEAT, SHORT_BUFFER};

use crate::report::{heading, heading_of, line, Unit};
use crate::standing::{alone, chained, largest, mutual, Standing};
use crate::timing::Times;

/// Calls in one sample.
const CALLS: usize = 50;

/// The list by which nobody may do anything.
pub const NO_RIGHTS: [u8; RIGHTS_BYTES] = [0; RIGHTS_BYTES];

pub fn report() {
    let subjects = [
        ("one thread, table of 30 lines", alone()),
        ("table of 865 lines", largest()),
        ("64 threads in a chain", chained(Foot::Port, 0)),
        ("64 threads in a clique", mutual(0, 0)),
    ];
    heading("one step call without the right", Unit::Microseconds);
    for (name, standing) in &subjects {
        line(name, Unit::Microseconds, &beside_reference(standing));
    }
    let sides = ["table", "refusal"];
    heading_of("judging of a table and such a refusal, the archive", sides, Unit::Microseconds, "times");
    for (name, standing) in &subjects {
        line(name, Unit::Microseconds, &beside_table(standing));
    }
}

fn beside_reference(standing: &Standing) -> Times {
    let [mut first, mut second] = [(); 2].map(|()| standing.state.clone());
    Times::take(
        CALLS,
        || refuse(&archive::ENGINE, &standing.table, &mut first),
        || refuse(&reference::ENGINE, &standing.table, &mut second),
    )
}

/// The judging of the table comes first, so that the last column says how many times as long the refusal takes.
fn beside_table(standing: &Standing) -> Times {
    let mut state = standing.state.clone();
    Times::take(CALLS, || judge(&standing.table), || refuse(&archive::ENGINE, &standing.table, &mut state))
}

fn refuse(engine: &Engine, table: &[u8], state: &mut [u8]) {
    for _ in 0..CALLS {
        let stepped = (engine.step)(black_box(table), black_box(state), black_box(&NO_RIGHTS), 0, 0);
        assert_eq!(stepped.refusal, SEAT);
    }
}

/// A write into no bytes is refused once the table has been judged.
fn judge(table: &[u8]) {
    for _ in 0..CALLS {
        assert_eq!(archive::write(black_box(table), &mut []).refusal, SHORT_BUFFER);
    }
}
