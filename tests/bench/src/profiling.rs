//! Microseconds for a check for the rental-shop profile, and for a run of no steps on the same table beside
//! it.

use std::hint::black_box;

use generate::rental::{doublings, full_ladders, tamed};
use generate::{table_of, File, Random, MOST_LINES};
use interface::{Profiled, Ran, FULL_RIGHTS, NOBODY, STATE_BYTES};

use crate::files::files;
use crate::report::{heading, heading_of, line, Unit};
use crate::timing::Times;

/// Checks or runs in one sample.
const CALLS: usize = 50;

/// A table, the state in which it starts, and what the check of it answers.
struct Subject {
    name: String,
    table: Vec<u8>,
    state: Vec<u8>,
    due: Profiled,
}

pub fn report() {
    let subjects = subjects();
    heading("check for the profile", Unit::Microseconds);
    for subject in &subjects {
        line(&subject.name, Unit::Microseconds, &beside_reference(subject));
    }
    let sides = ["run", "check"];
    heading_of("run of no steps and check, the archive alone", sides, Unit::Microseconds, "times");
    for subject in &subjects {
        line(&subject.name, Unit::Microseconds, &beside_run(subject));
    }
}

/// Files of any kind as they are made and with their calls put right, and ladders of 865 lines.
fn subjects() -> Vec<Subject> {
    let random = &mut Random::new(1);
    let mut subjects = Vec::new();
    for (name, file) in files() {
        subjects.push(subject(name, &file));
        subjects.push(subject(&format!("{name}, tamed"), &tamed(random, file)));
    }
    subjects.push(subject("40 doublings", &doublings(40)));
    for case in full_ladders() {
        assert_eq!(case.file.rows.len(), MOST_LINES);
        subjects.push(subject(&case.name, &case.file));
    }
    subjects
}

fn subject(name: &str, file: &File) -> Subject {
    let (table, mut state) = (table_of(&file.rows), vec![0; STATE_BYTES]);
    assert_eq!(reference::start(&table, &mut state).refusal, 0);
    let due = reference::profile(&table);
    let name = format!("{name}, {} lines: {} {}", file.rows.len(), due.refusal, due.threads);
    Subject { name, table, state, due }
}

fn beside_reference(subject: &Subject) -> Times {
    Times::take(CALLS, || sample(archive::profile, subject), || sample(reference::profile, subject))
}

/// The run comes first, so that the last column says how many times as long the check takes.
fn beside_run(subject: &Subject) -> Times {
    let mut state = subject.state.clone();
    Times::take(CALLS, || run(subject, &mut state), || sample(archive::profile, subject))
}

fn sample(profile: fn(&[u8]) -> Profiled, subject: &Subject) {
    for _ in 0..CALLS {
        assert_eq!(profile(black_box(&subject.table)), subject.due);
    }
}

fn run(subject: &Subject, state: &mut [u8]) {
    for _ in 0..CALLS {
        let rights = black_box(&FULL_RIGHTS);
        let ran = (archive::ENGINE.run)(black_box(&subject.table), black_box(state), rights, 0, 0);
        assert_eq!(ran, Ran { refusal: 0, steps: 0, reason: 0, thread: NOBODY });
    }
}
