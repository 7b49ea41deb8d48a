//! Microseconds for a write, and for a load of the same file beside it.

use std::hint::black_box;

use generate::table_of;
use interface::Write;

use crate::files::{calls, files};
use crate::loading;
use crate::report::{heading, heading_of, line, Unit};
use crate::timing::Times;

/// A table and its file.
struct Subject {
    name: String,
    table: Vec<u8>,
    file: Vec<u8>,
}

pub fn report() {
    let subjects = files().map(|(name, file)| {
        let name = format!("{name}, {} lines", file.rows.len());
        Subject { name, table: table_of(&file.rows), file: file.text() }
    });
    heading("write of a table", Unit::Microseconds);
    for subject in &subjects {
        line(&subject.name, Unit::Microseconds, &beside_reference(subject));
    }
    heading_of("load and write of a file, the archive alone", ["load", "write"], Unit::Microseconds, "times");
    for subject in &subjects {
        line(&subject.name, Unit::Microseconds, &beside_load(subject));
    }
}

fn beside_reference(subject: &Subject) -> Times {
    let mut rooms = [room(subject), room(subject)];
    let [first, second] = &mut rooms;
    let times = Times::take(
        calls(subject.file.len()),
        || sample(archive::write, subject, first),
        || sample(reference::write, subject, second),
    );
    assert!(rooms.iter().all(|room| *room == subject.file), "both sides have written the file");
    times
}

/// The load comes first, so that the last column says how many times as long the write takes.
fn beside_load(subject: &Subject) -> Times {
    let loads = calls(subject.file.len());
    let mut room = room(subject);
    Times::take(
        loads,
        || loading::sample(archive::answer, &subject.file, loads),
        || sample(archive::write, subject, &mut room),
    )
}

fn room(subject: &Subject) -> Vec<u8> {
    vec![0; subject.file.len()]
}

/// Writes the table many times.
fn sample(write: Write, subject: &Subject, room: &mut [u8]) {
    for _ in 0..calls(room.len()) {
        let written = write(black_box(&subject.table), black_box(room));
        assert_eq!(written.refusal, 0);
    }
}
