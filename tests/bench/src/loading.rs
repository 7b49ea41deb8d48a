//! Microseconds for a load.

use std::hint::black_box;

use generate::{text_of, LINE_BYTES};
use reference::TABLE_BYTES;

use crate::files::{calls, files};
use crate::report::{heading, line, Unit};
use crate::timing::Times;

type Load = fn(&[u8], &mut [u8]) -> (i32, i32);

pub fn report() {
    heading("load of a file", Unit::Microseconds);
    for (name, file) in subjects() {
        let (ground, at) = archive::answer(&file, &mut [0; TABLE_BYTES]);
        let name = format!("{name}, {} lines, answer {ground} {at}", file.len() / LINE_BYTES);
        let loads = calls(file.len());
        let times = Times::take(
            loads,
            || sample(archive::answer, &file, loads),
            || sample(reference::answer, &file, loads),
        );
        line(&name, Unit::Microseconds, &times);
    }
}

fn subjects() -> [(&'static str, Vec<u8>); 3] {
    let [(largest_name, largest), (typical_name, typical)] = files();
    let mut faulty = largest.rows.clone();
    if let Some(row) = faulty.last_mut() {
        row[11] = 1;
    }
    [
        (largest_name, largest.text()),
        (typical_name, typical.text()),
        ("the largest, last field bad", text_of(&faulty)),
    ]
}

/// Loads a file so many times.
pub fn sample(load: Load, file: &[u8], loads: usize) {
    let mut table = [0; TABLE_BYTES];
    for _ in 0..loads {
        black_box(load(black_box(file), black_box(&mut table)));
    }
}
