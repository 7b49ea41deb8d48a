//! The lines that are printed.

use crate::timing::Times;

#[derive(Clone, Copy)]
pub enum Unit {
    /// Of a second, for one piece of work.
    Microseconds,
    /// Millions of pieces of work in a second.
    MillionsPerSecond,
}

impl Unit {
    fn name(self) -> &'static str {
        match self {
            Unit::Microseconds => "us",
            Unit::MillionsPerSecond => "M/s",
        }
    }

    fn figure(self, seconds: f64) -> f64 {
        match self {
            Unit::Microseconds => seconds * 1e6,
            Unit::MillionsPerSecond => 1e-6 / seconds,
        }
    }
}

/// The heading of lines that hold the archive against the reference.
pub fn heading(name: &str, unit: Unit) {
    heading_of(name, ["archive", "reference"], unit, "speed");
}

/// The heading of lines that hold two sides of these names against each other.
pub fn heading_of(name: &str, sides: [&str; 2], unit: Unit, ratio: &str) {
    let [first, second] = sides.map(|side| format!("{side} {}", unit.name()));
    println!("\n{name:50}{first:>14}{second:>14}{ratio:>8}");
}

/// Both figures, and the speed of the first by that of the second.
pub fn line(name: &str, unit: Unit, times: &Times) {
    let (first, second) = (unit.figure(times.first), unit.figure(times.second));
    println!("{name:50}{first:>14.2}{second:>14.2}{:>8.2}", times.ratio());
}
