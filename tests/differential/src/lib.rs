//! What the comparisons share: one load, one write, one check, one call or one listing by both sides, and
//! tallies of what was met.

mod calls;
mod collections;
mod comparison;
mod examples;
mod kept;
mod listings;
mod lists;
mod padded;
mod profiles;
mod sequence;
mod tally;
mod traffic;
mod worked;
mod writes;

pub use calls::Calls;
pub use comparison::{Answer, Comparison};
pub use examples::examples;
pub use listings::{Listings, PROGRAM};
pub use lists::{List, Lists};
pub use profiles::Profiles;
pub use sequence::Sequence;
pub use tally::Tally;
pub use traffic::Traffic;
pub use worked::WorkedFiles;
pub use writes::Writes;

use generate::{Random, Row, FIELDS};

/// Runs a test for each of so many seeds; the seed is in the description handed on.
pub fn for_seeds(first: u64, count: u64, mut test: impl FnMut(&mut Random, &str)) {
    for seed in first..first + count {
        test(&mut Random::new(seed), &format!("seed {seed}"));
    }
}

/// Runs a test on some rows, each of their numbers set to each of these in turn; line and field are in the
/// description handed on.
pub fn for_fields(rows: &[Row], numbers: &[i16], mut test: impl FnMut(&[Row], &str)) {
    let mut rows = rows.to_vec();
    for place in 0..rows.len() * FIELDS {
        let (line, field) = (place / FIELDS, place % FIELDS);
        let kept = rows[line][field];
        for number in numbers {
            rows[line][field] = *number;
            test(&rows, &format!("line {}, field {}, number {number}", line + 1, field + 1));
        }
        rows[line][field] = kept;
    }
}
