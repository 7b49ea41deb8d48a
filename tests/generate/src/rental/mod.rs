//! Files for the rental-shop profile: single ones with the answer that each must get, and random ones.

mod bounds;
mod calls;
mod ladders;
mod led;

use interface::{Profiled, FORBIDDEN_CALL, MANY_THREADS, THREADS};

use crate::compose::{compose, definition, Definition, Node};
use crate::file::{padded, File};
use crate::profile::Profile;
use crate::random::Random;
use crate::valid::{any_valid, profiled};

pub use bounds::{bounds, by_digits, doublings, spawns_in_a_row};
pub use calls::{calls, with_arguments};
pub use ladders::{full_ladders, ladders};
pub use led::{led, LED_BRANCHES};

/// A file and the answer that it must get.
pub struct Case {
    pub name: String,
    pub file: File,
    pub due: Profiled,
}

impl Case {
    /// A file that passes with this bound.
    fn passes(name: impl Into<String>, file: File, threads: i32) -> Case {
        Case { name: name.into(), file, due: Profiled { refusal: 0, threads } }
    }

    fn refused(name: impl Into<String>, file: File, refusal: i32) -> Case {
        Case { name: name.into(), file, due: Profiled { refusal, threads: 0 } }
    }

    fn forbidden(name: impl Into<String>, file: File) -> Case {
        Case::refused(name, file, FORBIDDEN_CALL)
    }

    /// A file with allowed calls and a bound above the number of rows.
    fn many(name: impl Into<String>, file: File) -> Case {
        Case::refused(name, file, MANY_THREADS)
    }

    /// A file with allowed calls and this bound.
    fn bounded(name: impl Into<String>, file: File, bound: usize) -> Case {
        match bound <= THREADS {
            true => Case::passes(name, file, bound as i32),
            false => Case::many(name, file),
        }
    }
}

/// All files that have a known answer.
pub fn cases() -> Vec<Case> {
    [bounds(), ladders(), calls()].into_iter().flatten().collect()
}

/// A definition without slots.
fn plain(nodes: Vec<Node>) -> Definition {
    definition(0, &[], nodes)
}

/// A file of definitions without slots, types and ports.
fn plain_file(definitions: Vec<Vec<Node>>) -> File {
    let definitions: Vec<Definition> = definitions.into_iter().map(plain).collect();
    compose(&[], 0, &definitions)
}

/// Files of every size with more spawns than others, so that high bounds come often.
const CROWDED: Profile = Profile {
    name: "crowded",
    actions: &[0, 1, 2, 3, 4, 4, 4, 5, 6, 7],
    guarded: 40,
    ends: 10,
    tries: 6,
    ..crate::profile::ANY
};

/// A right file. Mostly each of its calls is allowed; in some files one or a few are not, or many.
pub fn any(random: &mut Random) -> File {
    let file = if random.chance(50) { any_valid(random) } else { profiled(random, &CROWDED) };
    let kept = random.pick(&[0, 0, 0, 0, 0, 0, 0, 1, 2, usize::MAX]);
    with_forbidden(random, file, kept)
}

/// The file with an end in place of each call that the profile forbids.
pub fn tamed(random: &mut Random, file: File) -> File {
    with_forbidden(random, file, 0)
}

/// The same, but for so many of these calls, which stay.
fn with_forbidden(random: &mut Random, file: File, kept: usize) -> File {
    let mut forbidden = forbidden_calls(&file);
    random.shuffle(&mut forbidden);
    let mut rows = file.rows;
    for place in forbidden.into_iter().skip(kept) {
        rows[place] = padded(&[5]);
    }
    File::new(rows)
}

/// The places in the file's rows of the calls that the profile forbids.
pub fn forbidden_calls(file: &File) -> Vec<usize> {
    let branches = file.owners.iter().zip(&file.rows[file.section(6)]);
    let spawns: Vec<usize> =
        branches.filter(|(_, row)| row[4] == 4).map(|(owner, _)| owner.definition).collect();
    let mut forbidden = Vec::new();
    for (own, places) in file.nodes_of.iter().enumerate() {
        let least = if spawns.contains(&own) { own + 1 } else { own };
        forbidden.extend(places.clone().filter(|place| {
            let row = file.rows[*place];
            row[1] == 2 && (row[2] as usize) < least
        }));
    }
    forbidden
}
