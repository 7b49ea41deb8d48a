//! Files of one definition whose bound is known.

use super::{plain_file, Case};
use crate::compose::{choice, compose, definition, equal_to, go, guarded, one, set, spawn, Node, TAU};
use crate::file::{File, Row};

/// Nodes from the one of this number on that come to so many threads: a spawn after the other, then an end,
/// at which every child begins.
pub fn row_of_spawns(first: i16, threads: i16) -> Vec<Node> {
    let end = first + threads - 1;
    let spawns = (first + 1..=end).map(|next| one(spawn(next, end)));
    spawns.chain([Node::End]).collect()
}

/// So many threads, each child of the first.
pub fn spawns_in_a_row(threads: i16) -> File {
    plain_file(vec![row_of_spawns(0, threads)])
}

/// So many threads, each the child of the one before.
fn children_in_a_row(threads: i16) -> File {
    let end = threads - 1;
    let spawns = (1..=end).map(|child| one(spawn(end, child)));
    plain_file(vec![spawns.chain([Node::End]).collect()])
}

/// So many spawns after which parent and child stand at the same node: each doubles the bound.
pub fn doublings(count: i16) -> File {
    let spawns = (1..=count).map(|next| one(spawn(next, next)));
    plain_file(vec![spawns.chain([Node::End]).collect()])
}

/// The bound is the number with these binary digits, the first of which is 1. From the end backwards, each
/// further digit doubles what there is and, if it is 1, adds a thread.
pub fn by_digits(digits: &str) -> File {
    let mut adds = Vec::new();
    for digit in digits[1..].bytes() {
        adds.push(false);
        if digit == b'1' {
            adds.push(true);
        }
    }
    let end = adds.len() as i16;
    let spawns = (1..).zip(adds.iter().rev()).map(|(next, adds)| spawn(next, if *adds { end } else { next }));
    plain_file(vec![spawns.map(one).chain([Node::End]).collect()])
}

/// A choice of eight branches, which lead to eight bounds; the one at this place to the highest.
fn highest_at(place: usize, highest: i16) -> File {
    let mut branches: Vec<Row> = (1..=8).map(|target| go(TAU, target)).collect();
    branches.rotate_right(place);
    plain_file(vec![[vec![choice(&branches)], row_of_spawns(1, highest)].concat()])
}

/// A choice of eight branches that all lead to this bound, which counts once.
fn all_alike(bound: i16) -> File {
    plain_file(vec![[vec![choice(&[go(TAU, 1); 8])], row_of_spawns(1, bound)].concat()])
}

/// Every spawn has a guard that is never true, so that there is only one thread. They count all the same.
fn closed(bound: i16) -> File {
    let mut nodes = vec![one(go(set(0, 0), 1))];
    for node in row_of_spawns(1, bound) {
        nodes.push(match node {
            Node::Choice(branches) => one(guarded(equal_to(0, 1), branches[0])),
            other => other,
        });
    }
    compose(&[], 0, &[definition(0, &[0], nodes)])
}

/// Powers of two at which a narrow number would begin again.
const POWERS: [usize; 10] = [7, 8, 15, 16, 31, 32, 63, 64, 127, 128];

pub fn bounds() -> Vec<Case> {
    let mut cases = Vec::new();
    for threads in (1..=70).chain([100, 191, 192]) {
        let bound = threads as usize;
        cases.push(Case::bounded(format!("{threads} in a row"), spawns_in_a_row(threads), bound));
        cases.push(Case::bounded(format!("{threads} children in a row"), children_in_a_row(threads), bound));
    }
    for bound in 1..=140 {
        cases.push(Case::bounded(format!("{bound} by its digits"), by_digits(&format!("{bound:b}")), bound));
    }
    for power in POWERS {
        for more in [0, 1, 2, 3, 63, 64] {
            let digits = format!("1{more:0power$b}");
            cases.push(Case::many(format!("2 to the {power} and {more}"), by_digits(&digits)));
        }
    }
    for power in [8, 16, 32, 64] {
        cases.push(Case::many(format!("one below 2 to the {power}"), by_digits(&"1".repeat(power))));
    }
    for count in (0..=12).chain([40, 63, 64, 127, 128, 191]) {
        let bound = 1_usize.checked_shl(count).unwrap_or(usize::MAX);
        cases.push(Case::bounded(format!("{count} doublings"), doublings(count as i16), bound));
    }
    for bound in [8, 10, 63, 64, 65, 66] {
        for place in 0..8 {
            let name = format!("{bound} at place {place} of a choice");
            cases.push(Case::bounded(name, highest_at(place, bound), bound as usize));
        }
        cases.push(Case::bounded(format!("{bound} at every place"), all_alike(bound), bound as usize));
        cases.push(Case::bounded(format!("{bound}, all closed"), closed(bound), bound as usize));
    }
    cases
}
