//! Ladders: so many choices one after the other that no search could follow each path through them.

use super::bounds::row_of_spawns;
use super::{plain_file, Case};
use crate::compose::{call, choice, compose, definition, go, one, spawn, Definition, Node, TAU};
use crate::file::{File, Row};

/// So many choices, each with so many branches that all lead to the next node; behind them nodes that come to
/// so many threads.
fn straight(choices: i16, branches: usize, threads: i16) -> File {
    let rungs = (1..=choices).map(|next| choice(&vec![go(TAU, next); branches]));
    plain_file(vec![rungs.chain(row_of_spawns(choices, threads)).collect()])
}

/// Each choice leads to the next node and to the one after.
fn skipping(choices: i16, threads: i16) -> File {
    let last = choices + threads - 1;
    let rungs = (1..=choices).map(|next| choice(&[go(TAU, next), go(TAU, last.min(next + 1))]));
    plain_file(vec![rungs.chain(row_of_spawns(choices, threads)).collect()])
}

/// Each choice goes on alone or doubles the threads, by its first branch or by its last.
fn doubling(choices: i16) -> File {
    let rungs = (1..=choices).map(|next| {
        let mut branches = [go(TAU, next), spawn(next, next)];
        branches.rotate_left(next as usize % 2);
        choice(&branches)
    });
    plain_file(vec![rungs.chain([Node::End]).collect()])
}

/// The parent goes on at the next node and the child at the one after: each bound is the sum of two.
fn summing(spawns: i16) -> File {
    let rungs = (1..=spawns).map(|next| one(spawn(next, next + 1)));
    plain_file(vec![rungs.chain([Node::End, Node::End]).collect()])
}

/// The bound of such a file.
fn sum_of(spawns: i16) -> usize {
    let (mut last, mut before) = (1_usize, 1_usize);
    for _ in 0..spawns {
        (last, before) = (last.saturating_add(before), last);
    }
    last
}

pub fn ladders() -> Vec<Case> {
    let mut cases = vec![
        Case::passes("191 choices of two branches", straight(191, 2, 1), 1),
        Case::passes("48 choices of eight branches", straight(48, 8, 1), 1),
        Case::passes("191 choices that skip", skipping(191, 1), 1),
    ];
    for threads in [2, 63, 64, 65, 66] {
        let (choices, bound) = (192 - threads, threads as usize);
        let name = format!("a straight ladder to {threads}");
        cases.push(Case::bounded(name, straight(choices, 2, threads), bound));
        let name = format!("a skipping ladder to {threads}");
        cases.push(Case::bounded(name, skipping(choices, threads), bound));
    }
    for choices in [1, 5, 6, 7, 8, 40, 191] {
        let bound = 1_usize.checked_shl(choices).unwrap_or(usize::MAX);
        cases.push(Case::bounded(format!("{choices} doubling choices"), doubling(choices as i16), bound));
    }
    for spawns in [1, 2, 3, 8, 9, 45, 46, 91, 92, 93, 190] {
        cases.push(Case::bounded(format!("{spawns} sums"), summing(spawns), sum_of(spawns)));
    }
    cases.extend(full_ladders());
    cases
}

/// Definitions, and slots of each, in a file with every count at its limit.
const DEFINITIONS: i16 = 16;
const SLOTS: [i16; 16] = [1; 16];

/// A file with every count at its limit, if its definitions have 192 nodes and 384 branches.
fn full(definitions: Vec<Vec<Node>>) -> File {
    let definitions: Vec<Definition> = definitions
        .into_iter()
        .enumerate()
        .map(|(number, nodes)| definition(if number == 0 { 8 } else { 0 }, &SLOTS, nodes))
        .collect();
    compose(&[0; 16], 8, &definitions)
}

/// So many choices, the first of which have three branches and the others two. The branches of a choice are
/// alike.
fn rungs(choices: i16, of_three: i16, branch: impl Fn(i16) -> Row) -> Vec<Node> {
    (1..=choices).map(|next| choice(&vec![branch(next); 2 + usize::from(next <= of_three)])).collect()
}

/// One ladder in definition 0, and then the other definitions, of which each is a node; the last is this one.
fn in_one(branch: impl Fn(i16) -> Row, last: Node) -> File {
    let ladder = [rungs(176, 32, branch), vec![Node::End]].concat();
    let mut definitions = vec![ladder];
    definitions.extend((1..DEFINITIONS - 1).map(|_| vec![Node::End]));
    definitions.push(vec![last]);
    full(definitions)
}

/// A ladder through all definitions, each of which calls the next. The first so many begin with a doubling.
fn through_all(doublings: i16) -> File {
    let definitions = (0..DEFINITIONS).map(|own| {
        let branch = |next: i16| if next == 1 && own < doublings { spawn(next, next) } else { go(TAU, next) };
        let last = if own + 1 < DEFINITIONS { call(own + 1, &[]) } else { Node::End };
        [rungs(11, 2, branch), vec![last]].concat()
    });
    full(definitions.collect())
}

/// Ladders of 865 lines.
pub fn full_ladders() -> Vec<Case> {
    let straight = |next: i16| go(TAU, next);
    vec![
        Case::passes("one ladder", in_one(straight, Node::End), 1),
        Case::passes("a ladder through all definitions", through_all(0), 1),
        Case::passes("the same with six doublings", through_all(6), 64),
        Case::many("the same with seven", through_all(7)),
        Case::many("one ladder of doublings", in_one(|next| spawn(next, next), Node::End)),
        Case::passes("one ladder, the last node repeats", in_one(straight, call(15, &[])), 1),
        Case::forbidden("one ladder, the last node calls down", in_one(straight, call(14, &[]))),
    ]
}
