//! Which call of a procedure the rental-shop profile forbids, in words.

use std::cmp::Ordering;
use std::ops::Range;

use pithread::Table;

/// A definition, with the rows of its nodes and of their branches.
struct Definition {
    number: usize,
    nodes: Range<usize>,
    branches: Range<usize>,
}

fn count(number: i16) -> usize {
    usize::from(number.unsigned_abs())
}

fn definitions(table: &Table) -> Vec<Definition> {
    let [_, types, definitions, slots, nodes, ..] = table.row(0).map(count);
    let mut node = 1 + types + definitions + slots;
    let mut branch = node + nodes;
    let cut = |number: usize| {
        let own_nodes = node..node + count(table.row(1 + types + number)[3]);
        let choices = own_nodes.clone().map(|row| table.row(row)).filter(|row| row[1] == 1);
        let own_branches = branch..branch + choices.map(|row| count(row[2])).sum::<usize>();
        (node, branch) = (own_nodes.end, own_branches.end);
        Definition { number, nodes: own_nodes, branches: own_branches }
    };
    (0..definitions).map(cut).collect()
}

/// The first call that the profile forbids: its line, and what is wrong with it. Nothing if it allows all.
pub fn forbidden_call(table: &Table) -> Option<String> {
    definitions(table).iter().find_map(|definition| {
        let spawn = definition.branches.clone().find(|row| table.row(*row)[4] == 4);
        let mut calls = definition.nodes.clone().filter(|row| table.row(*row)[1] == 2);
        calls.find_map(|row| {
            let why = fault(definition.number, count(table.row(row)[2]), spawn)?;
            Some(format!("line {}: definition {} {why}", row + 1, definition.number))
        })
    })
}

/// What is wrong with a call, by the numbers of both definitions and the row of a spawn of the first.
fn fault(own: usize, called: usize, spawn: Option<usize>) -> Option<String> {
    match called.cmp(&own) {
        Ordering::Less => Some(format!("calls definition {called}, and a call has to go to a higher number")),
        Ordering::Equal => spawn.map(|row| format!("calls itself, and it has a spawn (line {})", row + 1)),
        Ordering::Greater => None,
    }
}
