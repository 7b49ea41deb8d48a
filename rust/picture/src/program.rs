//! What a table says of a node: the types of its slots, and the offers of a thread that waits there.

use std::ops::Range;

use pithread::{Row, Table};

use crate::graph::{Direction, Offer};

/// The actions that are offers.
const SEND: i16 = 1;
const RECEIVE: i16 = 2;

struct Node {
    slots: Range<usize>,
    branches: Range<usize>,
}

/// The nodes of a file, counted over all of it, with the rows of their slots and of their branches.
pub struct Program<'a> {
    table: &'a Table,
    nodes: Vec<Node>,
}

impl<'a> Program<'a> {
    pub fn new(table: &'a Table) -> Program<'a> {
        let [_, types, definitions, slots, nodes, ..] = table.row(0).map(count);
        let first_definition = 1 + types;
        let mut slot = first_definition + definitions;
        let first_node = slot + slots;
        let mut branch = first_node + nodes;
        let mut program = Program { table, nodes: Vec::with_capacity(nodes) };
        for definition in first_definition..first_definition + definitions {
            let [_, _, own_slots, own_nodes, ..] = table.row(definition).map(count);
            for _ in 0..own_nodes {
                let row = table.row(first_node + program.nodes.len());
                let own_branches = if row[1] == 1 { count(row[2]) } else { 0 };
                let node = Node { slots: slot..slot + own_slots, branches: branch..branch + own_branches };
                program.nodes.push(node);
                branch += own_branches;
            }
            slot += own_slots;
        }
        program
    }

    /// The channels in the slots of a thread at this node, each once, lowest first.
    pub fn held(&self, node: u32, slots: &[i32]) -> Vec<u32> {
        let kinds = self.nodes[node as usize].slots.clone().map(|row| self.table.row(row)[1]);
        let in_slots = kinds.zip(slots).filter(|(kind, _)| *kind != 0);
        let mut held: Vec<u32> = in_slots.filter_map(|(_, word)| u32::try_from(*word).ok()).collect();
        held.sort_unstable();
        held.dedup();
        held
    }

    /// What a thread that waits at this node offers, in the order of its branches.
    pub fn offers(&self, node: u32, slots: &[i32]) -> Vec<Offer> {
        let rows = self.nodes[node as usize].branches.clone().map(|row| self.table.row(row));
        rows.zip(0..)
            .filter(|(branch, _)| is_open(branch, slots))
            .filter_map(|(branch, number)| {
                let direction = match branch[4] {
                    SEND => Direction::Send,
                    RECEIVE => Direction::Receive,
                    _ => return None,
                };
                let channel = u32::try_from(slots[count(branch[5])]).ok()?;
                Some(Offer { branch: number, direction, channel })
            })
            .collect()
    }
}

/// Whether the guard of a branch is true.
fn is_open(branch: &Row, slots: &[i32]) -> bool {
    let [_, guard, first, second, ..] = *branch;
    let other = if guard < 3 { i32::from(second) } else { slots[count(second)] };
    match guard {
        0 => true,
        1 | 3 => slots[count(first)] == other,
        _ => slots[count(first)] < other,
    }
}

/// A number of a loaded table that is a count or a place, and so not negative.
fn count(number: i16) -> usize {
    usize::from(number.unsigned_abs())
}
