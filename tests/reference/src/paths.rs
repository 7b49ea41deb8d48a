//! Grounds 6 and 7: what is surely written when a node is come to, and which nodes are come to.

use crate::operands::{action, argument_slots, slots, Use, SPAWN};
use crate::program::{Node, Program};
use crate::sections::count;
use crate::{Refusal, Row};

const MOST_NODES: usize = 192;
const EVERY_SLOT: u16 = u16::MAX;

/// For each node of the file: the slots written on every path to it, one bit for each.
///
/// A node to which no path leads keeps every slot, so that no read there is a fault.
pub struct Paths {
    written: [u16; MOST_NODES],
    reached: [bool; MOST_NODES],
}

/// Answers the paths if nothing is at fault. All ranges must have been found right.
pub fn check(program: &Program) -> Result<Paths, Refusal> {
    let paths = Paths::new(program);
    program.each_node(6, |node| !node.is_call() || paths.call(program, node))?;
    program.each_branch(6, |node, row| paths.covers(node, slots(row, Use::Read)))?;
    program.each_node(7, |node| paths.reached[node.place()])?;
    Ok(paths)
}

impl Paths {
    /// Branches lead only forward, so that all is known of a node when its own branches come.
    fn new(program: &Program) -> Paths {
        let mut paths = Paths { written: [EVERY_SLOT; MOST_NODES], reached: [false; MOST_NODES] };
        for definition in program.definitions() {
            paths.arrive(definition.first_node, (1 << definition.parameters) - 1);
        }
        for (node, row) in program.branches() {
            if paths.reached[node.place()] {
                paths.follow(&node, row);
            }
        }
        paths
    }

    /// The slots that are surely written when the node at this place is come to, one bit for each.
    pub fn written(&self, place: usize) -> u16 {
        self.written[place]
    }

    fn follow(&mut self, node: &Node, row: &Row) {
        let written = self.written[node.place()] | slots(row, Use::Write);
        let first = node.definition.first_node;
        self.arrive(first + count(row[8]), written);
        if action(row) == SPAWN {
            self.arrive(first + count(row[9]), written);
        }
    }

    fn arrive(&mut self, place: usize, written: u16) {
        self.written[place] &= written;
        self.reached[place] = true;
    }

    fn call(&self, program: &Program, node: &Node) -> bool {
        program.called(node.row).is_some_and(|called| self.covers(node, argument_slots(node.row, called)))
    }

    fn covers(&self, node: &Node, read: u16) -> bool {
        read & !self.written[node.place()] == 0
    }
}
