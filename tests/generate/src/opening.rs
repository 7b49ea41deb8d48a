//! Definition 0 of a lively file: it makes channels and threads and hands over to the others.

use crate::code::Place;
use crate::file::Row;
use crate::profile::Opening;
use crate::valid::{row, small, Definition, Maker, Shape, MOST_PARAMETERS};

/// The types above these stand in no parameter, so that a definition has room for all below.
const MOST_HANDED: usize = 4;

impl Maker<'_> {
    /// The opening and the definitions behind it. Each of these has parameters of every type that is
    /// handed over at all, so that each can call any other.
    pub fn make_opened(&mut self, opening: &Opening) -> Vec<Definition> {
        let handed: Vec<usize> = (0..=self.size.types.min(MOST_HANDED)).collect();
        let mut definitions = vec![self.make_opening(opening, &handed)];
        for shape in self.make_shapes(vec![handed.len(); self.size.definitions]) {
            definitions.push(self.make_worker(&handed, &shape));
        }
        definitions
    }

    /// Nodes that write one slot each, nodes that spawn, and a call for each thread then.
    fn make_opening(&mut self, opening: &Opening, handed: &[usize]) -> Definition {
        let ports = self.size.ports;
        let more = self.random.within(opening.slots.clone()).max(handed.len());
        let children = self.random.within(opening.children.clone());
        let mut slots = vec![1; ports];
        slots.extend(handed);
        slots.extend((handed.len()..more).map(|_| self.random.pick(handed)));
        let mut branches = vec![1; more + children];
        branches.resize(more + 2 * children + 1, 0);
        Definition { parameters: ports, slots, branches }
    }

    fn make_worker(&mut self, handed: &[usize], shape: &Shape) -> Definition {
        let most = shape.slots.min(MOST_PARAMETERS);
        let parameters = self.random.within(handed.len()..=most);
        let mut slots = handed.to_vec();
        slots.extend((handed.len()..parameters).map(|_| self.random.pick(handed)));
        self.random.shuffle(&mut slots);
        slots.extend((parameters..shape.slots).map(|_| self.make_slot()));
        Definition { parameters, slots, branches: self.make_branch_counts(shape) }
    }

    pub fn make_opening_code(&mut self, all: &[Definition], nodes: &mut Vec<Row>, branches: &mut Vec<Row>) {
        let opening = &all[0];
        let calls = opening.branches.iter().filter(|count| **count == 0).count();
        let chain = opening.branches.len() - calls;
        let written = opening.slots.len() - opening.parameters;
        nodes.extend((0..chain).map(|_| row(&[5, 1, 1])));
        branches.extend((0..written).map(|node| self.make_write(opening, node)));
        for node in written..chain {
            let child = small(chain + node - written);
            let next = if node + 1 < chain { node + 1 } else { opening.branches.len() - 1 };
            branches.push([6, 0, 0, 0, 4, 0, 0, 0, small(next), child, 0, 0]);
        }
        let place = Place { definition: opening, node: chain, written: u16::MAX, actions: &[] };
        nodes.extend((0..calls).map(|_| self.make_call(all, &place).unwrap_or_else(|| row(&[5, 0]))));
    }

    /// The branch of a node that writes one slot behind the ports and goes on at the next node.
    fn make_write(&mut self, opening: &Definition, node: usize) -> Row {
        let slot = opening.parameters + node;
        let (action, constant) = match opening.slots[slot] {
            0 => (5, self.make_constant()),
            _ => (3, 0),
        };
        [6, 0, 0, 0, action, small(slot), constant, 0, small(node + 1), 0, 0, 0]
    }
}
