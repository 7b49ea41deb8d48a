//! The definitions with the slots, nodes and branches that belong to each.
//!
//! Made once the header, the types, the definitions and the slots are known to be in range.

use std::iter::repeat_n;

use crate::sections::{count, Section, Sections};
use crate::{Refusal, Row};

const MOST_DEFINITIONS: usize = 16;

#[derive(Clone, Copy, Default)]
pub struct Definition<'a> {
    pub parameters: usize,
    pub slots: &'a [Row],
    pub nodes: &'a [Row],
    /// Where its first node stands among the nodes of the whole file.
    pub first_node: usize,
}

impl Definition<'_> {
    pub fn has_slot(&self, slot: i16) -> bool {
        usize::try_from(slot).is_ok_and(|slot| slot < self.slots.len())
    }

    /// The type of a slot that the definition has.
    pub fn slot_type(&self, slot: i16) -> i16 {
        self.slots[count(slot)][1]
    }
}

/// A node and the definition that it belongs to.
#[derive(Clone, Copy)]
pub struct Node<'a> {
    pub definition: &'a Definition<'a>,
    /// Its number inside the definition.
    pub number: usize,
    pub row: &'a Row,
}

impl Node<'_> {
    /// Where it stands among the nodes of the whole file.
    pub fn place(&self) -> usize {
        self.definition.first_node + self.number
    }

    pub fn is_choice(&self) -> bool {
        self.row[1] == 1
    }

    pub fn is_call(&self) -> bool {
        self.row[1] == 2
    }
}

pub struct Program<'a> {
    pub types: &'a [Row],
    pub ports: usize,
    definitions: [Definition<'a>; MOST_DEFINITIONS],
    definition_lines: Section<'a>,
    node_lines: Section<'a>,
    branch_lines: Section<'a>,
}

impl<'a> Program<'a> {
    pub fn new(sections: &Sections<'a>) -> Program<'a> {
        let mut program = Program {
            types: sections.types.rows,
            ports: sections.ports(),
            definitions: [Definition::default(); MOST_DEFINITIONS],
            definition_lines: sections.definitions,
            node_lines: sections.nodes,
            branch_lines: sections.branches,
        };
        let (mut slots, mut nodes) = (sections.slots.rows, sections.nodes.rows);
        let mut first_node = 0;
        for (definition, row) in program.definitions.iter_mut().zip(sections.definitions.rows) {
            definition.parameters = count(row[1]);
            (definition.slots, slots) = slots.split_at(count(row[2]));
            (definition.nodes, nodes) = nodes.split_at(count(row[3]));
            definition.first_node = first_node;
            first_node += definition.nodes.len();
        }
        program
    }

    pub fn definitions(&self) -> &[Definition<'a>] {
        &self.definitions[..self.definition_lines.rows.len()]
    }

    /// The definition that a call node names, if there is one of that number.
    pub fn called(&self, call: &Row) -> Option<&Definition<'a>> {
        let number = usize::try_from(call[2]).ok()?;
        self.definitions().get(number)
    }

    pub fn first_definition_line(&self) -> usize {
        self.definition_lines.line(0)
    }

    /// All nodes, in the order of their lines.
    pub fn nodes(&self) -> impl Iterator<Item = Node<'_>> {
        self.definitions().iter().flat_map(|definition| {
            let rows = definition.nodes.iter().enumerate();
            rows.map(move |(number, row)| Node { definition, number, row })
        })
    }

    /// Refuses the first node that fails the test.
    pub fn each_node(&self, ground: i32, test: impl Fn(&Node) -> bool) -> Result<(), Refusal> {
        match self.nodes().find(|node| !test(node)) {
            Some(node) => Err(Refusal::new(ground, self.node_lines.line(node.place()))),
            None => Ok(()),
        }
    }

    /// All branches, in the order of their lines, each with its node. The nodes must be in range.
    pub fn branches(&self) -> impl Iterator<Item = (Node<'_>, &'a Row)> {
        let choices = self.nodes().filter(Node::is_choice);
        let owners = choices.flat_map(|node| repeat_n(node, count(node.row[2])));
        owners.zip(self.branch_lines.rows)
    }

    /// Refuses the first branch that fails the test.
    pub fn each_branch(&self, ground: i32, test: impl Fn(&Node, &Row) -> bool) -> Result<(), Refusal> {
        match self.branches().position(|(node, row)| !test(&node, row)) {
            Some(index) => Err(Refusal::new(ground, self.branch_lines.line(index))),
            None => Ok(()),
        }
    }
}
