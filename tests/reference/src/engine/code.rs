//! A table as the engine goes through it: nodes and branches numbered over the whole file.

use interface::SLOTS;

use crate::operands::{action, arguments};
use crate::program::{self, Program};
use crate::sections::count;
use crate::{check_table, no_rows, Checked, Row};

const MOST_DEFINITIONS: usize = 16;
const MOST_NODES: usize = 192;
const MOST_BRANCHES: usize = 384;
const MOST_PARAMETERS: usize = 8;

/// What a channel slot has before anything is written to it.
pub const NO_CHANNEL: i32 = -1;

/// The words of a thread's slots.
pub type Slots = [i32; SLOTS];

#[derive(Clone, Copy, Default)]
pub struct Definition {
    pub first_node: usize,
    pub slots: usize,
    /// The slots that hold channels, one bit for each.
    pub channels: u16,
    /// For each slot its type.
    pub types: [i32; SLOTS],
    /// The slots before anything is written.
    pub unwritten: Slots,
}

#[derive(Clone, Copy)]
pub enum Kind {
    End,
    Choice { first: u16, end: u16 },
    Call { called: u8, parameters: u8, arguments: [u8; MOST_PARAMETERS] },
}

#[derive(Clone, Copy)]
pub struct Node {
    pub kind: Kind,
    definition: u8,
    /// The slots that are surely written here, one bit for each.
    pub written: u16,
}

#[derive(Clone, Copy)]
pub enum Guard {
    Always,
    EqualTo { slot: u8, constant: i32 },
    BelowConstant { slot: u8, constant: i32 },
    Equal { one: u8, other: u8 },
    Below { one: u8, other: u8 },
}

/// The two ways of an exchange over a channel.
#[derive(Clone, Copy, PartialEq, Eq)]
pub enum Direction {
    Send,
    Receive,
}

impl Direction {
    pub fn opposite(self) -> Direction {
        match self {
            Direction::Send => Direction::Receive,
            Direction::Receive => Direction::Send,
        }
    }
}

/// What a thread does or offers over a channel: the slots of the channel and of the value.
#[derive(Clone, Copy)]
pub struct Exchange {
    pub direction: Direction,
    pub channel: u8,
    pub value: u8,
}

#[derive(Clone, Copy)]
pub enum Action {
    Tau,
    Exchange(Exchange),
    New { slot: u8 },
    Spawn { child: u16 },
    Set { slot: u8, constant: i32 },
    Plus { slot: u8, one: u8, other: u8 },
    Minus { slot: u8, one: u8, other: u8 },
}

#[derive(Clone, Copy)]
pub struct Branch {
    pub guard: Guard,
    pub action: Action,
    pub next: u16,
}

const NO_NODE: Node = Node { kind: Kind::End, definition: 0, written: 0 };
const NO_BRANCH: Branch = Branch { guard: Guard::Always, action: Action::Tau, next: 0 };

pub struct Code {
    pub ports: usize,
    pub types: usize,
    /// How many nodes the file has.
    pub length: usize,
    definitions: [Definition; MOST_DEFINITIONS],
    nodes: [Node; MOST_NODES],
    branches: [Branch; MOST_BRANCHES],
}

impl Code {
    /// Without any node.
    pub fn new() -> Code {
        Code {
            ports: 0,
            types: 0,
            length: 0,
            definitions: [Definition::default(); MOST_DEFINITIONS],
            nodes: [NO_NODE; MOST_NODES],
            branches: [NO_BRANCH; MOST_BRANCHES],
        }
    }

    /// Reads a table, which must have the right length. Nothing if no file loads to it.
    pub fn read(&mut self, table: &[u8]) -> Option<()> {
        let mut rows = no_rows();
        let Checked { program, paths } = check_table(table, &mut rows)?;
        self.ports = program.ports;
        self.types = program.types.len();
        for (number, definition) in program.definitions().iter().enumerate() {
            self.definitions[number] = read_definition(definition);
            for row in definition.nodes {
                let written = paths.written(self.length);
                let kind = read_kind(&program, row);
                self.nodes[self.length] = Node { kind, definition: number as u8, written };
                self.length += 1;
            }
        }
        self.read_branches(&program);
        Some(())
    }

    /// The branches, and for each choice where its own begin and end.
    fn read_branches(&mut self, program: &Program) {
        let mut read = 0;
        for (node, row) in program.branches() {
            self.branches[read] = read_branch(row, node.definition.first_node);
            read += 1;
            if let Kind::Choice { first, end } = &mut self.nodes[node.place()].kind {
                if *end == 0 {
                    *first = read as u16 - 1;
                }
                *end = read as u16;
            }
        }
    }

    pub fn node(&self, place: usize) -> &Node {
        &self.nodes[place]
    }

    /// The definition that a node belongs to.
    pub fn definition_at(&self, place: usize) -> &Definition {
        self.definition(self.nodes[place].definition)
    }

    pub fn definition(&self, number: u8) -> &Definition {
        &self.definitions[usize::from(number)]
    }

    /// The branches of the choice at a node; none if it is no choice.
    pub fn branches_at(&self, place: usize) -> &[Branch] {
        match self.nodes[place].kind {
            Kind::Choice { first, end } => self.branches(first, end),
            _ => &[],
        }
    }

    pub fn branches(&self, first: u16, end: u16) -> &[Branch] {
        &self.branches[usize::from(first)..usize::from(end)]
    }
}

fn read_definition(definition: &program::Definition) -> Definition {
    let mut read = Definition {
        first_node: definition.first_node,
        slots: definition.slots.len(),
        ..Definition::default()
    };
    for (slot, row) in definition.slots.iter().enumerate() {
        read.types[slot] = i32::from(row[1]);
        if row[1] != 0 {
            read.channels |= 1 << slot;
            read.unwritten[slot] = NO_CHANNEL;
        }
    }
    read
}

/// A choice does not know its branches yet.
fn read_kind(program: &Program, row: &Row) -> Kind {
    match (row[1], program.called(row)) {
        (1, _) => Kind::Choice { first: 0, end: 0 },
        (2, Some(called)) => {
            let mut slots = [0; MOST_PARAMETERS];
            for (slot, argument) in slots.iter_mut().zip(arguments(row, called)) {
                *slot = small(*argument);
            }
            Kind::Call { called: small(row[2]), parameters: called.parameters as u8, arguments: slots }
        }
        _ => Kind::End,
    }
}

fn read_branch(row: &Row, first_node: usize) -> Branch {
    let place = |number: i16| (first_node + count(number)) as u16;
    Branch { guard: read_guard(row), action: read_action(row, place(row[9])), next: place(row[8]) }
}

fn read_guard(row: &Row) -> Guard {
    let (slot, constant) = (small(row[2]), i32::from(row[3]));
    let (one, other) = (slot, small(row[3]));
    match row[1] {
        1 => Guard::EqualTo { slot, constant },
        2 => Guard::BelowConstant { slot, constant },
        3 => Guard::Equal { one, other },
        4 => Guard::Below { one, other },
        _ => Guard::Always,
    }
}

fn read_action(row: &Row, child: u16) -> Action {
    let [slot, one, other] = [small(row[5]), small(row[6]), small(row[7])];
    match action(row) {
        1 => Action::Exchange(Exchange { direction: Direction::Send, channel: slot, value: one }),
        2 => Action::Exchange(Exchange { direction: Direction::Receive, channel: slot, value: one }),
        3 => Action::New { slot },
        4 => Action::Spawn { child },
        5 => Action::Set { slot, constant: i32::from(row[6]) },
        6 => Action::Plus { slot, one, other },
        7 => Action::Minus { slot, one, other },
        _ => Action::Tau,
    }
}

/// The number of a slot or a definition. For a field that holds a constant the result means nothing.
fn small(field: i16) -> u8 {
    field as u8
}
