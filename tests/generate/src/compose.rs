//! Right files written out by hand: definitions with their nodes and branches.

use crate::file::{padded, File, Row};

/// A guard with its operands.
pub type Guard = [i16; 3];
/// An action with its operands.
pub type Action = [i16; 4];

pub const ALWAYS: Guard = [0, 0, 0];
pub const TAU: Action = [0, 0, 0, 0];

pub fn equal_to(slot: i16, constant: i16) -> Guard {
    [1, slot, constant]
}

pub fn below_constant(slot: i16, constant: i16) -> Guard {
    [2, slot, constant]
}

pub fn equal(one: i16, other: i16) -> Guard {
    [3, one, other]
}

pub fn below(one: i16, other: i16) -> Guard {
    [4, one, other]
}

pub fn send(channel: i16, value: i16) -> Action {
    [1, channel, value, 0]
}

pub fn receive(channel: i16, value: i16) -> Action {
    [2, channel, value, 0]
}

pub fn new(slot: i16) -> Action {
    [3, slot, 0, 0]
}

pub fn set(slot: i16, constant: i16) -> Action {
    [5, slot, constant, 0]
}

pub fn plus(slot: i16, one: i16, other: i16) -> Action {
    [6, slot, one, other]
}

pub fn minus(slot: i16, one: i16, other: i16) -> Action {
    [7, slot, one, other]
}

#[derive(Clone)]
pub enum Node {
    End,
    Call(i16, Vec<i16>),
    Choice(Vec<Row>),
}

/// A branch that is always open.
pub fn go(action: Action, next: i16) -> Row {
    when(ALWAYS, action, next)
}

pub fn when(guard: Guard, action: Action, next: i16) -> Row {
    let mut row = guarded(guard, padded(&[6]));
    row[4..8].copy_from_slice(&action);
    row[8] = next;
    row
}

/// A branch that spawns.
pub fn spawn(next: i16, child: i16) -> Row {
    let mut row = go([4, 0, 0, 0], next);
    row[9] = child;
    row
}

/// The branch with another guard.
pub fn guarded(guard: Guard, mut branch: Row) -> Row {
    branch[1..4].copy_from_slice(&guard);
    branch
}

/// A node with one branch.
pub fn one(branch: Row) -> Node {
    Node::Choice(vec![branch])
}

pub fn choice(branches: &[Row]) -> Node {
    Node::Choice(branches.to_vec())
}

pub fn call(definition: i16, arguments: &[i16]) -> Node {
    Node::Call(definition, arguments.to_vec())
}

pub struct Definition {
    pub parameters: i16,
    /// The types of its slots.
    pub slots: Vec<i16>,
    pub nodes: Vec<Node>,
}

pub fn definition(parameters: i16, slots: &[i16], nodes: Vec<Node>) -> Definition {
    Definition { parameters, slots: slots.to_vec(), nodes }
}

/// A file of these definitions; for each type, from 1, the type that it carries.
pub fn compose(carried: &[i16], ports: i16, definitions: &[Definition]) -> File {
    let mut slots = Vec::new();
    let (mut nodes, mut branches) = (Vec::new(), Vec::new());
    for definition in definitions {
        slots.extend(definition.slots.iter().map(|slot| padded(&[4, *slot])));
        for node in &definition.nodes {
            nodes.push(node_row(node));
            if let Node::Choice(own) = node {
                branches.extend_from_slice(own);
            }
        }
    }
    let counts = [carried.len(), definitions.len(), slots.len(), nodes.len(), branches.len()].map(short);
    let mut rows = vec![padded(&[&[1], &counts[..], &[ports]].concat())];
    rows.extend(carried.iter().map(|carried| padded(&[2, *carried])));
    rows.extend(definitions.iter().map(|definition| {
        padded(&[3, definition.parameters, short(definition.slots.len()), short(definition.nodes.len())])
    }));
    rows.extend([slots, nodes, branches].concat());
    File::new(rows)
}

fn node_row(node: &Node) -> Row {
    match node {
        Node::End => padded(&[5]),
        Node::Call(definition, arguments) => padded(&[&[5, 2, *definition], &arguments[..]].concat()),
        Node::Choice(branches) => padded(&[5, 1, short(branches.len())]),
    }
}

fn short(count: usize) -> i16 {
    i16::try_from(count).expect("files are small")
}
