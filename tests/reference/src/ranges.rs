//! Ground 4: each field in its own range, and fields without a use 0.

use crate::operands::{action, arguments, of_action, of_guard, Operands, Use, SPAWN};
use crate::program::{Definition, Node, Program};
use crate::sections::Sections;
use crate::{Refusal, Row};

const GROUND: i32 = 4;

/// Header, types, definitions and slots.
pub fn declarations(sections: &Sections) -> Result<(), Refusal> {
    let types = sections.header.rows[0][1];
    let names_type = |row: &Row| (0..=types).contains(&row[1]) && unused(&row[2..]);
    sections.header.each(GROUND, |row| unused(&row[7..]))?;
    sections.types.each(GROUND, names_type)?;
    sections.definitions.each(GROUND, definition)?;
    sections.slots.each(GROUND, names_type)
}

fn unused(fields: &[i16]) -> bool {
    fields.iter().all(|field| *field == 0)
}

fn definition(row: &Row) -> bool {
    (0..=8).contains(&row[1])
        && (row[1]..=16).contains(&row[2])
        && (1..=192).contains(&row[3])
        && unused(&row[4..])
}

pub fn nodes(program: &Program) -> Result<(), Refusal> {
    program.each_node(GROUND, |node| match node.row[1] {
        0 => unused(&node.row[2..]),
        1 => (1..=8).contains(&node.row[2]) && unused(&node.row[3..]),
        2 => call(program, node),
        _ => false,
    })
}

fn call(program: &Program, node: &Node) -> bool {
    program.called(node.row).is_some_and(|called| {
        let slots = arguments(node.row, called);
        slots.iter().all(|slot| node.definition.has_slot(*slot)) && unused(&node.row[3 + slots.len()..])
    })
}

pub fn branches(program: &Program) -> Result<(), Refusal> {
    program.each_branch(GROUND, |node, row| {
        operands(of_guard(row), node.definition)
            && operands(of_action(row), node.definition)
            && target(node, row[8])
            && (if action(row) == SPAWN { target(node, row[9]) } else { row[9] == 0 })
            && unused(&row[10..])
    })
}

fn operands(operands: Option<Operands>, definition: &Definition) -> bool {
    operands.is_some_and(|operands| {
        operands.all(|usage, value| match usage {
            Use::Unused => value == 0,
            Use::Constant => true,
            Use::Read | Use::Write => definition.has_slot(value),
        })
    })
}

/// Whether a branch of this node may lead to the node of that number.
fn target(node: &Node, number: i16) -> bool {
    usize::try_from(number).is_ok_and(|number| node.number < number && number < node.definition.nodes.len())
}
