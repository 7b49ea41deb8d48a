//! Ground 5: the rule of the ports, and the types of arguments and operands.

use crate::operands::{action, arguments, of_action, of_guard, Operands, Use, NEW, RECEIVE, SEND};
use crate::program::{Definition, Node, Program};
use crate::sections::count;
use crate::{Refusal, Row};

const GROUND: i32 = 5;
const NUMBER: i16 = 0;
const PORT: i16 = 1;

/// All ranges must have been found right.
pub fn check(program: &Program) -> Result<(), Refusal> {
    if !ports(program) {
        return Err(Refusal::new(GROUND, program.first_definition_line()));
    }
    program.each_node(GROUND, |node| !node.is_call() || call(program, node))?;
    program.each_branch(GROUND, |node, row| {
        numbers(of_guard(row), node.definition) && act(program, node.definition, row)
    })
}

fn ports(program: &Program) -> bool {
    let first = &program.definitions()[0];
    let port_type = program.types.first();
    first.parameters == program.ports
        && parameter_types(first).all(|parameter| parameter == PORT)
        && (program.ports == 0 || port_type.is_some_and(|row| row[1] == NUMBER))
}

fn parameter_types<'a>(definition: &'a Definition) -> impl Iterator<Item = i16> + 'a {
    definition.slots[..definition.parameters].iter().map(|row| row[1])
}

fn call(program: &Program, node: &Node) -> bool {
    program.called(node.row).is_some_and(|called| {
        let given = arguments(node.row, called).iter().map(|slot| node.definition.slot_type(*slot));
        given.eq(parameter_types(called))
    })
}

fn act(program: &Program, definition: &Definition, row: &Row) -> bool {
    match action(row) {
        SEND | RECEIVE => {
            carried(program, definition.slot_type(row[5])) == Some(definition.slot_type(row[6]))
        }
        NEW => definition.slot_type(row[5]) != NUMBER,
        _ => numbers(of_action(row), definition),
    }
}

/// The type that a channel of this type carries; nothing for numbers.
fn carried(program: &Program, channel: i16) -> Option<i16> {
    (channel != NUMBER).then(|| program.types[count(channel) - 1][1])
}

fn numbers(operands: Option<Operands>, definition: &Definition) -> bool {
    let number = |usage: Use, slot: i16| !usage.is_slot() || definition.slot_type(slot) == NUMBER;
    operands.is_some_and(|operands| operands.all(number))
}
