//! What each field of a line is called, what stands there, and the range of its number.

use std::ops::RangeInclusive;

use pithread::{Row, FIELDS};

use crate::layout::{Layout, Place, CALL, CHOICE, END};

/// The actions that have a rule of their own.
pub(crate) const SEND: i16 = 1;
pub(crate) const RECEIVE: i16 = 2;
pub(crate) const NEW: i16 = 3;
pub(crate) const SPAWN: i16 = 4;
pub(crate) const SET: i16 = 5;

/// What the number of a field is.
#[derive(Clone, Copy, Debug, PartialEq, Eq)]
pub enum Use {
    /// It tells one thing from others: the kind of a line or a node, a guard, an action.
    Choice,
    /// How many there are of something.
    Count,
    /// A type.
    Type,
    /// A definition.
    Definition,
    /// A node of the same definition.
    Node,
    /// A slot that is read.
    Read,
    /// A slot that is written.
    Write,
    /// Any number.
    Constant,
    /// It has no use and is 0.
    Unused,
    /// Nobody can say: the number that would tell is wrong itself.
    Unknown,
}

/// One field of a line.
#[derive(Clone, Debug, PartialEq, Eq)]
pub struct Field {
    /// What it is called.
    pub name: &'static str,
    /// What its number is.
    pub usage: Use,
    /// The numbers that may stand there; none if the range is empty.
    pub range: RangeInclusive<i16>,
}

const ANY: RangeInclusive<i16> = i16::MIN..=i16::MAX;

impl Field {
    fn new(name: &'static str, usage: Use, range: RangeInclusive<i16>) -> Field {
        Field { name, usage, range }
    }

    fn unused() -> Field {
        Field::new("which has no use here", Use::Unused, 0..=0)
    }

    fn unknown() -> Field {
        Field::new("a field", Use::Unknown, ANY)
    }

    fn constant(name: &'static str) -> Field {
        Field::new(name, Use::Constant, ANY)
    }
}

/// The twelve fields of a line, as its place and its own numbers make them.
pub fn fields_of(row: &Row, place: Place, layout: &Layout) -> [Field; FIELDS] {
    let mut fields = vec![Field::new("the kind of the line", Use::Choice, row[0]..=row[0])];
    match place {
        Place::Header => fields.extend(header()),
        Place::Type(_) => fields.push(named_type("the type that its channels carry", layout)),
        Place::Definition(_) => fields.extend(definition(row)),
        Place::Slot { .. } => fields.push(named_type("the type of the slot", layout)),
        Place::Node { definition, .. } => fields.extend(node(row, definition, layout)),
        Place::Branch { definition, node, .. } => fields.extend(branch(row, definition, node, layout)),
        Place::Nowhere => fields.resize(FIELDS, Field::unknown()),
    }
    let mut fields = fields.into_iter();
    std::array::from_fn(|_| fields.next().unwrap_or_else(Field::unused))
}

/// The counts of the header, its fields 2 to 7.
pub(crate) fn header() -> [Field; 6] {
    [
        Field::new("the count of types", Use::Count, 0..=16),
        Field::new("the count of definitions", Use::Count, 1..=16),
        Field::new("the count of slots", Use::Count, 0..=256),
        Field::new("the count of nodes", Use::Count, 1..=192),
        Field::new("the count of branches", Use::Count, 0..=384),
        Field::new("the count of ports", Use::Count, 0..=8),
    ]
}

fn named_type(name: &'static str, layout: &Layout) -> Field {
    Field::new(name, Use::Type, 0..=small(layout.types()))
}

fn definition(row: &Row) -> [Field; 3] {
    [
        Field::new("the count of parameters", Use::Count, 0..=8),
        Field::new("the count of slots", Use::Count, row[1].clamp(0, 8)..=16),
        Field::new("the count of nodes", Use::Count, 1..=192),
    ]
}

fn node(row: &Row, definition: usize, layout: &Layout) -> Vec<Field> {
    let mut fields = vec![Field::new("the kind of the node", Use::Choice, 0..=2)];
    match row[1] {
        END => {}
        CHOICE => fields.push(Field::new("the count of branches", Use::Count, 1..=8)),
        CALL => {
            let last = small(layout.definitions().len()) - 1;
            fields.push(Field::new("the definition called", Use::Definition, 0..=last));
            match layout.definition(row[2]) {
                Some(called) => {
                    fields.resize(2 + called.parameters, slot("an argument", Use::Read, definition, layout))
                }
                None => fields.resize(FIELDS - 1, Field::unknown()),
            }
        }
        _ => fields.resize(FIELDS - 1, Field::unknown()),
    }
    fields
}

fn slot(name: &'static str, usage: Use, definition: usize, layout: &Layout) -> Field {
    let slots = layout.definitions().get(definition).map_or(0, |definition| definition.slots.len());
    Field::new(name, usage, 0..=small(slots) - 1)
}

fn branch(row: &Row, definition: usize, node: usize, layout: &Layout) -> Vec<Field> {
    let slot = |name, usage| slot(name, usage, definition, layout);
    let mut fields = vec![Field::new("the guard", Use::Choice, 0..=4)];
    fields.extend(match row[1] {
        0 => [Field::unused(), Field::unused()],
        1 | 2 => [slot("the guard's slot", Use::Read), Field::constant("the guard's constant")],
        3 | 4 => [slot("the guard's first slot", Use::Read), slot("the guard's second slot", Use::Read)],
        _ => [Field::unknown(), Field::unknown()],
    });
    fields.push(Field::new("the action", Use::Choice, 0..=7));
    fields.extend(operands(row[4], slot));
    let nodes = layout.definitions().get(definition).map_or(0, |definition| definition.nodes);
    let ahead = small(node) + 1..=small(nodes) - 1;
    fields.push(Field::new("the next node", Use::Node, ahead.clone()));
    fields.push(match row[4] {
        SPAWN => Field::new("the child's node", Use::Node, ahead),
        0..=7 => Field::unused(),
        _ => Field::unknown(),
    });
    fields
}

/// The operands a, b and c of an action.
fn operands(action: i16, slot: impl Fn(&'static str, Use) -> Field) -> [Field; 3] {
    let none = Field::unused;
    match action {
        0 | SPAWN => [none(), none(), none()],
        SEND => [
            slot("a, the slot of the channel", Use::Read),
            slot("b, the slot of the value", Use::Read),
            none(),
        ],
        RECEIVE => [
            slot("a, the slot of the channel", Use::Read),
            slot("b, the slot for the value", Use::Write),
            none(),
        ],
        NEW => [slot("a, the slot for the channel", Use::Write), none(), none()],
        SET => [slot("a, the slot that is set", Use::Write), Field::constant("b, the constant"), none()],
        6 | 7 => {
            let to = slot("a, the slot for the number", Use::Write);
            [to, slot("b, a slot", Use::Read), slot("c, a slot", Use::Read)]
        }
        _ => [Field::unknown(), Field::unknown(), Field::unknown()],
    }
}

/// A count of lines, which fits: a place among more of them is none.
fn small(count: usize) -> i16 {
    i16::try_from(count).unwrap_or(i16::MAX)
}
