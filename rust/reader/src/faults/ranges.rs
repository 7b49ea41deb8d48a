//! Ground 4: each number in its range, and fields without a use 0.

use std::ops::RangeInclusive;

use pithread::{Refusal, Row};

use super::Finding;
use crate::fields::{fields_of, Field, Use};
use crate::layout::{Layout, Place, CHOICE};

/// Header, types, definitions and slots.
pub fn declarations(layout: &Layout) -> Vec<Finding> {
    of_places(layout, |place| !matches!(place, Place::Node { .. } | Place::Branch { .. }))
}

/// The nodes. All declarations must have been found right.
pub fn nodes(layout: &Layout) -> Vec<Finding> {
    of_places(layout, |place| matches!(place, Place::Node { .. }))
}

/// The branches. All declarations must have been found right, and the counts of the choices.
pub fn branches(layout: &Layout) -> Vec<Finding> {
    of_places(layout, |place| matches!(place, Place::Branch { .. }))
}

/// Whether every choice has as many branches as it may, so that each branch has its node.
pub fn choices_in_range(layout: &Layout) -> bool {
    layout.lines().all(|(_, place, row)| {
        !matches!(place, Place::Node { .. }) || row[1] != CHOICE || (1..=8).contains(&row[2])
    })
}

/// Whether all numbers of a line are in range.
pub fn in_range(layout: &Layout, place: Place, row: &Row) -> bool {
    fields_of(row, place, layout).iter().zip(row).all(|(field, number)| field.range.contains(number))
}

fn of_places(layout: &Layout, wanted: fn(Place) -> bool) -> Vec<Finding> {
    let lines = layout.lines().filter(|(_, place, _)| wanted(*place));
    lines.flat_map(|(line, place, row)| of_line(layout, line, place, row)).collect()
}

fn of_line(layout: &Layout, line: usize, place: Place, row: &Row) -> Vec<Finding> {
    let fields = (1..).zip(fields_of(row, place, layout)).zip(row);
    let outside = fields.filter(|((_, field), number)| !field.range.contains(number));
    outside
        .map(|((number, field), value)| {
            let wrong = format!("field {number}, {}, is {value}", field.name);
            Finding::new(
                Refusal::Range { line: line as u32 },
                Some(number),
                wrong,
                expected(&field, place, layout),
            )
        })
        .collect()
}

/// What may stand in a field.
fn expected(field: &Field, place: Place, layout: &Layout) -> String {
    let range = &field.range;
    match (field.usage, place) {
        (Use::Unused, _) => "0".to_owned(),
        (Use::Type, _) if layout.types() == 0 => "0, since the file has no types of channels".to_owned(),
        (Use::Type, _) => format!("a type, {}", range_words(range)),
        (Use::Definition, _) => format!("a definition, {}", range_words(range)),
        (Use::Read | Use::Write, Place::Node { definition, .. } | Place::Branch { definition, .. }) => {
            match range.is_empty() {
                true => format!("a slot, but definition {definition} has none"),
                false => format!("a slot of definition {definition}, {}", range_words(range)),
            }
        }
        (Use::Node, Place::Branch { definition, node, .. }) => match range.is_empty() {
            true => format!("a node behind node {node}, but this is the last of definition {definition}"),
            false => format!("a node of definition {definition} behind node {node}, {}", range_words(range)),
        },
        _ => format!("a number {}", range_words(range)),
    }
}

fn range_words(range: &RangeInclusive<i16>) -> String {
    match range.start() == range.end() {
        true => format!("and the only one is {}", range.start()),
        false => format!("from {} to {}", range.start(), range.end()),
    }
}
