//! Ground 5: the rule of the ports, and the types of arguments and operands.

use pithread::{Refusal, Row};

use super::ranges::in_range;
use super::Finding;
use crate::fields::{fields_of, Use, NEW, RECEIVE, SEND};
use crate::layout::{Definition, Layout, Place, CALL};
use crate::words::counted;

/// What has a wrong type. Lines with a number out of its range are passed over.
pub fn faults(layout: &Layout) -> Vec<Finding> {
    let mut found: Vec<Finding> = ports(layout).into_iter().collect();
    for (line, place, row) in layout.lines() {
        let Some((number, definition)) = owner(layout, place) else { continue };
        if in_range(layout, place, row) {
            let check = Check { layout, line: line as u32, number, definition, row };
            found.extend(check.faults(place));
        }
    }
    found
}

fn owner<'a>(layout: &'a Layout, place: Place) -> Option<(usize, &'a Definition)> {
    match place {
        Place::Node { definition: number, .. } | Place::Branch { definition: number, .. } => {
            layout.definitions().get(number).map(|definition| (number, definition))
        }
        _ => None,
    }
}

/// The rule of the ports. Whatever breaks it, the line is that of definition 0.
fn ports(layout: &Layout) -> Option<Finding> {
    let ports = layout.row(1)?[6];
    let first = layout.definitions().first()?;
    let line = layout.line_at(Place::Definition(0))? as u32;
    let finding =
        |field, wrong, expected: &str| Some(Finding::new(Refusal::Types { line }, field, wrong, expected));
    let parameters = counted(first.parameters as i16, "parameter");
    if first.parameters as i16 != ports {
        let wrong = format!("definition 0 has {parameters}, and the header says {}", counted(ports, "port"));
        return finding(Some(2), wrong, "a parameter of definition 0 for each port, and no others");
    }
    let other = first.slots.iter().take(first.parameters).position(|named| *named != 1);
    if let Some(slot) = other {
        let wrong = format!(
            "slot {slot} of definition 0, for port {slot}, is of {}",
            layout.type_words(first.slots[slot])
        );
        return finding(None, wrong, "type 1, channels that carry numbers")
            .map(|finding| finding.with_notes(type_line(layout, 0, slot)));
    }
    match layout.carried(1) {
        Some(0) => None,
        _ if ports == 0 => None,
        Some(carried) => {
            finding(None, format!("type 1, that of the ports, carries type {carried}"), "0, numbers")
                .map(|finding| finding.with_notes(vec!["line 2 says what type 1 carries".to_owned()]))
        }
        None => finding(None, "there is no type 1 for the ports".to_owned(), "a type that carries numbers"),
    }
}

/// Where the type of a slot is said.
fn type_line(layout: &Layout, definition: usize, number: usize) -> Vec<String> {
    let line = layout.line_at(Place::Slot { definition, number });
    line.map(|line| format!("line {line} says the type of slot {number}")).into_iter().collect()
}

/// A line of a node or a branch, all of whose numbers are in range.
struct Check<'a> {
    layout: &'a Layout<'a>,
    line: u32,
    /// The number of its definition.
    number: usize,
    definition: &'a Definition,
    row: &'a Row,
}

impl Check<'_> {
    fn faults(&self, place: Place) -> Vec<Finding> {
        match place {
            Place::Node { .. } if self.row[1] == CALL => self.arguments(),
            Place::Branch { .. } => self.operands(place),
            _ => Vec::new(),
        }
    }

    fn type_of(&self, slot: i16) -> i16 {
        usize::try_from(slot).ok().and_then(|slot| self.definition.slots.get(slot)).copied().unwrap_or(0)
    }

    /// A finding with both types: that of the slot in a field, and the one that fits.
    fn fault(&self, field: usize, name: &str, expected: String) -> Finding {
        let slot = self.row[field - 1];
        let wrong = format!(
            "field {field}, {name}: slot {slot} is of {}",
            self.layout.type_words(self.type_of(slot))
        );
        let finding = Finding::new(Refusal::Types { line: self.line }, Some(field), wrong, expected);
        finding.with_notes(type_line(self.layout, self.number, usize::from(slot.unsigned_abs())))
    }

    fn arguments(&self) -> Vec<Finding> {
        let Some(called) = self.layout.definition(self.row[2]) else { return Vec::new() };
        let arguments = (0..).zip(self.layout.arguments(self.row)).zip(&called.slots);
        let other = arguments.filter(|((_, slot), wanted)| self.type_of(**slot) != **wanted);
        other
            .map(|((place, _), wanted)| {
                let (wanted, called) = (self.layout.type_words(*wanted), self.row[2]);
                let expected = format!("{wanted}, as parameter {place} of definition {called} is");
                self.fault(4 + place, "an argument", expected)
            })
            .collect()
    }

    fn operands(&self, place: Place) -> Vec<Finding> {
        let fields = fields_of(self.row, place, self.layout);
        let is_slot = |field: usize| matches!(fields[field - 1].usage, Use::Read | Use::Write);
        let number = |field: usize| self.type_of(self.row[field - 1]) == 0;
        let name = |field: usize| fields[field - 1].name;
        let no_numbers = |mut range: std::ops::RangeInclusive<usize>| -> Vec<Finding> {
            let fault = |field| self.fault(field, name(field), self.layout.type_words(0));
            range.by_ref().filter(|field| is_slot(*field) && !number(*field)).map(fault).collect()
        };
        let mut found = no_numbers(3..=4);
        match self.row[4] {
            SEND | RECEIVE | NEW if number(6) => {
                found.push(self.fault(6, name(6), "a slot for channels".to_owned()))
            }
            SEND | RECEIVE => found.extend(self.value(name(7))),
            NEW => {}
            _ => found.extend(no_numbers(6..=8)),
        }
        found
    }

    /// The value of a send or a receive, whose channel has the type of channels.
    fn value(&self, name: &str) -> Option<Finding> {
        let channel = self.type_of(self.row[5]);
        let carried = self.layout.carried(channel)?;
        let expected =
            format!("{}, which the channels of slot {} carry", self.layout.type_words(carried), self.row[5]);
        (self.type_of(self.row[6]) != carried).then(|| self.fault(7, name, expected))
    }
}
