//! What a line says, in plain words.

use std::fmt::Display;

use pithread::Row;

use crate::fields::{NEW, RECEIVE, SEND, SET, SPAWN};
use crate::layout::{Layout, Place, CALL, CHOICE, END};

impl Layout<'_> {
    /// A line, counted from 1, in plain words.
    ///
    /// ```
    /// use reader::Layout;
    ///
    /// let rows = [[6, 2, 1, 10, 0, 0, 0, 0, 3, 0, 0, 0]];
    /// assert_eq!(Layout::of(&rows).words(1), "a branch of no node: if slot 1 is below 10, do nothing, then node 3");
    /// ```
    pub fn words(&self, line: usize) -> String {
        let Some(row) = self.row(line) else { return format!("line {line}: there is none") };
        let name = self.name(line);
        match row[0] {
            1 => format!("{name}: {}", counts(&row[1..7])),
            2 => format!("{name}: {}", carries(row[1])),
            3 => format!(
                "{name}: {}, {}, {}",
                counted(row[1], "parameter"),
                counted(row[2], "slot"),
                counted(row[3], "node")
            ),
            4 => format!("{name}: {}", self.type_words(row[1])),
            5 => format!("{name}: {}", self.node_words(row)),
            6 => format!("{name}: {}", branch_words(row)),
            kind => format!("a line of kind {kind}, and there is no such kind"),
        }
    }

    /// What a line is about: "node 3 of definition 1". With one definition only, this is not named.
    pub fn name(&self, line: usize) -> String {
        match self.place(line) {
            Place::Header => "header".to_owned(),
            Place::Type(number) => format!("type {number}"),
            Place::Definition(number) => format!("definition {number}"),
            Place::Slot { definition, number } => {
                format!("slot {number}{}{}", self.inside(definition), self.role(definition, number))
            }
            Place::Node { definition, number } => format!("node {number}{}", self.inside(definition)),
            Place::Branch { definition, node, number } => {
                format!("branch {number} of node {node}{}", self.inside(definition))
            }
            Place::Nowhere => self.stray(line).to_owned(),
        }
    }

    fn stray(&self, line: usize) -> &'static str {
        match self.row(line).map(|row| row[0]) {
            Some(4) => "a slot of no definition",
            Some(5) => "a node of no definition",
            Some(6) => "a branch of no node",
            _ => "a line of no kind",
        }
    }

    /// " of definition 2", or nothing if there is but one.
    pub(crate) fn inside(&self, definition: usize) -> String {
        match self.definitions().len() {
            0 | 1 => String::new(),
            _ => format!(" of definition {definition}"),
        }
    }

    /// What a slot is apart from being one.
    fn role(&self, definition: usize, slot: usize) -> String {
        let parameter =
            self.definitions().get(definition).is_some_and(|definition| slot < definition.parameters);
        match (parameter, definition) {
            (false, _) => String::new(),
            (true, 0) => format!(", port {slot}"),
            (true, _) => ", a parameter".to_owned(),
        }
    }

    /// A type with what it stands for: "type 0, numbers".
    pub fn type_words(&self, named: i16) -> String {
        match (named, self.carried(named)) {
            (0, _) => "type 0, numbers".to_owned(),
            (_, Some(0)) => format!("type {named}, channels that carry numbers"),
            (_, Some(carried)) => format!("type {named}, channels that carry type {carried}"),
            (_, None) => format!("type {named}, and there is no such type"),
        }
    }

    fn node_words(&self, row: &Row) -> String {
        match row[1] {
            END => "an end".to_owned(),
            CHOICE => format!("a choice with {}", counted(row[2], "branch")),
            CALL => format!("a call of definition {}{}", row[2], with_slots(self.arguments(row))),
            kind => format!("a node of kind {kind}, and there is no such kind"),
        }
    }
}

fn with_slots(arguments: &[i16]) -> String {
    match arguments {
        [] => String::new(),
        [slot] => format!(" with slot {slot}"),
        slots => format!(" with slots {}", listed(slots)),
    }
}

/// "1, 2 and 3".
pub(crate) fn listed<T: Display>(items: &[T]) -> String {
    match items {
        [] => String::new(),
        [item] => item.to_string(),
        [first @ .., last] => {
            let first: Vec<String> = first.iter().map(T::to_string).collect();
            format!("{} and {last}", first.join(", "))
        }
    }
}

/// "1 node", "2 nodes".
pub(crate) fn counted(number: impl Display, name: &str) -> String {
    match number.to_string().as_str() {
        "1" => format!("1 {name}"),
        number => format!("{number} {}", many(name)),
    }
}

/// The name of something of which there are several.
pub(crate) fn many(name: &str) -> String {
    match name {
        "branch" => "branches".to_owned(),
        _ => format!("{name}s"),
    }
}

fn counts(counts: &[i16]) -> String {
    let names = ["type", "definition", "slot", "node", "branch", "port"];
    let counts: Vec<String> = counts.iter().zip(names).map(|(count, name)| counted(*count, name)).collect();
    counts.join(", ")
}

fn carries(named: i16) -> String {
    match named {
        0 => "its channels carry numbers".to_owned(),
        _ => format!("its channels carry channels of type {named}"),
    }
}

/// A branch without its name: its guard if it has one, its action, and where it goes.
fn branch_words(row: &Row) -> String {
    let next = row[8];
    match guard_words(row) {
        Some(guard) => format!("{guard}, {}, then node {next}", action_words(row)),
        None => format!("{}, then node {next}", action_words(row)),
    }
}

/// The guard of a branch, unless it is always true.
pub(crate) fn guard_words(row: &Row) -> Option<String> {
    let [_, guard, first, second, ..] = row;
    Some(match guard {
        0 => return None,
        1 => format!("if slot {first} is {second}"),
        2 => format!("if slot {first} is below {second}"),
        3 => format!("if slot {first} and slot {second} have the same number"),
        4 => format!("if slot {first} is below slot {second}"),
        _ => format!("guard {guard}, and there is no such guard"),
    })
}

/// The action of a branch.
pub(crate) fn action_words(row: &Row) -> String {
    let [_, _, _, _, action, a, b, c, _, child, ..] = row;
    match *action {
        0 => "do nothing".to_owned(),
        SEND => format!("send on slot {a} what slot {b} has"),
        RECEIVE => format!("receive on slot {a} into slot {b}"),
        NEW => format!("slot {a} becomes a new channel"),
        SPAWN => format!("a thread starts at node {child}"),
        SET => format!("set slot {a} to {b}"),
        6 => format!("slot {a} becomes slot {b} plus slot {c}"),
        7 => format!("slot {a} becomes slot {b} minus slot {c}"),
        _ => format!("action {action}, and there is no such action"),
    }
}
