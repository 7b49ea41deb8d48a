//! What loads but is likely not meant. A remark refuses nothing.

use std::collections::BTreeSet;
use std::fmt;

use pithread::{Row, Table};

use crate::fields::{fields_of, Use, NEW, SET, SPAWN};
use crate::layout::{Layout, Place, CALL};
use crate::mark::{mark_of, Marked};
use crate::words::guard_words;

/// Something in a file that loads and is likely not meant.
#[derive(Clone, Debug, PartialEq, Eq)]
pub struct Remark {
    /// The line of the file, counted from 1.
    pub line: usize,
    /// The field, from 1 to 12, if it is one.
    pub field: Option<usize>,
    /// What is odd.
    pub kind: RemarkKind,
    /// The line in the fixed columns, with what is odd marked.
    pub marked: Marked,
    /// The line in words.
    pub words: String,
}

/// What is odd.
#[derive(Clone, Debug, PartialEq, Eq)]
pub enum RemarkKind {
    /// A branch comes behind one of its choice that always goes ahead.
    Behind {
        /// The line of that one, counted from 1.
        line: usize,
    },
    /// A call has one slot for two parameters.
    Twice {
        /// The slot.
        slot: i16,
        /// The parameters, from 0.
        parameters: [usize; 2],
    },
    /// Nothing is ever sent or received at a port, nor is it sent on.
    IdlePort {
        /// The port.
        port: usize,
    },
    /// A guard can never be true.
    NeverTrue {
        /// The guard in words.
        guard: String,
    },
}

impl fmt::Display for RemarkKind {
    fn fmt(&self, formatter: &mut fmt::Formatter) -> fmt::Result {
        match self {
            RemarkKind::Behind { line } => {
                write!(formatter, "the branch is never tried, since the one in line {line} always goes ahead")
            }
            RemarkKind::Twice { slot, parameters: [one, other] } => {
                write!(formatter, "slot {slot} is given for parameter {one} and for parameter {other}")
            }
            RemarkKind::IdlePort { port } => {
                write!(formatter, "no node uses port {port}: nothing is sent or received there")
            }
            RemarkKind::NeverTrue { guard } => write!(formatter, "the guard can never be true: {guard}"),
        }
    }
}

impl fmt::Display for Remark {
    fn fmt(&self, formatter: &mut fmt::Formatter) -> fmt::Result {
        let Remark { line, kind, marked, words, .. } = self;
        write!(formatter, "a remark on line {line}: {kind}\n{marked}\nthe line says: {words}")
    }
}

/// What is likely not meant in a file that has loaded, in the order of its lines.
///
/// ```
/// use pithread::Table;
/// use reader::{lengthen, remarks};
///
/// let file = lengthen(b"3 0 1 2\n4 0\n5 1 2\n5 0\n6  0 0 0  5 0 1 0  1\n6  0 0 0  5 0 2 0  1\n")?.text();
/// let found = remarks(&Table::load(&file)?);
/// assert_eq!(found[0].kind.to_string(), "the branch is never tried, since the one in line 6 always goes ahead");
/// # Ok::<(), Box<dyn std::error::Error>>(())
/// ```
pub fn remarks(table: &Table) -> Vec<Remark> {
    let rows: Vec<Row> = (0..table.lines()).map(|row| table.row(row)).collect();
    let layout = Layout::of(&rows);
    let used = used_parameters(&layout);
    let mut found = Vec::new();
    for (line, place, row) in layout.lines() {
        let odd = match place {
            Place::Slot { definition: 0, number } => idle_port(&layout, &used, number),
            Place::Node { .. } if row[1] == CALL => twice(layout.arguments(row)),
            Place::Branch { definition, .. } => {
                behind(&layout, line, place).or_else(|| never_true(&layout, definition, row))
            }
            _ => None,
        };
        if let Some((field, kind)) = odd {
            found.push(Remark { line, field, kind, marked: mark_of(row, field), words: layout.words(line) });
        }
    }
    found
}

type Odd = Option<(Option<usize>, RemarkKind)>;

fn twice(arguments: &[i16]) -> Odd {
    let first_of = |slot: i16| arguments.iter().position(|other| *other == slot);
    let mut numbered = arguments.iter().enumerate();
    numbered.find_map(|(parameter, slot)| {
        let first = first_of(*slot).filter(|first| *first < parameter)?;
        let kind = RemarkKind::Twice { slot: *slot, parameters: [first, parameter] };
        Some((Some(4 + parameter), kind))
    })
}

/// The branches of a choice stand one behind the other, so that those before a line are those of lower numbers.
fn behind(layout: &Layout, line: usize, place: Place) -> Odd {
    let Place::Branch { number, .. } = place else { return None };
    let before = line - number..line;
    let mut ahead = before.filter(|line| layout.row(*line).is_some_and(goes_ahead));
    ahead.next().map(|line| (None, RemarkKind::Behind { line }))
}

/// Whether a branch is taken whenever it is tried, or held up for want of a row, which ends the step as well.
fn goes_ahead(row: &Row) -> bool {
    let always = row[1] == 0 || (row[1] == 3 && row[2] == row[3]);
    always && matches!(row[4], 0 | NEW | SPAWN | SET)
}

fn never_true(layout: &Layout, definition: usize, row: &Row) -> Odd {
    let constants = |slot| constants_of(layout, definition, slot);
    let never = match row[1] {
        1 => constants(row[2]).is_some_and(|all| !all.contains(&row[3])),
        2 => constants(row[2]).is_some_and(|all| all.first() >= Some(&row[3])),
        4 if row[2] == row[3] => true,
        3 | 4 => match (constants(row[2]), constants(row[3])) {
            (Some(one), Some(other)) if row[1] == 3 => one.is_disjoint(&other),
            (Some(one), Some(other)) => one.first() >= other.last(),
            _ => false,
        },
        _ => false,
    };
    let guard = guard_words(row).filter(|_| never)?;
    Some((Some(2), RemarkKind::NeverTrue { guard }))
}

/// The numbers that a slot can hold where it is read, if it is only ever set to constants.
fn constants_of(layout: &Layout, definition: usize, slot: i16) -> Option<BTreeSet<i16>> {
    if usize::try_from(slot).is_ok_and(|slot| slot < layout.definitions()[definition].parameters) {
        return None;
    }
    let branches = layout.lines().filter(
        |(_, place, _)| matches!(place, Place::Branch { definition: owner, .. } if *owner == definition),
    );
    let writes = branches.filter(|(_, place, row)| {
        fields_of(row, *place, layout)
            .iter()
            .zip(*row)
            .any(|(field, number)| field.usage == Use::Write && *number == slot)
    });
    writes.map(|(_, _, row)| (row[4] == SET).then_some(row[6])).collect()
}

/// For each definition, which of its parameters are read by a branch, or handed on to where they are, one bit each.
fn used_parameters(layout: &Layout) -> Vec<u16> {
    let mut used = vec![0; layout.definitions().len()];
    loop {
        let before = used.clone();
        for (_, place, row) in layout.lines() {
            match place {
                Place::Branch { definition, .. } => used[definition] |= read_by(layout, place, row),
                Place::Node { definition, .. } if row[1] == CALL => {
                    let called = usize::from(row[2].unsigned_abs());
                    let handed = (0..)
                        .zip(layout.arguments(row))
                        .filter(|(place, _)| before[called] >> place & 1 == 1);
                    used[definition] |= handed.fold(0, |all, (_, slot)| all | 1 << slot);
                }
                _ => {}
            }
        }
        if used == before {
            return used;
        }
    }
}

fn read_by(layout: &Layout, place: Place, row: &Row) -> u16 {
    let read =
        fields_of(row, place, layout).into_iter().zip(row).filter(|(field, _)| field.usage == Use::Read);
    read.fold(0, |all, (_, slot)| all | 1 << slot)
}

fn idle_port(layout: &Layout, used: &[u16], port: usize) -> Odd {
    let idle = port < layout.definitions()[0].parameters && used[0] >> port & 1 == 0;
    idle.then_some((None, RemarkKind::IdlePort { port }))
}
