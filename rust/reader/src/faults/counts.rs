//! Ground 3: the header, and the lines that it counts.

use pithread::{Refusal, Row};

use super::Finding;
use crate::fields::header;
use crate::layout::{Layout, BRANCH, CHOICE, DEFINITION, HEADER, NODE, SLOT, TYPE};
use crate::words::{counted, listed, many};

const COUNTED: [(i16, &str); 5] =
    [(TYPE, "type"), (DEFINITION, "definition"), (SLOT, "slot"), (NODE, "node"), (BRANCH, "branch")];

/// The most numbers of a sum that are shown one by one.
const MOST_SHOWN: usize = 24;

/// The header's ranges, the number of lines, and the kind of each: what is at fault in the first of these that is.
pub fn lines(layout: &Layout) -> Vec<Finding> {
    let rows = layout.rows();
    let found = header_ranges(&rows[0]);
    if !found.is_empty() {
        return found;
    }
    let due = due_kinds(&rows[0]);
    match due.len() == rows.len() {
        false => vec![total(rows, due.len())],
        true => kinds(rows, &due),
    }
}

fn header_ranges(row: &Row) -> Vec<Finding> {
    let fields = (2..).zip(header()).zip(&row[1..]);
    let outside = fields.filter(|((_, field), number)| !field.range.contains(number));
    outside
        .map(|((place, field), number)| {
            let wrong = format!("field {place}, {} in the header, is {number}", field.name);
            let expected = format!("a number from {} to {}", field.range.start(), field.range.end());
            Finding::new(Refusal::Counts { line: 1 }, Some(place), wrong, expected)
        })
        .collect()
}

/// The kind that each line has to have by a header in range.
fn due_kinds(row: &Row) -> Vec<i16> {
    let counts = row[1..6].iter().map(|count| usize::from(count.unsigned_abs()));
    let others = COUNTED.iter().zip(counts).flat_map(|((kind, _), count)| std::iter::repeat_n(*kind, count));
    std::iter::once(HEADER).chain(others).collect()
}

fn total(rows: &[Row], due: usize) -> Finding {
    let wrong =
        format!("the file has {}, and the header counts {due} with itself", counted(rows.len(), "line"));
    let notes = (2..).zip(COUNTED).filter_map(|(field, (kind, name))| {
        let there = rows[1..].iter().filter(|row| row[0] == kind).count() as i16;
        let said = rows[0][field - 1];
        let differ = format!(
            "field {field}: the header says {}, and {there} of the lines are of kind {kind}",
            counted(said, name)
        );
        (there != said).then_some(differ)
    });
    let notes = notes.collect();
    Finding::new(Refusal::Counts { line: 1 }, None, wrong, "as many lines as it counts").with_notes(notes)
}

/// The first line of each row of lines that have a wrong kind.
fn kinds(rows: &[Row], due: &[i16]) -> Vec<Finding> {
    let wrong = |index: usize| rows[index][0] != due[index];
    let first = (0..rows.len()).filter(|index| wrong(*index) && (*index == 0 || !wrong(index - 1)));
    first
        .map(|index| {
            let said = format!("the line is of kind {}, {}", rows[index][0], kind_words(rows[index][0]));
            let expected = format!("kind {}, {}, as the header counts", due[index], kind_words(due[index]));
            Finding::new(Refusal::Counts { line: index as u32 + 1 }, Some(1), said, expected)
        })
        .collect()
}

fn kind_words(kind: i16) -> &'static str {
    match kind {
        HEADER => "the header",
        TYPE => "a type",
        DEFINITION => "a definition",
        SLOT => "a slot",
        NODE => "a node",
        BRANCH => "a branch",
        _ => "which there is not",
    }
}

/// The sums of slots, nodes and branches that are not what the header says.
pub fn sums(layout: &Layout) -> Vec<Finding> {
    let rows = layout.rows();
    let of_definitions = |place: usize| numbers(rows, |row| (row[0] == DEFINITION).then_some(row[place]));
    let of_choices = numbers(rows, |row| (row[0] == NODE && row[1] == CHOICE).then_some(row[2]));
    let sums = [
        (4, "definition", "slot", of_definitions(2)),
        (5, "definition", "node", of_definitions(3)),
        (6, "choice", "branch", of_choices),
    ];
    sums.into_iter()
        .filter_map(|(field, owner, name, parts)| sum(&rows[0], field, owner, name, &parts))
        .collect()
}

fn numbers(rows: &[Row], number: impl Fn(&Row) -> Option<i16>) -> Vec<i16> {
    rows.iter().filter_map(number).collect()
}

/// One sum beside the header's number: "the definitions have 3 and 4 nodes, together 7; the header says 6".
fn sum(header: &Row, field: usize, owner: &str, name: &str, parts: &[i16]) -> Option<Finding> {
    let (sum, said) = (parts.iter().map(|part| i32::from(*part)).sum::<i32>(), header[field - 1]);
    if sum == i32::from(said) {
        return None;
    }
    let names = many(name);
    let have = match parts {
        [] => format!("there is no {owner}, and so no {name}"),
        [part] => format!("the {owner} has {}", counted(*part, name)),
        _ if parts.len() > MOST_SHOWN => format!("the {} {owner}s have {sum} {names} together", parts.len()),
        _ => format!("the {owner}s have {} {names}, together {sum}", listed(parts)),
    };
    let wrong = format!("{have}; the header says {said}");
    Some(Finding::new(Refusal::Counts { line: 1 }, Some(field), wrong, "the same number"))
}
