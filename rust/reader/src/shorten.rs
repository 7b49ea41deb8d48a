//! From the fixed columns to the short form.

use pithread::{Row, FIELDS};

use crate::layout::{Layout, BRANCH, CALL, CHOICE, DEFINITION, HEADER, NODE};

/// The short form of some rows, each line with a comment that says it in words. The rows of a file that loads
/// come back from it by [`lengthen`](crate::lengthen).
pub fn shorten(rows: &[Row]) -> String {
    let layout = Layout::of(rows);
    let mut short = String::new();
    for (line, row) in (1..).zip(rows) {
        short.push_str(&format!("{:<24}# {}\n", short_line(row, &layout), layout.words(line)));
    }
    short
}

/// The numbers of a row up to the last that is needed, with wider gaps between its parts.
fn short_line(row: &Row, layout: &Layout) -> String {
    let used = FIELDS - row.iter().rev().take_while(|number| **number == 0).count();
    let shown = used.max(usual(row, layout));
    let mut line = row[0].to_string();
    for (place, number) in row.iter().enumerate().take(shown).skip(1) {
        let gap = if begins_part(row, place) { "  " } else { " " };
        line.push_str(&format!("{gap}{number}"));
    }
    line
}

/// How many fields of a line are written even if the last of them are 0.
fn usual(row: &Row, layout: &Layout) -> usize {
    match (row[0], row[1]) {
        (HEADER, _) => 7,
        (DEFINITION, _) => 4,
        (NODE, CHOICE) => 3,
        (NODE, CALL) => 3 + layout.arguments(row).len(),
        (BRANCH, _) => 9,
        _ => 2,
    }
}

fn begins_part(row: &Row, place: usize) -> bool {
    match row[0] {
        NODE => place == 1 || place == 3,
        BRANCH => matches!(place, 1 | 4 | 8),
        _ => place == 1,
    }
}
