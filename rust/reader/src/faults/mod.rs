//! Why a file is refused: each ground with the field at fault, what was expected there, and what leads to it.
//!
//! The loader answers the first fault alone. Here the others follow, as far as they can be told while those before
//! them stand.

mod columns;
mod counts;
mod finding;
mod paths;
mod ranges;
mod types;

pub use finding::Finding;
use pithread::Row;

use crate::layout::Layout;

/// All faults of a file. The first has the ground and the line that a load answers; the others are marked as later
/// ones. A file that loads has none.
///
/// ```
/// use pithread::Table;
/// use reader::faults;
///
/// let file = std::fs::read("../../examples/refused/next-not-forward.txt")?;
/// let found = faults(&file);
/// assert_eq!(found[0].refusal, Table::load(&file).unwrap_err());
/// assert_eq!(found[0].field, Some(9));
/// assert_eq!(found[0].wrong, "field 9, the next node, is 0");
/// # Ok::<(), Box<dyn std::error::Error>>(())
/// ```
pub fn faults(file: &[u8]) -> Vec<Finding> {
    if file.is_empty() {
        return Vec::new();
    }
    let mut found = columns::read(file).map_or_else(|found| found, |rows| of_rows(&rows));
    found.iter_mut().skip(1).for_each(|finding| finding.later = true);
    found
}

/// The grounds 3 to 7.
fn of_rows(rows: &[Row]) -> Vec<Finding> {
    let layout = Layout::of(rows);
    let mut found = all_of_rows(&layout);
    found.iter_mut().for_each(|finding| finding.show(&layout));
    found
}

/// Each test goes on where those before it leave something to go by.
fn all_of_rows(layout: &Layout) -> Vec<Finding> {
    let mut found = counts::lines(layout);
    if !found.is_empty() {
        return found;
    }
    found = counts::sums(layout);
    found.extend(ranges::declarations(layout));
    if !found.is_empty() {
        return found;
    }
    found = ranges::nodes(layout);
    if ranges::choices_in_range(layout) {
        found.extend(ranges::branches(layout));
        let ranged = found.is_empty();
        found.extend(types::faults(layout));
        if ranged {
            found.extend(paths::faults(layout));
        }
    }
    found
}
