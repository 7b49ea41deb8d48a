//! Numbers as the fixed columns have them.

use pithread::{Row, FIELDS};

/// Characters of a field.
pub(crate) const WIDTH: usize = 6;
/// Characters of a line without its newline.
pub(crate) const LINE_WIDTH: usize = WIDTH * FIELDS;
/// A number of a file, in words.
pub(crate) const NUMBER: &str = "a whole number from -32768 to 32767";

/// The lines of these rows in the fixed columns.
pub fn text_of(rows: &[Row]) -> Vec<u8> {
    let line = |row: &Row| {
        row.iter().map(|number| format!("{number:6}")).chain(["\n".to_owned()]).collect::<String>()
    };
    rows.iter().map(line).collect::<String>().into_bytes()
}

/// The number of a field, if the field is just as the number is printed.
pub(crate) fn read_field(field: &str) -> Option<i16> {
    let number = field.trim_start_matches(' ').parse().ok()?;
    (field == format!("{number:6}")).then_some(number)
}

/// Whether a number is written in the one form that it has: no plus, no zeros in front, zero without a minus.
pub(crate) fn in_its_form(word: &str, number: i16) -> bool {
    word == number.to_string()
}
