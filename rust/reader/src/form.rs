//! In which form a file is written: the fixed columns, or the short form.

use crate::text::WIDTH;

/// How many fields of a line tell that it stands in the fixed columns.
const TELLING_FIELDS: usize = 8;

/// In which form a file is written.
#[derive(Clone, Copy, Debug, PartialEq, Eq)]
pub enum Form {
    /// It has no bytes. Such a file loads, as a procedure that ends.
    Empty,
    /// It stands in the fixed columns, rightly or not.
    Long,
    /// It is to be lengthened.
    Short,
}

/// Tells the form of a file by its text: it is long if a line of it begins with eight fields of six characters,
/// set to the right, and it has no `#`.
///
/// ```
/// use reader::{form_of, Form};
///
/// assert_eq!(form_of(b""), Form::Empty);
/// assert_eq!(form_of(b"3 0 0 1\n5 0\n"), Form::Short);
/// assert_eq!(form_of(&std::fs::read("../../examples/units.txt")?), Form::Long);
/// # Ok::<(), std::io::Error>(())
/// ```
pub fn form_of(file: &[u8]) -> Form {
    match file {
        [] => Form::Empty,
        _ if file.contains(&b'#') => Form::Short,
        _ if file.split(|byte| *byte == b'\n').any(in_columns) => Form::Long,
        _ => Form::Short,
    }
}

fn in_columns(line: &[u8]) -> bool {
    let fields = line.chunks_exact(WIDTH).take(TELLING_FIELDS);
    let to_the_right = |field: &[u8]| {
        let number = field.trim_ascii_start();
        !number.is_empty() && number.iter().all(u8::is_ascii_graphic)
    };
    fields.clone().count() == TELLING_FIELDS && fields.into_iter().all(to_the_right) && line[0] == b' '
}
