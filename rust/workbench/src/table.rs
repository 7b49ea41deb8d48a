//! A procedure is loaded to its table, edited there, and written as a file again.

use std::path::Path;

use command::Failure;
use pithread::header::{MOST_FILE_BYTES, TABLE_BYTES};
use pithread::Refusal;

use crate::asked::Asked;
use crate::draft::{Draft, ALL_FIELDS, LINES};
use crate::procedure::{self, refused};
use crate::{kept, PROGRAM};

/// Checks a procedure file and keeps its table.
pub fn load(asked: &Asked) -> Result<(), Failure> {
    let (file, path) = (asked.path(0)?, asked.path(1)?);
    keep(path, procedure::load(file)?.as_bytes())
}

/// Puts another number into a table, and says on standard error whether some file has the table now.
pub fn set(asked: &Asked) -> Result<(), Failure> {
    let path = asked.path(0)?;
    let line = asked.number(1, LINES)?;
    let field = asked.number(2, ALL_FIELDS)?;
    let number = asked.number(3, i16::MIN..=i16::MAX)?;
    let mut draft = read(path)?;
    let before = draft.set(line, field, number);
    keep(path, draft.as_bytes())?;
    let verdict = match draft.table() {
        Ok(_) => String::from("the table can be written as a file"),
        Err(why) => format!("the table cannot be written as a file yet, {why}"),
    };
    command::say(PROGRAM, &format!("line {line}, field {field}: {before} became {number}; {verdict}"));
    Ok(())
}

/// Prints the procedure file of a table.
pub fn write(asked: &Asked) -> Result<(), Failure> {
    let path = asked.path(0)?;
    let table = read(path)?.table().map_err(|why| refused(path, &why))?;
    command::print("file", &table.write())
}

fn read(path: &Path) -> Result<Draft, Failure> {
    let bytes = command::read(path, MOST_FILE_BYTES)?;
    Draft::new(&bytes).map_err(|refusal| refused(path, &no_table(&bytes, refusal)))
}

/// Why these bytes are no table. A procedure file is likely meant to be loaded first.
fn no_table(bytes: &[u8], refusal: Refusal) -> String {
    let file = if procedure::has_form(bytes) {
        "; this is a procedure file: './run load' makes the table of one"
    } else {
        ""
    };
    format!("{refusal}; a table has {TABLE_BYTES} bytes{file}")
}

fn keep(path: &Path, table: &[u8]) -> Result<(), Failure> {
    kept::keep(path, table).map_err(|error| Failure::Failed(format!("{path:?} cannot be written: {error}")))
}
