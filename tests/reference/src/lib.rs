//! A second loader, a second writer, a second check for the profile and a second engine, written apart from
//! the proved ones and compared with them.
//!
//! A file goes through these modules in turn, and each refuses on its own grounds:
//! `text` (1 and 2), `sections` (3), `ranges` (4), `types` (5), `paths` (6 and 7).
//! A table goes through the same from `sections` on before `text` writes its file or `profile` looks at it.
//! The calls on a table and a state, by seats with rights or without, are in `engine` with the grounds from 8 on.

mod engine;
mod operands;
mod paths;
mod profile;
mod program;
mod ranges;
mod sections;
mod text;
mod types;

pub use engine::{collect, fault, give, listing, run, start, step, take, without_seats, Fault, ENGINE};
use interface::{Written, BUFFER_LENGTH, SHORT_BUFFER, TABLE};
pub use profile::profile;

/// Fields in a line, and numbers in a row of the table.
pub const FIELDS: usize = 12;
/// Bytes in a line with its newline.
pub const LINE_BYTES: usize = 73;
/// Lines in the longest file, and rows in the table.
pub const MOST_LINES: usize = 865;
/// Bytes in a loaded table.
pub const TABLE_BYTES: usize = MOST_LINES * ROW_BYTES;
const ROW_BYTES: usize = FIELDS * 2;

/// The twelve numbers of one line.
pub type Row = [i16; FIELDS];
type Rows = [Row; MOST_LINES];

/// A table before any line is read.
fn no_rows() -> Rows {
    [[0; FIELDS]; MOST_LINES]
}

/// Why a file is not loaded: the number of the ground, and the first line at fault (from 1), or
/// 0 where the ground names no line.
#[derive(Clone, Copy, Debug, PartialEq, Eq)]
pub struct Refusal {
    pub ground: i32,
    pub line: i32,
}

impl Refusal {
    fn new(ground: i32, line: usize) -> Refusal {
        let line = i32::try_from(line).expect("a file has at most 865 lines");
        Refusal { ground, line }
    }
}

/// A loaded table: one row for each line of the file, then rows of zeros.
#[derive(Clone, PartialEq, Eq)]
pub struct Table {
    rows: Box<Rows>,
}

impl Table {
    pub fn rows(&self) -> &[Row] {
        &self.rows[..]
    }

    /// The table as the archive writes it: each number as two bytes, the lower one first.
    pub fn to_bytes(&self) -> Vec<u8> {
        let mut bytes = vec![0; TABLE_BYTES];
        write_rows(&self.rows, &mut bytes);
        bytes
    }
}

/// Loads a file into a table of its own.
pub fn load(file: &[u8]) -> Result<Table, Refusal> {
    let mut rows = Box::new(no_rows());
    read_and_check(file, &mut rows)?;
    Ok(Table { rows })
}

/// Loads a file into a buffer of the caller's, as the archive's call does: also refuses a buffer
/// of another length (ground 8), and leaves the buffer alone when it refuses.
pub fn load_into(file: &[u8], buffer: &mut [u8]) -> Result<(), Refusal> {
    let mut rows = no_rows();
    read_and_check(file, &mut rows)?;
    if buffer.len() != TABLE_BYTES {
        return Err(Refusal::new(8, 0));
    }
    write_rows(&rows, buffer);
    Ok(())
}

/// The same, with the answer as ground and line, which are 0 and 0 if the file was loaded.
pub fn answer(file: &[u8], buffer: &mut [u8]) -> (i32, i32) {
    match load_into(file, buffer) {
        Ok(()) => (0, 0),
        Err(refusal) => (refusal.ground, refusal.line),
    }
}

/// Writes the file of a table at the front of a buffer, as the archive's call does: the rest of the buffer
/// stays as it is, and so does all of it when the write is refused.
pub fn write(table: &[u8], buffer: &mut [u8]) -> Written {
    match write_file(table, buffer) {
        Ok(bytes) => Written { refusal: 0, bytes: bytes as i32 },
        Err(refusal) => Written { refusal, bytes: 0 },
    }
}

/// Answers how many bytes the file has, or the ground.
fn write_file(table: &[u8], buffer: &mut [u8]) -> Result<usize, i32> {
    let mut rows = no_rows();
    judge_table(table, &mut rows)?;
    let rows = &rows[..sections::line_total(&rows[0])];
    let room = buffer.get_mut(..rows.len() * LINE_BYTES).ok_or(SHORT_BUFFER)?;
    text::write(rows, room);
    Ok(room.len())
}

/// Whether these bytes are a table that some file loads to.
pub fn accepted(table: &[u8]) -> bool {
    table.len() == TABLE_BYTES && check_table(table, &mut no_rows()).is_some()
}

/// A file's definitions after grounds 3 to 7, and what its paths write.
struct Checked<'a> {
    program: program::Program<'a>,
    paths: paths::Paths,
}

/// Grounds 8 and 9 of a call on a table alone.
fn judge_table<'a>(table: &[u8], rows: &'a mut Rows) -> Result<Checked<'a>, i32> {
    if table.len() != TABLE_BYTES {
        return Err(BUFFER_LENGTH);
    }
    check_table(table, rows).ok_or(TABLE)
}

/// Reads the rows in use of a table, which must have the right length, and checks them as those of
/// a file; nothing if no file has them or if another row is not empty.
fn check_table<'a>(table: &[u8], rows: &'a mut Rows) -> Option<Checked<'a>> {
    read_rows(table, &mut rows[..1]);
    if !sections::header_in_range(&rows[0]) {
        return None;
    }
    let lines = sections::line_total(&rows[0]);
    let (used, rest) = table.split_at(lines * ROW_BYTES);
    if rest.iter().fold(0, |all, byte| all | byte) != 0 {
        return None;
    }
    read_rows(used, &mut rows[..lines]);
    check(&rows[..lines]).ok()
}

fn read_and_check(file: &[u8], rows: &mut Rows) -> Result<(), Refusal> {
    let lines = text::read(file, rows)?;
    check(&rows[..lines])?;
    Ok(())
}

/// Grounds 3 to 7.
fn check(rows: &[Row]) -> Result<Checked<'_>, Refusal> {
    let sections = sections::Sections::new(rows)?;
    ranges::declarations(&sections)?;
    let program = program::Program::new(&sections);
    ranges::nodes(&program)?;
    ranges::branches(&program)?;
    types::check(&program)?;
    let paths = paths::check(&program)?;
    Ok(Checked { program, paths })
}

fn write_rows(rows: &Rows, bytes: &mut [u8]) {
    let (pairs, _) = bytes.as_chunks_mut::<2>();
    for (pair, number) in pairs.iter_mut().zip(rows.as_flattened()) {
        *pair = number.to_le_bytes();
    }
}

fn read_rows(bytes: &[u8], rows: &mut [Row]) {
    let (pairs, _) = bytes.as_chunks::<2>();
    for (pair, number) in pairs.iter().zip(rows.as_flattened_mut()) {
        *number = i16::from_le_bytes(*pair);
    }
}
