//! Procedure files: reading them, and what is said of those that are refused.

use std::path::Path;

use command::Failure;
use pithread::header::{MOST_FILE_BYTES, TABLE_BYTES};
use pithread::{Refusal, Table};

/// The bytes of a file in which a procedure is looked for.
pub fn read(path: &Path) -> Result<Vec<u8>, Failure> {
    command::read(path, MOST_FILE_BYTES)
}

/// The table of a procedure file.
pub fn load(path: &Path) -> Result<Table, Failure> {
    let bytes = read(path)?;
    Table::load(&bytes).map_err(|refusal| not_loaded(path, &bytes, refusal))
}

/// Why a file is refused. One that has the length of a table is likely meant to be one.
pub fn not_loaded(path: &Path, bytes: &[u8], refusal: Refusal) -> Failure {
    let table = if bytes.len() == TABLE_BYTES {
        format!(
            "; a table has {TABLE_BYTES} bytes, as this file does: './run write' prints the file of a table"
        )
    } else {
        String::new()
    };
    refused(path, &format!("{refusal}{table}"))
}

/// Whether the bytes are those of a procedure file as far as their form goes.
pub fn has_form(bytes: &[u8]) -> bool {
    let loaded = Table::load(bytes);
    !bytes.is_empty() && !matches!(loaded, Err(Refusal::FileLength | Refusal::Field { .. }))
}

/// A file or a table that is refused, and why.
pub fn refused(path: &Path, why: &str) -> Failure {
    Failure::Refused(format!("{path:?} is refused, {why}"))
}
