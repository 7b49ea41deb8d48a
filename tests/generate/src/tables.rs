//! Tables as bytes, right ones and ones with faults.

use crate::damage::damaged_rows;
use crate::file::{File, Row, FIELDS, MOST_LINES};
use crate::random::Random;

pub const TABLE_BYTES: usize = MOST_LINES * FIELDS * 2;

/// The table of some rows: two bytes for each number, the lower first, then zeros.
pub fn table_of(rows: &[Row]) -> Vec<u8> {
    let mut bytes: Vec<u8> = rows.as_flattened().iter().flat_map(|number| number.to_le_bytes()).collect();
    bytes.resize(TABLE_BYTES, 0);
    bytes
}

/// A table after a change, of a file's numbers or of the table's bytes.
pub fn damaged_table(random: &mut Random, file: &File) -> Vec<u8> {
    if random.chance(60) {
        return table_of(&damaged_rows(random, file));
    }
    let mut table = table_of(&file.rows);
    for _ in 0..random.pick(&[1, 1, 1, 2]) {
        damage_bytes(random, &mut table, file.rows.len());
    }
    if random.chance(4) {
        let lengths = [0, 1, 2, 24, TABLE_BYTES - 2, TABLE_BYTES - 1, TABLE_BYTES + 1, TABLE_BYTES + 24];
        table.resize(random.pick(&lengths), 0);
    }
    table
}

/// Changes a bit or a number, mostly in the rows that are used.
fn damage_bytes(random: &mut Random, table: &mut [u8], lines: usize) {
    let rows = if random.chance(80) { lines } else { MOST_LINES };
    let number = random.below(rows * FIELDS);
    let bytes = &mut table[2 * number..2 * number + 2];
    match random.below(3) {
        0 => bytes[random.below(2)] ^= 1 << random.below(8),
        1 => bytes.copy_from_slice(&random.number().to_le_bytes()),
        _ => bytes.copy_from_slice(&(random.below(20) as i16).to_le_bytes()),
    }
}
