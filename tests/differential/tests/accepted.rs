//! The test for tables that loading yields, against the reference, on very many tables.

use archive::ENGINE;
use differential::for_seeds;
use generate::cases::Case;
use generate::{any_valid, damaged_table, table_of, TABLE_BYTES};
use interface::STATE_BYTES;

/// Whether a bench starts with these bytes as its table. Start has two grounds alone: a length, and the table.
fn accepted(table: &[u8]) -> bool {
    let refusal = (ENGINE.start)(table, &mut [0; STATE_BYTES]).refusal;
    let due = if table.len() == TABLE_BYTES { 9 } else { 8 };
    assert!(refusal == 0 || refusal == due, "start is refused with {refusal}");
    refusal == 0
}

fn compare(table: &[u8], about: &str) -> bool {
    let expected = reference::accepted(table);
    assert_eq!(accepted(table), expected, "{about}: the reference says {expected}");
    expected
}

#[test]
fn right_tables() {
    for_seeds(5_000_000, 2_000, |random, about| {
        let file = any_valid(random);
        let table = table_of(&file.rows);
        assert!(compare(&table, about), "{about}: made to be right");
        let loaded = reference::load(&file.text()).expect("made to be right");
        assert!(loaded.to_bytes() == table, "{about}: the table of a file is its numbers");
    });
}

#[test]
fn damaged_tables() {
    let (mut right, mut wrong) = (0, 0);
    for_seeds(6_000_000, 4_000, |random, about| {
        let file = any_valid(random);
        for number in 0..10 {
            let table = damaged_table(random, &file);
            match compare(&table, &format!("{about}, table {number}")) {
                true => right += 1,
                false => wrong += 1,
            }
        }
    });
    println!("{right} accepted, {wrong} not");
    assert!(right >= 1_000 && wrong >= 20_000);
}

#[test]
fn tables_of_wrong_length_and_without_content() {
    for length in [0, 1, 24, TABLE_BYTES - 1, TABLE_BYTES, TABLE_BYTES + 1, 2 * TABLE_BYTES] {
        for byte in [0, 1, 255] {
            assert!(!compare(&vec![byte; length], "no table"));
        }
    }
}

/// The numbers of a case that has whole lines of numbers make a table that is accepted if the file is.
fn check(case: &Case) {
    if let Some(table) = case.table() {
        assert_eq!(compare(&table, &case.name), case.ground == 0, "{}", case.name);
    }
}

generate::case_tests!(check);
