//! The reference against the single cases.

use generate::cases::Case;
use reference::{answer, load, TABLE_BYTES};

/// The answer is the one that the case names; the two ways to load agree.
fn check(case: &Case) {
    let mut buffer = vec![3; TABLE_BYTES];
    assert_eq!(answer(&case.file, &mut buffer), (case.ground, case.line), "{}", case.name);
    match load(&case.file) {
        Ok(table) => assert!(table.to_bytes() == buffer, "{}", case.name),
        Err(refusal) => assert_eq!((refusal.ground, refusal.line), (case.ground, case.line)),
    }
    assert!(case.ground == 0 || buffer == [3; TABLE_BYTES], "{}: the buffer has changed", case.name);
}

generate::case_tests!(check);
