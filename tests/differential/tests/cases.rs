//! The archive against the single cases.

use differential::Comparison;
use generate::cases::Case;
use reference::TABLE_BYTES;

/// The answer is the one that the case names; a table buffer of another length is refused only
/// when the file is right.
fn check(case: &Case) {
    let mut comparison = Comparison::new(archive::answer);
    let wanted = (case.ground, case.line);
    assert_eq!(comparison.compare(&case.file, &case.name), wanted, "{}", case.name);
    let wanted = if case.ground == 0 { (8, 0) } else { wanted };
    for length in [0, TABLE_BYTES - 1, TABLE_BYTES + 1] {
        let answer = comparison.compare_length(&case.file, length, &case.name);
        assert_eq!(answer, wanted, "{}, {length} bytes for the table", case.name);
    }
}

generate::case_tests!(check);
