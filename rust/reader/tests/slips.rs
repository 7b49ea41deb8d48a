//! Slips in a short form, with the text that is shown for each.

use reader::lengthen;

/// Each short form with what is said of it, its line and column first.
const SLIPS: [(&str, &str); 20] = [
    ("3 0 0 1\n5 1 2-50\n", "line 2, column 5: 2-50 is no number; expected: a whole number from -32768 to 32767\n5 1 2-50\n    ^^^^"),
    ("6  1, 2 3\n", "line 1, column 5: a comma; numbers have blanks between them\n6  1, 2 3\n    ^"),
    ("6  1,2\n", "line 1, column 5: a comma; numbers have blanks between them\n6  1,2\n    ^"),
    ("\n\n6  1 0 32768  0\n", "line 3, column 8: 32768 does not fit a field; expected: a whole number from -32768 to 32767\n6  1 0 32768  0\n       ^^^^^"),
    ("6 -32769", "line 1, column 3: -32769 does not fit a field; expected: a whole number from -32768 to 32767\n6 -32769\n  ^^^^^^"),
    ("1 2 3 4 5 6 7 8 9 10 11 12 13 14", "line 1, column 28: a line has twelve fields, and this is the 13th\n1 2 3 4 5 6 7 8 9 10 11 12 13 14\n                           ^^"),
    ("1 2 3 4 5 6 7 8 9 10 11 12  0  # zeros count too", "line 1, column 29: a line has twelve fields, and this is the 13th\n1 2 3 4 5 6 7 8 9 10 11 12  0  # zeros count too\n                            ^"),
    ("5 1 1  a choice # of one", "line 1, column 8: a text without # in front of it\n5 1 1  a choice # of one\n       ^^^^^^^^"),
    ("the first line\n1\n", "line 1, column 1: a text without # in front of it\nthe first line\n^^^^^^^^^^^^^^"),
    ("5 0 // end", "line 1, column 5: // is no number; expected: a whole number from -32768 to 32767\n5 0 // end\n    ^^"),
    ("6 +1", "line 1, column 3: +1 is written as 1\n6 +1\n  ^^"),
    ("6 007", "line 1, column 3: 007 is written as 7\n6 007\n  ^^^"),
    ("6 -0", "line 1, column 3: -0 is written as 0\n6 -0\n  ^^"),
    ("6 - 5", "line 1, column 3: - is no number; expected: a whole number from -32768 to 32767\n6 - 5\n  ^"),
    ("6 1.5", "line 1, column 3: 1.5 is no number; expected: a whole number from -32768 to 32767\n6 1.5\n  ^^^"),
    ("6\t0x10\r\n", "line 1, column 3: 0x10 is no number; expected: a whole number from -32768 to 32767\n6 0x10\n  ^^^^"),
    ("6 \u{1b}[2J\n", "line 1, column 3: \\u{1b}[2J is no number; expected: a whole number from -32768 to 32767\n6 ?[2J\n  ^^^^"),
    ("5 1 \u{2212}1 # a longer minus", "line 1, column 5: \u{2212}1 is no number; expected: a whole number from -32768 to 32767\n5 1 \u{2212}1 # a longer minus\n    ^^"),
    ("# nothing but a comment\n\n", "line 1, column 1: no line has a number; a file that is meant to be empty has no bytes\n# nothing but a comment\n^"),
    ("\n", "line 1, column 1: no line has a number; a file that is meant to be empty has no bytes\n\n^"),
];

#[test]
fn slips_are_marked() {
    for (short, said) in SLIPS {
        let slip = lengthen(short.as_bytes()).expect_err(short);
        assert_eq!(slip.to_string(), said);
    }
}

/// Of a long line the part around the slip is shown.
#[test]
fn long_lines_are_cut() {
    let slip = lengthen(format!("{}x{}", " ".repeat(500), " 1".repeat(500)).as_bytes()).expect_err("a text");
    let said = slip.to_string();
    let lines: Vec<&str> = said.lines().collect();
    assert_eq!(lines[0], "line 1, column 501: a text without # in front of it");
    assert!(lines[1].starts_with("...  ") && lines[1].ends_with(" 1 ..."), "{said}");
    assert_eq!(lines[1].find('x'), lines[2].find('^'), "{said}");
    assert!(lines[2].len() <= lines[1].len() + 1, "{said}");
}

/// Any byte of a right short form, changed to another: it is taken, or the slip is in that line.
#[test]
fn a_slip_is_in_the_line_that_was_changed() {
    let short = "1  0 1 1 2 1 0\n3  0 1 2\n4  0\n5  1 1\n5  0\n6  0 0 0  5 0 250 0  1\n";
    let mut slips = 0;
    for place in 0..short.len() {
        for byte in b' '..=b'~' {
            let mut changed = short.as_bytes().to_vec();
            changed[place] = byte;
            if let Err(slip) = lengthen(&changed) {
                assert_eq!(slip.line, 1 + short[..place].matches('\n').count(), "{slip}");
                slips += 1;
            }
        }
    }
    assert!(slips >= 3_000, "{slips} slips");
}
