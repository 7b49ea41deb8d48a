//! The short form: there and back, and told from the fixed columns.

use std::fs;
use std::path::{Path, PathBuf};

use generate::{
    any_valid, cases, damaged, text_of, valid, Random, Row, Size, LINE_BYTES, MOST_LINES, SMALLEST,
};
use pithread::Table;
use reader::{form_of, lengthen, shorten, Form, SlipKind};

fn at_root(path: &str) -> PathBuf {
    Path::new(env!("CARGO_MANIFEST_DIR")).join("../..").join(path)
}

/// The short form of the rows is lengthened to just their file, line by line.
fn expect_back(rows: &[Row], about: &str) {
    let (short, long) = (shorten(rows), text_of(rows));
    let made = lengthen(short.as_bytes()).unwrap_or_else(|slip| panic!("{about}: {slip}"));
    assert!(made.text() == long, "{about}: {short}");
    assert_eq!((form_of(short.as_bytes()), form_of(&long)), (Form::Short, Form::Long), "{about}");
    for line in 1..=rows.len() {
        assert_eq!(made.short_line(line), Some(line), "{about}");
    }
}

#[test]
fn right_files_come_back() {
    let mut largest = 0;
    for seed in 63_000_000..63_004_000 {
        let file = any_valid(&mut Random::new(seed));
        expect_back(&file.rows, &format!("seed {seed}"));
        largest += usize::from(file.rows.len() == MOST_LINES);
    }
    assert!(largest >= 5, "{largest} files of {MOST_LINES} lines");
    for size in Size::LIMITS {
        expect_back(&valid(&mut Random::new(1), size).rows, &format!("{size:?}"));
    }
}

/// Without the header, and with one that has nothing but its kind, the file is the same.
#[test]
fn headers_are_filled_in() {
    for seed in 64_000_000..64_001_000 {
        let file = any_valid(&mut Random::new(seed));
        let short = shorten(&file.rows);
        let (_, rest) = short.split_once('\n').expect("a file has more lines than one");
        for (start, line) in [("", None), ("\n# a comment\n 1 # header\n", Some(3))] {
            let made = lengthen(format!("{start}{rest}").as_bytes()).expect("a short form");
            assert!(made.text() == file.text(), "seed {seed}");
            assert_eq!(made.short_line(1), line);
        }
    }
}

/// A header that says more than its kind is left as it is.
#[test]
fn headers_are_not_mended() {
    let made = lengthen(b"1 0 1\n3 0 0 1\n5\n").expect("a short form");
    assert_eq!(made.rows()[0][..5], [1, 0, 1, 0, 0]);
    let made = lengthen(b"3 0 0 1\n1\n5\n").expect("a short form");
    assert_eq!(made.rows()[1], [1, 0, 0, 0, 0, 0, 0, 0, 0, 0, 0, 0]);
}

/// The short files that the guide shows are those of the examples that it names.
#[test]
fn the_guide() {
    let guide = fs::read_to_string(at_root("docs/PROCEDURES.md")).expect("the guide");
    let mut blocks = 0;
    for block in guide.split("```short ").skip(1) {
        let (path, rest) = block.split_once('\n').expect("a block has a first line");
        let (short, _) = rest.split_once("```").expect("a block ends");
        let made = lengthen(short.as_bytes()).unwrap_or_else(|slip| panic!("{path}: {slip}"));
        assert!(made.text() == fs::read(at_root(path)).expect("an example"), "{path}");
        blocks += 1;
    }
    assert!(blocks >= 4, "{blocks} blocks");
}

#[test]
fn examples_come_back() {
    let mut files = 0;
    for entry in fs::read_dir(at_root("examples")).expect("the examples") {
        let path = entry.expect("an entry").path();
        if path.extension().is_none_or(|extension| extension != "txt") {
            continue;
        }
        let table = Table::load(&fs::read(&path).expect("an example")).expect("an example loads");
        let rows: Vec<Row> = (0..table.lines()).map(|row| table.row(row)).collect();
        expect_back(&rows, &path.display().to_string());
        files += 1;
    }
    assert!(files >= 20, "{files} examples");
}

/// What the short form of an example looks like, kept.
#[test]
fn a_kept_short_form() {
    let kept = fs::read_to_string(at_root("rust/reader/tests/kept/pair.short")).expect("it is kept");
    assert_eq!(shorten(&cases::PAIR.map(generate::padded)), kept);
}

#[test]
fn forms() {
    assert_eq!(form_of(b""), Form::Empty);
    for short in [&b"\n"[..], b" ", b"1 1 1", b"# 1", b"     1     0", b"no procedure", b"5\t0\n"] {
        assert_eq!(form_of(short), Form::Short, "{short:?}");
    }
    let long = text_of(&SMALLEST);
    let dos = String::from_utf8(long.clone()).expect("text").replace('\n', "\r\n");
    for long in [&long[..], &long[..LINE_BYTES - 1], &long[3..], dos.as_bytes()] {
        assert_eq!(form_of(long), Form::Long, "{long:?}");
    }
    for entry in fs::read_dir(at_root("examples/refused")).expect("the refused examples") {
        let path = entry.expect("an entry").path();
        if path.extension().is_some_and(|extension| extension == "txt") {
            assert_eq!(form_of(&fs::read(&path).expect("an example")), Form::Long, "{path:?}");
        }
    }
}

/// A file in the columns with a fault is still one in the columns, so that its refusal is the loader's.
#[test]
fn damaged_files_are_long() {
    for seed in 65_000_000..65_003_000 {
        let random = &mut Random::new(seed);
        let file = any_valid(random);
        let text = damaged(random, &file);
        let whole = text.split(|byte| *byte == b'\n').any(|line| line.len() == LINE_BYTES - 1);
        if whole && !text.contains(&b'#') && text.len() > 3 * LINE_BYTES {
            assert_eq!(form_of(&text), Form::Long, "seed {seed}");
        }
    }
}

/// A field is marked where it stands in the short form, or behind its line if it was left out.
#[test]
fn fields_are_marked_in_the_short_form() {
    let made = lengthen(b"\n3 0  0 1 # definition\n\t5   12\n").expect("a short form");
    let marked = |line, field| made.marked(line, field).map(|marked| marked.to_string());
    assert_eq!(marked(1, Some(2)), None);
    assert_eq!(marked(2, Some(3)).as_deref(), Some("3 0  0 1 # definition\n     ^"));
    assert_eq!(marked(3, Some(2)).as_deref(), Some(" 5   12\n     ^^"));
    assert_eq!(marked(3, Some(3)).as_deref(), Some(" 5   12\n        ^"));
    assert_eq!(marked(3, None).as_deref(), Some(" 5   12\n ^^^^^^"));
    assert_eq!(marked(4, None), None);
}

/// Bytes of any kind are lengthened or have a slip that lies inside them.
#[test]
fn any_bytes() {
    const OFTEN: &[u8] = b"0123456789-+,# \t\n\n\r  1 2 3 6 5a";
    let (mut slips, mut made) = (0, 0);
    for seed in 66_000_000..66_020_000 {
        let random = &mut Random::new(seed);
        let odd = random.pick(&[0, 0, 5, 60]);
        let length = random.within(0..=120);
        let bytes: Vec<u8> = (0..length)
            .map(|_| if random.chance(odd) { random.byte() } else { random.pick(OFTEN) })
            .collect();
        _ = form_of(&bytes);
        match lengthen(&bytes) {
            Ok(long) => {
                assert_eq!(long.text().len() % LINE_BYTES, 0);
                made += 1;
            }
            Err(slip) => {
                let text = String::from_utf8_lossy(&bytes);
                let line = text.lines().nth(slip.line - 1).unwrap_or("");
                assert!(slip.column <= line.chars().count().max(1), "seed {seed}: {slip}");
                slips += 1;
            }
        }
    }
    assert!(slips >= 5_000 && made >= 500, "{slips} slips, {made} made");
}

#[test]
fn large_files_are_quick() {
    let begun = std::time::Instant::now();
    let many = "4 0\n".repeat(1 << 20);
    let slip = lengthen(many.as_bytes()).expect_err("too many lines");
    assert_eq!((slip.kind, slip.line), (SlipKind::ManyLines, MOST_LINES + 1));
    for long in ["7".repeat(1 << 22), "7 ".repeat(1 << 20), "x".repeat(1 << 22), "#".repeat(1 << 22)] {
        let slip = lengthen(long.as_bytes()).expect_err("no short form");
        assert!(slip.to_string().len() < 500, "{}", slip.to_string().len());
    }
    assert!(begun.elapsed().as_secs() < 10);
}
