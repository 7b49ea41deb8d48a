//! The archive's loading against the reference, on very many files.

use differential::{examples, for_fields, for_seeds, Comparison, Tally};
use generate::{
    any_valid, cases, damaged, padded, text_of, valid, File, Random, Size, LINE_BYTES, MOST_LINES,
};
use reference::TABLE_BYTES;

const WRONG_LENGTHS: [usize; 6] = [0, 1, 24, TABLE_BYTES - 1, TABLE_BYTES + 1, 2 * TABLE_BYTES];

/// How many damaged files are made from each right one.
const FILES_EACH: usize = 10;

/// The kind of the line in the file as it was before it was changed.
fn kind_at(file: &File, line: i32) -> Option<usize> {
    let place = usize::try_from(line).ok()?.checked_sub(1)?;
    (1..=6).find(|kind| file.section(*kind).contains(&place))
}

#[test]
fn right_files() {
    let mut comparison = Comparison::new(archive::answer);
    let mut largest = 0;
    for_seeds(1, 20_000, |random, about| {
        let file = any_valid(random);
        let answer = comparison.compare(&file.text(), about);
        assert_eq!(answer, (0, 0), "{about}: made to be right");
        largest += usize::from(file.rows.len() == MOST_LINES);
    });
    println!("{largest} files of {MOST_LINES} lines");
    assert!(largest >= 50);
}

/// Files with a count at its limit, and damaged ones made from them.
#[test]
fn files_at_the_limits() {
    let mut comparison = Comparison::new(archive::answer);
    for_seeds(8_000_000, 200, |random, about| {
        for size in Size::LIMITS {
            let file = valid(random, size);
            assert_eq!(file.rows.len(), size.lines());
            let about = format!("{about}, {size:?}");
            assert_eq!(comparison.compare(&file.text(), &about), (0, 0), "{about}: made to be right");
            for _ in 0..4 {
                comparison.compare(&damaged(random, &file), &about);
            }
        }
    });
}

#[test]
fn damaged_files() {
    let mut comparison = Comparison::new(archive::answer);
    let mut tally = Tally::default();
    for_seeds(1_000_000, 20_000, |random, about| {
        let file = any_valid(random);
        for number in 0..FILES_EACH {
            let text = damaged(random, &file);
            let answer = comparison.compare(&text, &format!("{about}, file {number}"));
            tally.add(answer, kind_at(&file, answer.1));
        }
    });
    println!("{} files", tally.files());
    assert!(tally.files() >= 100_000);
    tally.expect(0, 5_000, 1);
    tally.expect(1, 1_000, 1);
    tally.expect(2, 10_000, 300);
    tally.expect(3, 20_000, 250);
    tally.expect(4, 20_000, 400);
    tally.expect(5, 5_000, 300);
    tally.expect(6, 2_500, 200);
    tally.expect(7, 1_500, 100);
    tally.expect_kinds(2, &[1, 2, 3, 4, 5, 6], 50);
    tally.expect_kinds(3, &[1, 2, 3, 4, 5, 6], 200);
    tally.expect_kinds(4, &[1, 2, 3, 4, 5, 6], 200);
    tally.expect_kinds(5, &[3, 5, 6], 200);
    tally.expect_kinds(6, &[5, 6], 200);
    tally.expect_kinds(7, &[5], 1_000);
}

#[test]
fn table_buffers_of_wrong_length() {
    let mut comparison = Comparison::new(archive::answer);
    let mut tally = Tally::default();
    for_seeds(2_000_000, 1_000, |random, about| {
        let file = any_valid(random);
        for length in WRONG_LENGTHS {
            let answer = comparison.compare_length(&file.text(), length, about);
            assert_eq!(answer, (8, 0), "{about}: right file, {length} bytes for the table");
            let text = damaged(random, &file);
            tally.add(comparison.compare_length(&text, length, about), None);
        }
    });
    for ground in 1..=8 {
        tally.expect(ground, 20, 1);
    }
}

/// Every field of some small files, set to every one of many numbers.
#[test]
fn each_field_of_small_files() {
    let mut comparison = Comparison::new(archive::answer);
    let far = [i16::MIN, -300, -17, 192, 193, 256, 257, 384, 385, i16::MAX];
    let numbers: Vec<i16> = (-4..=20).chain(far).collect();
    for rows in [cases::LISTING.map(padded).to_vec(), cases::PAIR.map(padded).to_vec()] {
        for_fields(&rows, &numbers, |rows, about| _ = comparison.compare(&text_of(rows), about));
    }
}

/// Every byte of a small file, set to every value.
#[test]
fn each_byte_of_a_small_file() {
    let mut comparison = Comparison::new(archive::answer);
    let mut text = text_of(&cases::LISTING[..]);
    for place in 0..text.len() {
        let kept = text[place];
        for byte in 0..=255 {
            text[place] = byte;
            comparison.compare(&text, &format!("byte {place} is {byte}"));
        }
        text[place] = kept;
    }
}

/// Every length up to some lines, and buffers that are no files at all.
#[test]
fn hostile_buffers() {
    let mut comparison = Comparison::new(archive::answer);
    let mut random = Random::new(3_000_000);
    let right = text_of(&cases::LISTING[..]);
    for length in 0..=right.len() {
        comparison.compare(&right[..length], &format!("the first {length} bytes"));
    }
    for round in 0..2_000 {
        let length = LINE_BYTES * random.within(1..=20) + random.pick(&[0, 0, 0, 1, 72]);
        let bytes: Vec<u8> = (0..length).map(|_| random.byte()).collect();
        let answer = comparison.compare(&bytes, &format!("random bytes, round {round}"));
        assert!(answer.0 == 1 || answer.0 == 2);
    }
    let megabyte: Vec<u8> = (0..1 << 20).map(|_| random.byte()).collect();
    assert_eq!(comparison.compare(&megabyte, "a megabyte"), (1, 0));
}

/// Whole lines of well-formed random numbers.
#[test]
fn random_numbers() {
    let mut comparison = Comparison::new(archive::answer);
    for_seeds(4_000_000, 3_000, |random, about| {
        let mut rows = vec![[0; 12]; random.within(1..=30)];
        for number in rows.as_flattened_mut() {
            *number = if random.chance(80) { random.below(7) as i16 } else { random.number() };
        }
        comparison.compare(&text_of(&rows), about);
    });
}

#[test]
fn examples_are_accepted() {
    let mut comparison = Comparison::new(archive::answer);
    let files = examples("examples");
    for (path, text) in &files {
        assert_eq!(comparison.compare(text, path), (0, 0), "{path}");
    }
    assert!(files.len() >= 7);
}
