//! The reference's writer against texts worked out by hand.

use generate::{padded, table_of, valid, Random, Row, Size, SMALLEST};
use interface::Written;
use reference::{answer, write, LINE_BYTES, MOST_LINES, TABLE_BYTES};

/// What a buffer has before a write, a byte that no text has.
const BEFORE: u8 = 0xa5;

const SMALLEST_TEXT: &str = "     1     0     1     0     1     0     0     0     0     0     0     0
     3     0     0     1     0     0     0     0     0     0     0     0
     5     0     0     0     0     0     0     0     0     0     0     0
";

/// One slot, set to the lowest number, then to -10 if it is below the highest.
const FAR: [&[i16]; 8] = [
    &[1, 0, 1, 1, 3, 2],
    &[3, 0, 1, 3],
    &[4],
    &[5, 1, 1],
    &[5, 1, 1],
    &[5],
    &[6, 0, 0, 0, 5, 0, -32768, 0, 1],
    &[6, 2, 0, 32767, 5, 0, -10, 0, 2],
];
const FAR_TEXT: &str = "     1     0     1     1     3     2     0     0     0     0     0     0
     3     0     1     3     0     0     0     0     0     0     0     0
     4     0     0     0     0     0     0     0     0     0     0     0
     5     1     1     0     0     0     0     0     0     0     0     0
     5     1     1     0     0     0     0     0     0     0     0     0
     5     0     0     0     0     0     0     0     0     0     0     0
     6     0     0     0     5     0-32768     0     1     0     0     0
     6     2     0 32767     5     0   -10     0     2     0     0     0
";

fn table(rows: &[&[i16]]) -> Vec<u8> {
    let rows: Vec<Row> = rows.iter().map(|row| padded(row)).collect();
    table_of(&rows)
}

/// A write into a buffer of this length puts the text at its front and leaves the rest.
fn check_written(table: &[u8], length: usize, text: &[u8]) {
    let mut buffer = vec![BEFORE; length];
    assert_eq!(write(table, &mut buffer), Written { refusal: 0, bytes: text.len() as i32 });
    let (front, rest) = buffer.split_at(text.len());
    assert!(front == text, "{}", String::from_utf8_lossy(front));
    assert!(rest.iter().all(|byte| *byte == BEFORE), "the rest of {length} bytes has changed");
}

/// A write into a buffer of this length is refused and leaves all of it.
fn check_refused(table: &[u8], length: usize, ground: i32) {
    let mut buffer = vec![BEFORE; length];
    assert_eq!(write(table, &mut buffer), Written { refusal: ground, bytes: 0 });
    assert!(buffer.iter().all(|byte| *byte == BEFORE), "the buffer of {length} bytes has changed");
}

#[test]
fn small_files() {
    for (rows, text) in [(&SMALLEST[..], SMALLEST_TEXT), (&FAR[..], FAR_TEXT)] {
        for more in [0, 1, 72, 73, 74, 1_000, 100_000] {
            check_written(&table(rows), text.len() + more, text.as_bytes());
        }
    }
}

/// It loads as the smallest file does, and so is not restored.
#[test]
fn a_file_without_bytes() {
    for file in [&b""[..], SMALLEST_TEXT.as_bytes()] {
        let mut loaded = vec![BEFORE; TABLE_BYTES];
        assert_eq!(answer(file, &mut loaded), (0, 0));
        assert!(loaded == table(&SMALLEST));
        check_written(&loaded, 219, SMALLEST_TEXT.as_bytes());
    }
}

#[test]
fn the_largest_file() {
    let file = valid(&mut Random::new(1), Size::LARGEST);
    assert_eq!(file.rows.len(), MOST_LINES);
    for more in [0, 1, 5_000] {
        check_written(&table_of(&file.rows), MOST_LINES * LINE_BYTES + more, &file.text());
    }
}

#[test]
fn short_buffers() {
    for length in 0..SMALLEST_TEXT.len() {
        check_refused(&table(&SMALLEST), length, 15);
    }
    for length in 0..FAR_TEXT.len() {
        check_refused(&table(&FAR), length, 15);
    }
}

/// Room for the whole file, and for less.
const ROOMS: [usize; 4] = [0, 218, 219, 70_000];

#[test]
fn the_length_of_the_table_comes_first() {
    let (right, wrong) = (table(&SMALLEST).repeat(2), vec![BEFORE; 2 * TABLE_BYTES]);
    for length in [0, 1, 72, TABLE_BYTES - 1, TABLE_BYTES + 1, 2 * TABLE_BYTES] {
        for room in ROOMS {
            check_refused(&right[..length], room, 8);
            check_refused(&wrong[..length], room, 8);
        }
    }
}

#[test]
fn the_table_comes_before_the_room() {
    let mut behind = table(&SMALLEST);
    behind[TABLE_BYTES - 1] = 1;
    let unreached = table(&[&[1, 0, 1, 0, 2], &[3, 0, 0, 2], &[5], &[5]]);
    for room in ROOMS {
        for wrong in [&behind, &unreached, &vec![0; TABLE_BYTES], &vec![255; TABLE_BYTES]] {
            check_refused(wrong, room, 9);
        }
    }
}
