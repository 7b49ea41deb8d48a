//! The archive's writing against the reference, on very many tables, and there and back: what is written is
//! loaded again, and what was loaded is written.

use differential::{examples, for_fields, for_seeds, Comparison, Traffic, Writes};
use generate::cases::{self, Case};
use generate::{
    any_valid, damaged_table, padded, table_of, valid, written_back, File, Random, Row, Size, LINE_BYTES,
    MOST_LINES, TABLE_BYTES,
};
use interface::{Written, BUFFER_LENGTH, SHORT_BUFFER, TABLE};

/// Bytes of the longest file.
const MOST_BYTES: usize = MOST_LINES * LINE_BYTES;
/// Bytes of the longest buffer.
const MOST_ROOM: usize = 4 * MOST_BYTES;

const WRONG_LENGTHS: [usize; 6] = [0, 1, 24, TABLE_BYTES - 1, TABLE_BYTES + 1, 2 * TABLE_BYTES];

/// The answer of a write that was done.
fn done(bytes: usize) -> Written {
    Written { refusal: 0, bytes: bytes as i32 }
}

fn refused(refusal: i32) -> Written {
    Written { refusal, bytes: 0 }
}

/// Writes and loads by both sides, and what they have met.
struct Trips {
    writes: Writes,
    loads: Comparison,
    traffic: Traffic,
    /// Random bytes; a buffer has those that begin at the place of its length.
    stock: Vec<u8>,
}

impl Trips {
    fn new() -> Trips {
        let mut random = Random::new(39_000_000);
        let stock = (0..2 * MOST_ROOM).map(|_| random.byte()).collect();
        let (writes, loads) = (Writes::new(archive::write), Comparison::new(archive::answer));
        Trips { writes, loads, traffic: Traffic::default(), stock }
    }

    /// Writes a table into a buffer of this length that is full of random bytes. If the write is done, the
    /// bytes that it says it has used load to the table again.
    fn write(&mut self, table: &[u8], length: usize, about: &str) -> Written {
        let written = self.writes.compare(table, &self.stock[length..2 * length], about);
        self.traffic.add_write(&written);
        if written.refusal == 0 {
            let file = &self.writes.buffer()[..written.bytes as usize];
            assert_eq!(self.loads.compare(file, about), (0, 0), "{about}: what was written is a file");
            assert!(self.loads.table() == table, "{about}: what was written has another table");
            self.traffic.note("table restored", 1);
        }
        written
    }

    /// Loads a right file and writes its table into a buffer with so much room to spare; the bytes are those
    /// of the file again, but for a file without bytes.
    fn restore(&mut self, file: &[u8], spare: usize, about: &str) {
        assert_eq!(self.loads.compare(file, about), (0, 0), "{about}: made to be right");
        let (table, due) = (self.loads.table().to_vec(), written_back(file));
        assert_eq!(self.write(&table, due.len() + spare, about), done(due.len()), "{about}");
        assert!(self.writes.buffer()[..due.len()] == *due, "{about}: the file has other bytes");
        self.traffic.note("file restored", 1);
    }

    /// Writes the table of a right file of so many bytes.
    fn write_right(&mut self, table: &[u8], bytes: usize, length: usize, about: &str) {
        let due = if length < bytes { refused(SHORT_BUFFER) } else { done(bytes) };
        assert_eq!(self.write(table, length, about), due, "{about}: {bytes} bytes into {length}");
    }

    /// Counts the numbers of a file that may be far from 0, by the characters that they take.
    fn note_constants(&mut self, file: &File) {
        let characters = |number: i16| number.to_string().len() as i32;
        let lowest = |number: i16| i32::from(number == i16::MIN);
        for row in &file.rows[file.section(6)] {
            if row[1] == 1 || row[1] == 2 {
                self.traffic.note("characters of a guard's constant", characters(row[3]));
                self.traffic.note("lowest number in a guard", lowest(row[3]));
            }
            if row[4] == 5 {
                self.traffic.note("characters of a set's constant", characters(row[6]));
                self.traffic.note("lowest number in a set", lowest(row[6]));
            }
        }
    }
}

/// A length for the buffer of a file of so many bytes, often too short or nearly so.
fn any_length(random: &mut Random, bytes: usize) -> usize {
    let line = LINE_BYTES;
    let near = [bytes - line, bytes - 2, bytes - 1, bytes - 1, bytes, bytes + 1, bytes + line];
    let far = [0, 1, line, TABLE_BYTES, MOST_BYTES, random.below(bytes), bytes + random.below(bytes)];
    if random.chance(60) {
        random.pick(&near)
    } else {
        random.pick(&far)
    }
}

#[test]
fn right_files() {
    let mut trips = Trips::new();
    for_seeds(40_000_000, 100_000, |random, about| {
        let file = any_valid(random);
        let text = file.text();
        let spare = random.pick(&[0, 0, 1, 2, LINE_BYTES, 1_000]);
        trips.restore(&text, spare, about);
        trips.write_right(&table_of(&file.rows), text.len(), any_length(random, text.len()), about);
        trips.note_constants(&file);
        trips.traffic.note("lines, in hundreds", file.rows.len() as i32 / 100);
        trips.traffic.note("all lines", i32::from(file.rows.len() == MOST_LINES));
    });
    let traffic = trips.traffic;
    traffic.print();
    traffic.expect("file restored", [1], 100_000);
    traffic.expect("table restored", [1], 100_000);
    traffic.expect("write", [0, SHORT_BUFFER], 30_000);
    traffic.expect("lines, in hundreds", 0..=5, 500);
    traffic.expect("all lines", [1], 500);
    for what in ["characters of a guard's constant", "characters of a set's constant"] {
        traffic.expect(what, 1..=6, 1_000);
        traffic.expect(what, [5, 6], 100_000);
    }
    traffic.expect("lowest number in a guard", [1], 50_000);
    traffic.expect("lowest number in a set", [1], 50_000);
}

/// Tables with a count at its limit, and many lengths for each.
#[test]
fn tables_at_the_limits() {
    let mut trips = Trips::new();
    for_seeds(41_000_000, 50, |random, about| {
        for size in Size::LIMITS {
            let file = valid(random, size);
            let (table, bytes) = (table_of(&file.rows), size.lines() * LINE_BYTES);
            let near = [bytes - LINE_BYTES, bytes - 1, bytes, bytes + 1, bytes + LINE_BYTES];
            let far = [0, 1, LINE_BYTES, MOST_BYTES, MOST_ROOM];
            for length in near.into_iter().chain(far) {
                trips.write_right(&table, bytes, length, &format!("{about}, {size:?}"));
            }
        }
    });
    trips.traffic.expect("write", [0, SHORT_BUFFER], 1_000);
}

/// Tables after a change, as of somebody who edits them. Some are still right.
#[test]
fn damaged_tables() {
    let mut trips = Trips::new();
    for_seeds(42_000_000, 20_000, |random, about| {
        let file = any_valid(random);
        for number in 0..5 {
            let table = damaged_table(random, &file);
            let length = any_length(random, file.rows.len() * LINE_BYTES);
            trips.write(&table, length, &format!("{about}, table {number}"));
        }
    });
    let traffic = trips.traffic;
    traffic.print();
    assert!(traffic.calls() >= 100_000);
    traffic.expect("write", [TABLE], 50_000);
    traffic.expect("write", [0, BUFFER_LENGTH, SHORT_BUFFER], 1_000);
    traffic.expect("table restored", [1], 1_000);
}

/// The length of the table comes first, then the table, and the room last.
#[test]
fn the_grounds_in_order() {
    let mut trips = Trips::new();
    let right = table_of(&cases::PAIR.map(padded));
    let mut behind = right.clone();
    behind[TABLE_BYTES - 1] = 1;
    let wrong = [behind, vec![0; TABLE_BYTES], vec![1; TABLE_BYTES], vec![255; TABLE_BYTES]];
    let bytes = cases::PAIR.len() * LINE_BYTES;
    for length in [0, 1, bytes - 1, bytes, bytes + 1, MOST_BYTES, MOST_ROOM] {
        trips.write_right(&right, bytes, length, "the right table");
        for table in &wrong {
            assert_eq!(trips.write(table, length, "a wrong table"), refused(TABLE), "{length} bytes");
        }
        for table in wrong.iter().chain([&right]) {
            for table_length in WRONG_LENGTHS {
                let table = &table.repeat(2)[..table_length];
                let written = trips.write(table, length, "a table of wrong length");
                assert_eq!(written, refused(BUFFER_LENGTH), "{table_length} bytes, {length} for the file");
            }
        }
    }
}

/// Every length up to twice that of the file.
#[test]
fn each_length_of_the_buffer() {
    let mut trips = Trips::new();
    for rows in [cases::LISTING.map(padded).to_vec(), cases::PAIR.map(padded).to_vec()] {
        let (table, bytes) = (table_of(&rows), rows.len() * LINE_BYTES);
        for length in 0..=2 * bytes {
            trips.write_right(&table, bytes, length, "a small table");
        }
    }
}

/// Every field of some small tables, set to each of many numbers.
#[test]
fn each_field_of_small_tables() {
    let mut trips = Trips::new();
    let far = [i16::MIN, -300, -17, 192, 193, 256, 257, 384, 385, i16::MAX];
    let numbers: Vec<i16> = (-4..=20).chain(far).collect();
    for rows in [cases::LISTING.map(padded).to_vec(), cases::PAIR.map(padded).to_vec()] {
        for_fields(&rows, &numbers, |rows, about| _ = trips.write(&table_of(rows), 2_000, about));
    }
    trips.traffic.expect("write", [0], 500);
    trips.traffic.expect("write", [TABLE], 10_000);
}

/// How many numbers stand as constants in one table, and in how many choices.
const CONSTANTS: usize = 256;
const CHOICES: usize = CONSTANTS / 8;

/// A file of one slot, whose choices have eight branches each: every branch has the next number as the
/// constant of its guard and of its set. The first node is a choice of one branch, which sets the slot.
fn rows_of_constants(numbers: &[i16]) -> Vec<Row> {
    let (nodes, branches) = (CHOICES as i16 + 2, CONSTANTS as i16 + 1);
    let mut rows = vec![padded(&[1, 0, 1, 1, nodes, branches]), padded(&[3, 0, 1, nodes]), padded(&[4])];
    rows.push(padded(&[5, 1, 1]));
    rows.extend([padded(&[5, 1, 8]); CHOICES]);
    rows.push(padded(&[5]));
    rows.push(padded(&[6, 0, 0, 0, 5, 0, 0, 0, 1]));
    for (place, number) in numbers.iter().enumerate() {
        let (guard, next) = (place as i16 % 2 + 1, place as i16 / 8 + 2);
        rows.push(padded(&[6, guard, 0, *number, 5, 0, *number, 0, next]));
    }
    rows
}

/// Every number that a field can have, in a guard and in a set, as the formatting of Rust prints it.
#[test]
fn every_number() {
    let mut trips = Trips::new();
    let numbers: Vec<i16> = (i16::MIN..=i16::MAX).collect();
    for constants in numbers.chunks(CONSTANTS) {
        let line = |row: &Row| row.map(|number| format!("{number:6}")).concat() + "\n";
        let text: String = rows_of_constants(constants).iter().map(line).collect();
        trips.restore(text.as_bytes(), 0, &format!("constants from {}", constants[0]));
    }
    trips.traffic.expect("file restored", [1], 256);
}

/// The proved driver writes a table and loads it again by the functions that C calls: as the reference does it
/// in two calls.
#[test]
fn the_driver_restores_tables() {
    let mut traffic = Traffic::default();
    for_seeds(43_000_000, 3_000, |random, about| {
        let file = any_valid(random);
        let table = if random.chance(80) { table_of(&file.rows) } else { damaged_table(random, &file) };
        let mut text = vec![0x5a; any_length(random, file.rows.len() * LINE_BYTES)];
        let mut other = vec![0xa5; random.pick(&[TABLE_BYTES, TABLE_BYTES, TABLE_BYTES, 0, TABLE_BYTES + 1])];
        let (mut due_text, mut due_other) = (text.clone(), other.clone());
        let written = reference::write(&table, &mut due_text);
        let due = match written.refusal {
            0 => reference::answer(&due_text[..written.bytes as usize], &mut due_other).0,
            refusal => refusal,
        };
        assert_eq!(driver::restore(&table, &mut text, &mut other), due, "{about}");
        assert!(text == due_text && other == due_other, "{about}: other bytes");
        assert!(due != 0 || other == table, "{about}: another table");
        traffic.note("restored", due);
    });
    traffic.expect("restored", [0, BUFFER_LENGTH, TABLE, SHORT_BUFFER], 200);
}

#[test]
fn examples_are_restored() {
    let mut trips = Trips::new();
    let files = examples("examples");
    for (path, text) in &files {
        for spare in [0, 1, 10_000] {
            trips.restore(text, spare, path);
        }
    }
    assert!(files.len() >= 7);
}

/// A case that loads is restored; the numbers of one that does not are no table.
fn check(case: &Case) {
    let mut trips = Trips::new();
    if case.ground == 0 {
        trips.restore(&case.file, 0, &case.name);
    } else if let Some(table) = case.table() {
        for length in [0, case.file.len() - 1, case.file.len(), MOST_BYTES] {
            assert_eq!(trips.write(&table, length, &case.name), refused(TABLE), "{}", case.name);
        }
    }
}

generate::case_tests!(check);
