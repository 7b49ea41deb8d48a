//! Single files with the answer that each must get, group by group.

use crate::file::{text_of, written_back, LINE_BYTES, MOST_LINES, SMALLEST};
use crate::tables::TABLE_BYTES;

/// A file and the ground and line of its refusal; 0 and 0 if it loads.
pub struct Case {
    pub name: String,
    pub file: Vec<u8>,
    pub ground: i32,
    pub line: i32,
}

impl Case {
    /// The table of its numbers, if its file has whole lines of numbers and not too many; of a file without
    /// bytes that of the smallest one.
    pub fn table(&self) -> Option<Vec<u8>> {
        if self.ground == 1 || self.ground == 2 {
            return None;
        }
        let text = written_back(&self.file);
        let lines = text.chunks(LINE_BYTES);
        let fields = lines.flat_map(|line| line[..LINE_BYTES - 1].chunks(6));
        let mut table: Vec<u8> = fields.flat_map(|field| number_of(field).to_le_bytes()).collect();
        table.resize(TABLE_BYTES, 0);
        Some(table)
    }
}

fn number_of(field: &[u8]) -> i16 {
    let text = std::str::from_utf8(field).expect("well formed");
    text.trim_start().parse().expect("well formed")
}

/// Six characters that are no field.
pub const BAD_FIELDS: [[u8; 6]; 26] = [
    *b"-32769",
    *b" 32768",
    *b"    07",
    *b"    -0",
    *b"    +1",
    *b"      ",
    *b"     -",
    *b"1     ",
    *b"   1 2",
    *b"  -  1",
    *b"   --1",
    *b"000000",
    *b"999999",
    *b"-99999",
    *b"  0x10",
    *b"    1\n",
    *b"\t    1",
    *b"    \x001",
    *b"     \xb2",
    *b"   1.0",
    *b"1    1",
    *b"-00001",
    *b"     /",
    *b"     :",
    *b" 70000",
    *b"  1e00",
];

/// Makes one test for each group: it hands each case of the group to the function named.
#[macro_export]
macro_rules! case_tests {
    ($check:path) => {
        $crate::case_tests!($check; lengths fields counts kinds sums ranges targets ports types reads unreachable first);
    };
    ($check:path; $($group:ident)*) => {
        $(
            #[test]
            fn $group() {
                $crate::cases::$group().iter().for_each($check);
            }
        )*
    };
}

/// A file of sixteen lines: one thread makes a channel, starts a second thread and sends it 7.
pub const LISTING: [&[i16]; 16] = [
    &[1, 1, 1, 2, 6, 5, 0],
    &[2, 0],
    &[3, 0, 2, 6],
    &[4, 1],
    &[4, 0],
    &[5, 1, 1],
    &[5, 1, 1],
    &[5, 1, 1],
    &[5, 1, 1],
    &[5, 1, 1],
    &[5, 0],
    &[6, 0, 0, 0, 3, 0, 0, 0, 1],
    &[6, 0, 0, 0, 4, 0, 0, 0, 2, 4],
    &[6, 0, 0, 0, 5, 1, 7, 0, 3],
    &[6, 0, 0, 0, 1, 0, 1, 0, 5],
    &[6, 0, 0, 0, 2, 0, 1, 0, 5],
];

/// A file of twenty lines with a port, two definitions that call each other, and a type that
/// carries itself.
pub const PAIR: [&[i16]; 20] = [
    &[1, 2, 2, 5, 6, 4, 1],
    &[2, 0],
    &[2, 2],
    &[3, 1, 3, 3],
    &[3, 2, 2, 3],
    &[4, 1],
    &[4, 0],
    &[4, 2],
    &[4, 1],
    &[4, 0],
    &[5, 1, 1],
    &[5, 1, 1],
    &[5, 2, 1, 0, 1],
    &[5, 1, 2],
    &[5, 2, 0, 0],
    &[5, 0],
    &[6, 0, 0, 0, 2, 0, 1, 0, 1],
    &[6, 0, 0, 0, 3, 2, 0, 0, 2],
    &[6, 2, 1, 0, 0, 0, 0, 0, 2],
    &[6, 0, 0, 0, 1, 0, 1, 0, 1],
];

/// A line, a field of it (both counted from 1) and the number to put there.
type Edit = (usize, usize, i16);

fn edited(base: &[&[i16]], edits: &[Edit]) -> Vec<u8> {
    let mut rows: Vec<Vec<i16>> = base.iter().map(|row| row.to_vec()).collect();
    for (line, field, number) in edits {
        let row = &mut rows[line - 1];
        row.resize(row.len().max(*field), 0);
        row[field - 1] = *number;
    }
    text_of(&rows)
}

fn case(name: impl Into<String>, file: Vec<u8>, ground: i32, line: i32) -> Case {
    Case { name: name.into(), file, ground, line }
}

fn listing(edits: &[Edit], ground: i32, line: i32) -> Case {
    case(format!("listing with {edits:?}"), edited(&LISTING, edits), ground, line)
}

fn pair(edits: &[Edit], ground: i32, line: i32) -> Case {
    case(format!("pair with {edits:?}"), edited(&PAIR, edits), ground, line)
}

fn rows(rows: &[&[i16]], ground: i32, line: i32) -> Case {
    case(format!("rows {rows:?}"), text_of(rows), ground, line)
}

pub fn lengths() -> Vec<Case> {
    let right = text_of(&LISTING);
    let header = &right[..LINE_BYTES];
    vec![
        listing(&[], 0, 0),
        pair(&[], 0, 0),
        case("empty", Vec::new(), 0, 0),
        case("a newline alone", b"\n".to_vec(), 1, 0),
        case("1 byte", right[..1].to_vec(), 1, 0),
        case("72 bytes", right[..72].to_vec(), 1, 0),
        case("74 bytes", right[..74].to_vec(), 1, 0),
        case("last newline missing", right[..right.len() - 1].to_vec(), 1, 0),
        case("73 bytes of x", vec![b'x'; LINE_BYTES], 2, 1),
        case("73 bytes of 0", vec![0; LINE_BYTES], 2, 1),
        case("73 newlines", vec![b'\n'; LINE_BYTES], 2, 1),
        case("73 blanks", vec![b' '; LINE_BYTES], 2, 1),
        case("73 bytes of 255", vec![255; LINE_BYTES], 2, 1),
        case("header alone", header.to_vec(), 3, 1),
        case("865 headers", header.repeat(MOST_LINES), 3, 1),
        case("866 lines", header.repeat(MOST_LINES + 1), 1, 0),
        case("866 lines of x", vec![b'x'; LINE_BYTES * (MOST_LINES + 1)], 1, 0),
        case("a megabyte", vec![b'0'; 1 << 20], 1, 0),
        case("a megabyte of whole lines", header.repeat((1 << 20) / LINE_BYTES), 1, 0),
    ]
}

/// The listing with other bytes from this field on.
fn with_bytes(line: usize, field: usize, bytes: &[u8], ground: i32, at: i32) -> Case {
    let mut file = text_of(&LISTING);
    let start = (line - 1) * LINE_BYTES + (field - 1) * 6;
    file[start..start + bytes.len()].copy_from_slice(bytes);
    case(format!("listing, line {line} field {field} {:?}", String::from_utf8_lossy(bytes)), file, ground, at)
}

pub fn fields() -> Vec<Case> {
    let mut cases = vec![
        with_bytes(14, 7, b"-32768", 0, 0),
        with_bytes(14, 7, b" 32767", 0, 0),
        with_bytes(14, 7, b"    -1", 0, 0),
        with_bytes(1, 1, b"     1", 0, 0),
        with_bytes(12, 12, b"     0 ", 2, 12),
        with_bytes(1, 12, b"     0\r", 2, 1),
        with_bytes(16, 12, b"     0\0", 2, 16),
    ];
    cases.extend(BAD_FIELDS.iter().map(|bytes| with_bytes(14, 7, bytes, 2, 14)));
    cases.extend((1..=16).map(|line| with_bytes(line, 12, b"   0x0", 2, line as i32)));
    cases.extend((1..=12).map(|field| with_bytes(9, field, b"    00", 2, 9)));
    cases
}

pub fn counts() -> Vec<Case> {
    let outside: [(usize, [i16; 3]); 6] = [
        (2, [-1, 17, i16::MIN]),
        (3, [-1, 0, 17]),
        (4, [-1, 257, i16::MAX]),
        (5, [-1, 0, 193]),
        (6, [-1, 385, i16::MIN]),
        (7, [-1, 9, i16::MAX]),
    ];
    let mut cases = Vec::new();
    for (field, numbers) in outside {
        cases.extend(numbers.map(|number| listing(&[(1, field, number)], 3, 1)));
    }
    cases.push(rows(&LISTING[..15], 3, 1));
    cases.push(rows(&[&LISTING[..], &LISTING[15..]].concat(), 3, 1));
    cases.push(rows(&[&[0]], 3, 1));
    cases.push(rows(&SMALLEST, 0, 0));
    cases
}

pub fn kinds() -> Vec<Case> {
    let mut cases: Vec<Case> = (1..=16).map(|line| listing(&[(line, 1, 0)], 3, line as i32)).collect();
    cases.extend((1..=20).map(|line| pair(&[(line, 1, -3)], 3, line as i32)));
    cases.extend([
        // The total comes before the kinds, and these before the sums.
        case("kind and total", edited(&LISTING[..15], &[(7, 1, 6)]), 3, 1),
        listing(&[(7, 1, 6), (3, 3, 3)], 3, 7),
        listing(&[(5, 1, 3), (6, 3, 5)], 3, 5),
        // One type more and one slot less: the first line that is not what the header says.
        listing(&[(1, 2, 2), (1, 4, 1)], 3, 3),
        listing(&[(1, 1, 2)], 3, 1),
        listing(&[(1, 1, 2), (8, 1, 0)], 3, 1),
    ]);
    cases
}

pub fn sums() -> Vec<Case> {
    vec![
        listing(&[(3, 3, 3)], 3, 1),
        listing(&[(3, 4, 5)], 3, 1),
        listing(&[(6, 3, 2)], 3, 1),
        listing(&[(6, 3, 0)], 3, 1),
        // An end or a call counts no branches, and a choice that became one counts none either.
        listing(&[(11, 3, 1)], 4, 11),
        listing(&[(6, 2, 0)], 3, 1),
        listing(&[(11, 2, 3), (11, 3, 7)], 4, 11),
        // Right in sum, though no single number is.
        pair(&[(4, 3, 20), (5, 3, -15)], 4, 4),
        pair(&[(4, 3, -4), (5, 3, 9)], 4, 4),
        pair(&[(5, 3, 20), (4, 3, -15)], 4, 4),
        pair(&[(4, 4, 8), (5, 4, -2)], 4, 5),
        pair(&[(4, 4, 6), (5, 4, 0)], 4, 5),
        pair(&[(11, 3, 20), (12, 3, -18)], 4, 11),
        pair(&[(11, 3, 2), (12, 3, 0)], 4, 12),
        listing(&[(6, 3, 0), (7, 3, 2)], 4, 6),
        listing(&[(6, 3, i16::MAX), (7, 3, i16::MAX), (8, 3, -32767), (9, 3, -32767), (10, 3, 5)], 4, 6),
        listing(&[(6, 3, i16::MAX), (7, 3, i16::MAX), (8, 3, 7), (9, 3, 0), (10, 3, 0)], 3, 1),
    ]
}

/// Each of these fields, set to each of these numbers, is a fault of its line.
fn each_out_of_range(
    base: fn(&[Edit], i32, i32) -> Case,
    line: usize,
    fields: &[usize],
    numbers: &[i16],
) -> Vec<Case> {
    let edits = fields.iter().flat_map(|field| numbers.iter().map(move |number| (line, *field, *number)));
    edits.map(|edit| base(&[edit], 4, line as i32)).collect()
}

pub fn ranges() -> Vec<Case> {
    const UNUSED: [i16; 4] = [1, -1, i16::MIN, i16::MAX];
    const NOT_A_SLOT: [i16; 4] = [3, -1, i16::MIN, i16::MAX];
    let mut cases = Vec::new();
    let mut bad = |line, fields: &[usize], numbers: &[i16]| {
        cases.extend(each_out_of_range(pair, line, fields, numbers));
    };
    bad(1, &[8, 9, 10, 11, 12], &UNUSED);
    bad(2, &[2], &NOT_A_SLOT);
    bad(3, &[3, 4, 5, 6, 7, 8, 9, 10, 11, 12], &UNUSED);
    bad(4, &[2], &[4, 9, -1]);
    bad(5, &[2], &[3, 9, -1]);
    bad(5, &[5, 6, 7, 8, 9, 10, 11, 12], &UNUSED);
    bad(6, &[2], &NOT_A_SLOT);
    bad(10, &[3, 4, 5, 6, 7, 8, 9, 10, 11, 12], &UNUSED);
    bad(11, &[4, 5, 6, 7, 8, 9, 10, 11, 12], &UNUSED);
    bad(13, &[2], &[0, 3, -1]);
    bad(13, &[3], &[2, -1, 16]);
    bad(13, &[4, 5], &NOT_A_SLOT);
    bad(13, &[6, 7, 8, 9, 10, 11, 12], &UNUSED);
    bad(15, &[4], &[2, 3, -1]);
    bad(15, &[5, 12], &UNUSED);
    bad(16, &[2], &[3, -1, i16::MIN]);
    bad(16, &[3, 4, 12], &UNUSED);
    bad(17, &[2, 5], &[-1, 8, i16::MIN]);
    bad(17, &[3, 4, 8, 10, 11, 12], &UNUSED);
    bad(17, &[6, 7], &NOT_A_SLOT);
    bad(18, &[7, 8, 10], &UNUSED);
    bad(18, &[6], &NOT_A_SLOT);
    bad(19, &[2], &[5, -1]);
    bad(19, &[3], &[2, -1, 3]);
    bad(19, &[6, 7, 8, 10], &UNUSED);
    bad(20, &[6, 7], &[2, -1, 3]);
    cases.extend(each_out_of_range(listing, 13, &[6, 7, 8, 11, 12], &UNUSED));
    cases.extend(each_out_of_range(listing, 14, &[8, 10], &UNUSED));
    cases.extend([
        pair(&[(19, 4, i16::MIN)], 0, 0),
        pair(&[(19, 4, i16::MAX)], 0, 0),
        pair(&[(19, 2, 4), (19, 4, 2)], 4, 19),
        pair(&[(19, 2, 3), (19, 4, -1)], 4, 19),
        listing(&[(14, 5, 6), (14, 8, 2)], 4, 14),
        listing(&[(14, 5, 7), (14, 7, 0), (14, 8, -1)], 4, 14),
    ]);
    cases
}

pub fn targets() -> Vec<Case> {
    let mut cases = Vec::new();
    // Node 1, a spawn, on line 13; node 3, a send, on line 15; there are six nodes.
    for wrong in [1, 0, -1, 6, 7, i16::MIN, i16::MAX] {
        cases.push(listing(&[(13, 9, wrong)], 4, 13));
        cases.push(listing(&[(13, 10, wrong)], 4, 13));
        cases.push(listing(&[(16, 9, wrong)], 4, 16));
    }
    cases.extend([
        listing(&[(15, 9, 3)], 4, 15),
        listing(&[(15, 9, 2)], 4, 15),
        listing(&[(15, 10, 5)], 4, 15),
        listing(&[(13, 9, 4), (13, 10, 2)], 0, 0),
        // Past the end of its own definition, though the file has more nodes.
        pair(&[(18, 9, 3)], 4, 18),
        pair(&[(20, 9, 3)], 4, 20),
        // No branch of a last node can lead anywhere.
        rows(&[&[1, 0, 1, 0, 1, 1], &[3, 0, 0, 1], &[5, 1, 1], &[6]], 4, 4),
        rows(&[&[1, 0, 1, 0, 1, 1], &[3, 0, 0, 1], &[5, 1, 1], &[6, 0, 0, 0, 0, 0, 0, 0, 1]], 4, 4),
        rows(
            &[
                &[1, 0, 2, 0, 2, 1],
                &[3, 0, 0, 1],
                &[3, 0, 0, 1],
                &[5, 1, 1],
                &[5],
                &[6, 0, 0, 0, 0, 0, 0, 0, 1],
            ],
            4,
            6,
        ),
    ]);
    cases
}

pub fn ports() -> Vec<Case> {
    vec![
        pair(&[(1, 7, 0)], 5, 4),
        pair(&[(1, 7, 2)], 5, 4),
        pair(&[(6, 2, 2)], 5, 4),
        pair(&[(6, 2, 0)], 5, 4),
        pair(&[(2, 2, 1)], 5, 4),
        pair(&[(2, 2, 2)], 5, 4),
        listing(&[(1, 7, 1)], 5, 3),
        listing(&[(3, 2, 1)], 5, 3),
        listing(&[(3, 2, 1), (1, 7, 1)], 0, 0),
        listing(&[(3, 2, 2), (1, 7, 2)], 5, 3),
        rows(&[&[1, 0, 1, 1, 1, 0, 1], &[3, 1, 1, 1], &[4, 0], &[5]], 5, 2),
        rows(&[&[1, 0, 1, 1, 1, 0, 0], &[3, 1, 1, 1], &[4, 0], &[5]], 5, 2),
        rows(&[&[1, 0, 1, 0, 1, 0, 1], &[3, 0, 0, 1], &[5]], 5, 2),
        rows(&[&[1, 0, 1, 1, 1, 0, 0], &[3, 0, 1, 1], &[4, 0], &[5]], 0, 0),
    ]
}

/// One type that carries itself: a new channel, then an exchange of the slot with itself.
fn itself(first_action: i16, second_action: i16, ground: i32, line: i32) -> Case {
    rows(
        &[
            &[1, 1, 1, 1, 3, 2, 0],
            &[2, 1],
            &[3, 0, 1, 3],
            &[4, 1],
            &[5, 1, 1],
            &[5, 1, 1],
            &[5],
            &[6, 0, 0, 0, first_action, 0, 0, 0, 1],
            &[6, 0, 0, 0, second_action, 0, 0, 0, 2],
        ],
        ground,
        line,
    )
}

pub fn types() -> Vec<Case> {
    vec![
        pair(&[(13, 4, 1)], 5, 13),
        pair(&[(13, 5, 0)], 5, 13),
        pair(&[(13, 5, 2)], 5, 13),
        pair(&[(15, 4, 1)], 5, 15),
        // A number where a channel is asked for.
        pair(&[(17, 6, 1)], 5, 17),
        pair(&[(18, 6, 1)], 5, 18),
        pair(&[(20, 6, 1)], 5, 20),
        pair(&[(20, 6, 1), (20, 7, 0)], 5, 20),
        // A value of another type than the channel carries.
        pair(&[(17, 7, 0)], 5, 17),
        pair(&[(17, 7, 2)], 5, 17),
        pair(&[(20, 7, 0)], 5, 20),
        // Channels in guards, in a set and in sums.
        pair(&[(19, 3, 0)], 5, 19),
        pair(&[(19, 2, 3), (19, 4, 0)], 5, 19),
        pair(&[(19, 2, 4), (19, 3, 0), (19, 4, 1)], 5, 19),
        pair(&[(19, 2, 4), (19, 4, 1)], 0, 0),
        listing(&[(14, 6, 0)], 5, 14),
        listing(&[(14, 5, 6), (14, 7, 0)], 5, 14),
        listing(&[(14, 5, 7), (14, 7, 1), (14, 8, 0)], 5, 14),
        listing(&[(14, 5, 6), (14, 6, 0), (14, 7, 1), (14, 8, 1)], 5, 14),
        itself(3, 1, 0, 0),
        itself(3, 2, 0, 0),
        itself(2, 1, 6, 8),
        itself(0, 2, 6, 9),
        // Calls stand before all branches; the rule of the ports comes before both.
        pair(&[(17, 7, 0), (15, 4, 1)], 5, 15),
        pair(&[(17, 7, 0), (15, 4, 1), (2, 2, 1)], 5, 4),
        // Types are looked at in nodes that cannot be reached.
        listing(&[(13, 10, 5), (16, 7, 0)], 5, 16),
    ]
}

/// Sets slot 0.
const SETS: [i16; 4] = [5, 0, 1, 0];

/// Two ways to node 1, which reads slot 0, as does node 2: an action and its operands for each.
fn two_ways(one: [i16; 4], other: [i16; 4], ground: i32, line: i32) -> Case {
    let way = |action: [i16; 4]| [&[6, 0, 0, 0], &action[..], &[1]].concat();
    rows(
        &[
            &[1, 0, 1, 2, 4, 4, 0],
            &[3, 0, 2, 4],
            &[4, 0],
            &[4, 0],
            &[5, 1, 2],
            &[5, 1, 1],
            &[5, 1, 1],
            &[5, 0],
            &way(one),
            &way(other),
            &[6, 1, 0, 5, 7, 1, 0, 0, 2],
            &[6, 4, 0, 1, 6, 1, 0, 0, 3],
        ],
        ground,
        line,
    )
}

pub fn reads() -> Vec<Case> {
    vec![
        // Without the set, the send has nothing to send; without the new, no channel.
        listing(&[(14, 5, 0), (14, 6, 0), (14, 7, 0)], 6, 15),
        listing(&[(12, 5, 0)], 6, 15),
        // A guard is tested before its own branch writes.
        listing(&[(14, 2, 1), (14, 3, 1)], 6, 14),
        listing(&[(14, 2, 4), (14, 3, 1), (14, 4, 1)], 6, 14),
        listing(&[(15, 2, 3), (15, 3, 1), (15, 4, 1)], 0, 0),
        // A sum reads what it adds and not where it puts it.
        listing(&[(14, 5, 6), (14, 7, 1), (14, 8, 1)], 6, 14),
        listing(&[(15, 5, 7), (15, 6, 1), (15, 7, 1), (15, 8, 1)], 0, 0),
        // The thread that is spawned has what was written before, not what the other writes later.
        listing(&[(16, 2, 1), (16, 3, 1)], 6, 16),
        listing(&[(16, 5, 1)], 6, 16),
        // What is read must be written on both ways; the minus of node 1 writes what node 2 reads.
        two_ways(SETS, SETS, 0, 0),
        two_ways(SETS, [5, 1, 9, 0], 6, 11),
        two_ways([5, 1, 9, 0], SETS, 6, 11),
        two_ways(SETS, [0, 0, 0, 0], 6, 11),
        two_ways([0, 0, 0, 0], SETS, 6, 11),
        two_ways(SETS, [6, 0, 1, 1], 6, 10),
        two_ways([7, 0, 0, 0], SETS, 6, 9),
        // Arguments, in a node's line, which stands before the branches.
        pair(&[(17, 5, 0), (17, 6, 0), (17, 7, 0)], 6, 13),
        pair(&[(17, 5, 0), (17, 6, 0), (17, 7, 0), (18, 2, 2), (18, 3, 1)], 6, 13),
        pair(&[(18, 2, 2), (18, 3, 1)], 0, 0),
    ]
}

pub fn unreachable() -> Vec<Case> {
    vec![
        listing(&[(13, 10, 5)], 7, 10),
        listing(&[(13, 10, 3), (13, 9, 3)], 6, 15),
        listing(&[(14, 9, 4)], 7, 9),
        listing(&[(12, 9, 5)], 7, 7),
        // What stands in a node that cannot be reached is not read.
        listing(&[(13, 10, 5), (12, 5, 0), (15, 5, 0), (15, 6, 0), (15, 7, 0)], 7, 10),
        listing(&[(13, 10, 5), (16, 2, 1), (16, 3, 1)], 7, 10),
        // Reached only from a node that is not reached.
        rows(
            &[&[1, 0, 1, 0, 3, 1], &[3, 0, 0, 3], &[5], &[5, 1, 1], &[5], &[6, 0, 0, 0, 0, 0, 0, 0, 2]],
            7,
            4,
        ),
        rows(&[&[1, 0, 2, 0, 3, 0], &[3, 0, 0, 1], &[3, 0, 0, 2], &[5], &[5], &[5]], 7, 6),
    ]
}

/// Several faults at once: the lowest ground, then the first line.
pub fn first() -> Vec<Case> {
    let mut malformed = edited(&LISTING, &[(1, 3, 40), (3, 3, -9)]);
    malformed[15 * LINE_BYTES] = b'x';
    vec![
        case("field and header", malformed.clone(), 2, 16),
        case("field, header and length", malformed[..malformed.len() - 1].to_vec(), 1, 0),
        pair(&[(1, 8, 1), (20, 1, 5)], 3, 20),
        pair(&[(1, 8, 1), (6, 2, 9)], 4, 1),
        pair(&[(20, 12, 1), (6, 2, 2)], 4, 20),
        pair(&[(20, 12, 1), (13, 3, 7)], 4, 13),
        pair(&[(17, 9, 2), (20, 7, 0)], 5, 20),
        pair(&[(17, 9, 2), (17, 5, 0), (17, 6, 0), (17, 7, 0)], 6, 13),
        pair(&[(17, 9, 2)], 7, 12),
    ]
}
