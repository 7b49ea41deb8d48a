//! Files as rows of numbers, and their text.

use std::borrow::Cow;
use std::ops::Range;

use crate::size::Size;

pub const FIELDS: usize = 12;
pub const LINE_BYTES: usize = 73;
pub const MOST_LINES: usize = 865;

pub type Row = [i16; FIELDS];

/// The smallest file that has lines: one definition, whose only node is an end.
pub const SMALLEST: [&[i16]; 3] = [&[1, 0, 1, 0, 1], &[3, 0, 0, 1], &[5]];

/// Where a branch belongs.
#[derive(Clone, Copy)]
pub struct Owner {
    pub definition: usize,
    /// The number of its node inside the definition.
    pub node: usize,
}

/// A right file, with what is needed to find one's way in it.
#[derive(Clone)]
pub struct File {
    pub size: Size,
    pub rows: Vec<Row>,
    /// For each definition, its own slots and its own nodes, as places in `rows`.
    pub slots_of: Vec<Range<usize>>,
    pub nodes_of: Vec<Range<usize>>,
    /// One for each branch.
    pub owners: Vec<Owner>,
}

impl File {
    /// A file of these rows, which must be right ones.
    pub fn new(rows: Vec<Row>) -> File {
        let [_, types, definitions, slots, nodes, branches, ports, ..] = rows[0].map(count);
        let size = Size { types, definitions, slots, nodes, branches, ports };
        let mut file = File { size, rows, slots_of: Vec::new(), nodes_of: Vec::new(), owners: Vec::new() };
        let (mut slots, mut nodes) = (file.section(4).start, file.section(5).start);
        for definition in 0..definitions {
            let row = file.rows[file.section(3).start + definition];
            file.slots_of.push(slots..slots + count(row[2]));
            file.nodes_of.push(nodes..nodes + count(row[3]));
            slots += count(row[2]);
            for node in 0..count(row[3]) {
                let branches = branches_of(&file.rows[nodes + node]);
                file.owners.extend((0..branches).map(|_| Owner { definition, node }));
            }
            nodes += count(row[3]);
        }
        file
    }

    /// The text, as bytes.
    pub fn text(&self) -> Vec<u8> {
        text_of(&self.rows)
    }

    /// The places in `rows` of the lines of a kind, 1 to 6.
    pub fn section(&self, kind: usize) -> Range<usize> {
        let size = &self.size;
        let lengths = [1, size.types, size.definitions, size.slots, size.nodes, size.branches];
        let start = lengths[..kind - 1].iter().sum();
        start..start + lengths[kind - 1]
    }
}

fn count(number: i16) -> usize {
    usize::try_from(number).expect("counts in a right file are not negative")
}

/// How many branches a node has.
fn branches_of(node: &Row) -> usize {
    if node[1] == 1 {
        count(node[2])
    } else {
        0
    }
}

/// A row of these numbers, and zeros behind them.
pub fn padded(numbers: &[i16]) -> Row {
    std::array::from_fn(|place| numbers.get(place).copied().unwrap_or(0))
}

/// The text of some lines. A row shorter than twelve numbers goes on with zeros.
pub fn text_of<R: AsRef<[i16]>>(rows: &[R]) -> Vec<u8> {
    let mut text = Vec::with_capacity(rows.len() * LINE_BYTES);
    for row in rows {
        for number in padded(row.as_ref()) {
            text.extend_from_slice(&field(number));
        }
        text.push(b'\n');
    }
    text
}

/// What the table of a right file is written as: the file itself, but for one without bytes, which loads as
/// the smallest file.
pub fn written_back(file: &[u8]) -> Cow<'_, [u8]> {
    match file {
        [] => Cow::Owned(text_of(&SMALLEST)),
        _ => Cow::Borrowed(file),
    }
}

/// A number set to the right in six characters.
fn field(number: i16) -> [u8; 6] {
    let mut field = *b"     0";
    let mut left = number.unsigned_abs();
    let mut place = 6;
    while left > 0 {
        place -= 1;
        field[place] = b'0' + (left % 10) as u8;
        left /= 10;
    }
    if number < 0 {
        field[place - 1] = b'-';
    }
    field
}
