//! The file cut into its kinds of line: ground 3.

use std::ops::RangeInclusive;

use crate::{Refusal, Row};

const HEADER_RANGES: [RangeInclusive<i16>; 6] = [0..=16, 1..=16, 0..=256, 1..=192, 0..=384, 0..=8];

/// The lines of one kind.
#[derive(Clone, Copy)]
pub struct Section<'a> {
    pub rows: &'a [Row],
    first_line: usize,
}

impl<'a> Section<'a> {
    /// The line, counted from 1, on which a row of this section stands.
    pub fn line(&self, index: usize) -> usize {
        self.first_line + index
    }

    /// Refuses the first row that fails the test.
    pub fn each(&self, ground: i32, test: impl Fn(&Row) -> bool) -> Result<(), Refusal> {
        match self.rows.iter().position(|row| !test(row)) {
            Some(index) => Err(Refusal::new(ground, self.line(index))),
            None => Ok(()),
        }
    }

    fn sum(&self, number: impl Fn(&Row) -> i16) -> i32 {
        self.rows.iter().map(|row| i32::from(number(row))).sum()
    }
}

pub struct Sections<'a> {
    pub header: Section<'a>,
    pub types: Section<'a>,
    pub definitions: Section<'a>,
    pub slots: Section<'a>,
    pub nodes: Section<'a>,
    pub branches: Section<'a>,
}

impl<'a> Sections<'a> {
    pub fn new(rows: &'a [Row]) -> Result<Sections<'a>, Refusal> {
        let header = &rows[0];
        if !header_in_range(header) || line_total(header) != rows.len() {
            return Err(Refusal::new(3, 1));
        }
        let sections = cut(rows, header);
        sections.kinds()?;
        if !sections.sums_agree(header) {
            return Err(Refusal::new(3, 1));
        }
        Ok(sections)
    }

    pub fn ports(&self) -> usize {
        count(self.header.rows[0][6])
    }

    fn kinds(&self) -> Result<(), Refusal> {
        let in_order = [self.header, self.types, self.definitions, self.slots, self.nodes, self.branches];
        for (kind, section) in (1..).zip(in_order) {
            section.each(3, |row| row[0] == kind)?;
        }
        Ok(())
    }

    fn sums_agree(&self, header: &Row) -> bool {
        let choice_branches = |row: &Row| if row[1] == 1 { row[2] } else { 0 };
        self.definitions.sum(|row| row[2]) == i32::from(header[3])
            && self.definitions.sum(|row| row[3]) == i32::from(header[4])
            && self.nodes.sum(choice_branches) == i32::from(header[5])
    }
}

pub fn header_in_range(header: &Row) -> bool {
    header[1..7].iter().zip(HEADER_RANGES).all(|(number, range)| range.contains(number))
}

/// How many lines a header in range asks for, itself included.
pub fn line_total(header: &Row) -> usize {
    1 + header[1..6].iter().map(|number| count(*number)).sum::<usize>()
}

/// A number that was found not to be negative, as a count.
pub fn count(number: i16) -> usize {
    usize::try_from(number).expect("tested before: not negative")
}

fn cut<'a>(rows: &'a [Row], header: &Row) -> Sections<'a> {
    let mut start = 0;
    let mut next = |length: usize| {
        let section = Section { rows: &rows[start..start + length], first_line: start + 1 };
        start += length;
        section
    };
    Sections {
        header: next(1),
        types: next(count(header[1])),
        definitions: next(count(header[2])),
        slots: next(count(header[3])),
        nodes: next(count(header[4])),
        branches: next(count(header[5])),
    }
}
