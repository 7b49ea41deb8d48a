//! From the short form to the fixed columns. The short form is as people write a procedure file: with blanks between
//! the numbers, comments behind `#`, and without the zeros at the end of a line.

use std::ops::Range;

use pithread::{Row, Table, FIELDS};

use crate::layout::{BRANCH, DEFINITION, HEADER, NODE, SLOT, TYPE};
use crate::mark::Marked;
use crate::slip::{Slip, SlipKind};
use crate::text::{in_its_form, text_of};

/// Where a line of the long form comes from.
#[derive(Clone, Debug, PartialEq, Eq)]
struct Source {
    line: usize,
    text: String,
    words: Vec<Range<usize>>,
}

/// A file made from its short form.
#[derive(Clone, Debug, PartialEq, Eq)]
pub struct Lengthened {
    rows: Vec<Row>,
    sources: Vec<Option<Source>>,
}

impl Lengthened {
    /// The file in the fixed columns.
    pub fn text(&self) -> Vec<u8> {
        text_of(&self.rows)
    }

    /// The numbers of the file.
    pub fn rows(&self) -> &[Row] {
        &self.rows
    }

    /// The line of the short form from which a line of the file comes, both counted from 1; nothing for a header
    /// that was filled in where the short form has no such line.
    pub fn short_line(&self, line: usize) -> Option<usize> {
        self.source(line).map(|source| source.line)
    }

    /// The line of the short form with a field marked, line and field counted from 1; with all of its fields if
    /// none is named. A field that was left out is marked behind the last.
    pub fn marked(&self, line: usize, field: Option<usize>) -> Option<Marked> {
        let source = self.source(line)?;
        let (first, last) = (source.words.first()?, source.words.last()?);
        let part = match field {
            Some(field) => {
                let word = field.checked_sub(1).and_then(|place| source.words.get(place));
                word.cloned().unwrap_or(last.end + 1..last.end + 2)
            }
            None => first.start..last.end,
        };
        Some(Marked::new(&source.text, part))
    }

    fn source(&self, line: usize) -> Option<&Source> {
        self.sources.get(line.checked_sub(1)?)?.as_ref()
    }
}

/// Makes the file of a short form: adds the zeros at the ends of lines, sets the columns, and counts for the
/// header if that says nothing but its kind, or if there is none. Whether the file loads is not asked.
///
/// ```
/// use pithread::Table;
/// use reader::lengthen;
///
/// let made = lengthen(b"# the smallest one\n3  0 0 1\n5  0\n")?;
/// assert_eq!(made.text(), std::fs::read("../../examples/first/1.txt")?);
/// assert_eq!((made.short_line(1), made.short_line(2)), (None, Some(2)));
///
/// let slip = lengthen(b"3  0 0 1\n5  2-50  # no number\n").unwrap_err();
/// assert_eq!(slip.to_string().lines().last(), Some("   ^^^^"));
/// # Ok::<(), Box<dyn std::error::Error>>(())
/// ```
pub fn lengthen(short: &[u8]) -> Result<Lengthened, Slip> {
    let text = String::from_utf8_lossy(short);
    let mut made = Lengthened { rows: Vec::new(), sources: Vec::new() };
    for (line, text) in (1..).zip(text.lines()) {
        let words = words_of(text);
        if words.is_empty() {
            continue;
        }
        if made.rows.len() == Table::ROWS {
            return Err(Slip::new(SlipKind::ManyLines, line, text, words[0].clone()));
        }
        made.rows.push(row_of(line, text, &words)?);
        made.sources.push(Some(Source { line, text: text.to_owned(), words }));
    }
    if made.rows.is_empty() {
        return Err(Slip::new(SlipKind::NoLine, 1, text.lines().next().unwrap_or(""), 0..1));
    }
    made.fill_header();
    Ok(made)
}

impl Lengthened {
    /// Counts for the header where the short form has left that open.
    fn fill_header(&mut self) {
        let given = self.rows.iter().any(|row| row[0] == HEADER);
        if !given {
            self.rows.insert(0, header_of(&self.rows));
            self.sources.insert(0, None);
        } else if self.rows[0][0] == HEADER
            && self.sources[0].as_ref().is_some_and(|source| source.words.len() == 1)
        {
            self.rows[0] = header_of(&self.rows);
        }
    }
}

/// The header by the lines that follow it. The ports are the parameters of definition 0.
fn header_of(rows: &[Row]) -> Row {
    let count = |kind| rows.iter().filter(|row| row[0] == kind).count() as i16;
    let ports = rows.iter().find(|row| row[0] == DEFINITION).map_or(0, |row| row[1]);
    let [types, definitions, slots, nodes, branches] = [TYPE, DEFINITION, SLOT, NODE, BRANCH].map(count);
    [HEADER, types, definitions, slots, nodes, branches, ports, 0, 0, 0, 0, 0]
}

/// The words of a line in front of its comment, as places counted in characters.
fn words_of(text: &str) -> Vec<Range<usize>> {
    let mut words: Vec<Range<usize>> = Vec::new();
    let mut inside = false;
    for (place, character) in text.chars().take_while(|character| *character != '#').enumerate() {
        let blank = character.is_whitespace();
        match words.last_mut() {
            Some(word) if inside && !blank => word.end = place + 1,
            _ if !blank => words.push(place..place + 1),
            _ => {}
        }
        inside = !blank;
    }
    words
}

fn row_of(line: usize, text: &str, words: &[Range<usize>]) -> Result<Row, Slip> {
    let mut row = [0; FIELDS];
    let mut characters = text.chars();
    let mut passed = 0;
    for (place, part) in words.iter().enumerate() {
        let word: String = characters.by_ref().skip(part.start - passed).take(part.len()).collect();
        passed = part.end;
        let slip = |kind, part| Slip::new(kind, line, text, part);
        let number = number_of(&word).map_err(|(kind, within)| {
            let end =
                if kind == SlipKind::Text { words[words.len() - 1].end } else { part.start + within.end };
            slip(kind, part.start + within.start..end)
        })?;
        *row.get_mut(place).ok_or_else(|| slip(SlipKind::Thirteenth, part.clone()))? = number;
    }
    Ok(row)
}

/// The number that a word stands for, or what is wrong with it and with which of its characters.
fn number_of(word: &str) -> Result<i16, (SlipKind, Range<usize>)> {
    let all = 0..word.chars().count();
    if let Some(comma) = word.chars().position(|character| character == ',') {
        return Err((SlipKind::Comma, comma..comma + 1));
    }
    let unsigned = word.strip_prefix(['+', '-']).unwrap_or(word);
    if unsigned.is_empty() || !unsigned.bytes().all(|byte| byte.is_ascii_digit()) {
        let text = word.chars().next().is_some_and(char::is_alphabetic);
        let kind = if text { SlipKind::Text } else { SlipKind::NoNumber(shown(word)) };
        return Err((kind, all));
    }
    let Ok(number) = word.parse() else { return Err((SlipKind::Outside(shown(word)), all)) };
    match in_its_form(word, number) {
        true => Ok(number),
        false => Err((SlipKind::Form(shown(word), number), all)),
    }
}

/// A word for a message: no longer than what one reads, and without characters that do something to a screen.
fn shown(word: &str) -> String {
    const MOST: usize = 20;
    let start: String = word.chars().take(MOST).flat_map(char::escape_debug).collect();
    match word.chars().nth(MOST) {
        Some(_) => start + "...",
        None => start,
    }
}
