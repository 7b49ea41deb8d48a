//! Grounds 1 and 2: whole lines, and fields in their form.

use pithread::header::LINE_BYTES;
use pithread::{Refusal, Row, Table, FIELDS};

use super::Finding;
use crate::mark::Marked;
use crate::text::{read_field, LINE_WIDTH, NUMBER, WIDTH};
use crate::words::counted;

/// The most lines of a wrong length that are named.
const MOST_NAMED: usize = 3;

/// The rows of a file, or why it has none.
pub fn read(file: &[u8]) -> Result<Vec<Row>, Vec<Finding>> {
    let lines = file.len() / LINE_BYTES;
    if !file.len().is_multiple_of(LINE_BYTES) {
        return Err(vec![not_whole(file)]);
    }
    if lines > Table::ROWS {
        let wrong = format!("the file has {lines} lines");
        return Err(vec![Finding::new(Refusal::FileLength, None, wrong, format!("at most {}", Table::ROWS))]);
    }
    let mut found = Vec::new();
    let rows =
        (1..).zip(file.chunks(LINE_BYTES)).map(|(line, bytes)| read_line(line, bytes, &mut found)).collect();
    if found.is_empty() {
        Ok(rows)
    } else {
        Err(found)
    }
}

/// A file that ends inside a line.
fn not_whole(file: &[u8]) -> Finding {
    let (lines, rest) = (file.len() / LINE_BYTES, file.len() % LINE_BYTES);
    let wrong = format!("the file has {} bytes, which is {lines} times 73 and {rest} more", file.len());
    let expected = "lines of 72 characters with a newline behind each";
    let mut others =
        file.split_inclusive(|byte| *byte == b'\n').enumerate().filter(|(_, line)| !is_whole(line));
    let finding = Finding::new(Refusal::FileLength, None, wrong, expected);
    let Some((_, first)) = others.clone().next() else { return finding };
    let text = String::from_utf8_lossy(first);
    let end = text.trim_end_matches('\n').chars().count();
    let marked = Marked::new(text.trim_end_matches('\n'), end.min(LINE_WIDTH)..end.max(LINE_WIDTH));
    let mut notes: Vec<String> =
        others.by_ref().take(MOST_NAMED).map(|(index, line)| length_words(index + 1, line)).collect();
    let more = others.count();
    if more > 0 {
        notes.push(format!("and {} of another length behind these", counted(more, "line")));
    }
    finding.with_marked(marked).with_notes(notes)
}

fn is_whole(line: &[u8]) -> bool {
    line.len() == LINE_BYTES && line.ends_with(b"\n")
}

fn length_words(line: usize, bytes: &[u8]) -> String {
    let (text, end) = match bytes {
        [text @ .., b'\r', b'\n'] => (text, "and ends with CR and LF, not with LF alone"),
        [text @ .., b'\n'] => (text, "and a newline"),
        text => (text, "and no newline"),
    };
    format!("line {line} has {} {end}", counted(text.len(), "character"))
}

/// The numbers of a line of the right length; what is at fault in it is added to the findings.
fn read_line(line: u32, bytes: &[u8], found: &mut Vec<Finding>) -> Row {
    let mut row = [0; FIELDS];
    let shown = String::from_utf8_lossy(&bytes[..LINE_WIDTH]);
    let one_each = shown.chars().count() == LINE_WIDTH;
    for ((field, part), number) in (1..).zip(bytes.chunks_exact(WIDTH)).zip(&mut row) {
        let text = String::from_utf8_lossy(part);
        match read_field(&text) {
            Some(read) => *number = read,
            None => {
                let finding = no_field(line, field, &text);
                let place =
                    if one_each { (field - 1) * WIDTH..field * WIDTH } else { 0..shown.chars().count() };
                found.push(finding.with_marked(Marked::new(&shown, place)));
            }
        }
    }
    if !bytes.ends_with(b"\n") {
        let last = String::from_utf8_lossy(&bytes[LINE_WIDTH..]).into_owned();
        let wrong = format!("behind the twelve fields stands {last:?}");
        let finding = Finding::new(Refusal::Field { line }, None, wrong, "a newline");
        let end = shown.chars().count();
        found.push(finding.with_marked(Marked::new(&format!("{shown}{last}"), end..end + 1)));
    }
    row
}

fn no_field(line: u32, field: usize, text: &str) -> Finding {
    let (why, expected) = match text.trim().parse::<i64>() {
        _ if text.contains('\n') => ("has a newline in it", "72 characters in front of a newline".to_owned()),
        _ if text.trim().is_empty() => ("is empty", format!("{NUMBER}, set to the right")),
        Ok(number) if i16::try_from(number).is_ok() => {
            ("is not in its form", format!("{:?}", format!("{number:6}")))
        }
        Ok(_) => ("does not fit", NUMBER.to_owned()),
        Err(_) => ("is no number", format!("{NUMBER}, set to the right")),
    };
    let wrong = format!("field {field}, {text:?}, {why}");
    Finding::new(Refusal::Field { line }, Some(field), wrong, expected)
}
