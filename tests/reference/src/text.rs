//! From bytes to numbers, with grounds 1 and 2, and from numbers to bytes.

use crate::{Refusal, Row, Rows, LINE_BYTES, MOST_LINES};

const FIELD_BYTES: usize = 6;

/// What a file without bytes stands for: a definition without slots, whose only node is an end.
const OF_NO_BYTES: [Row; 3] = [
    [1, 0, 1, 0, 1, 0, 0, 0, 0, 0, 0, 0],
    [3, 0, 0, 1, 0, 0, 0, 0, 0, 0, 0, 0],
    [5, 0, 0, 0, 0, 0, 0, 0, 0, 0, 0, 0],
];

/// Reads every line into its row and answers how many rows there are then.
pub fn read(file: &[u8], rows: &mut Rows) -> Result<usize, Refusal> {
    if file.is_empty() {
        rows[..OF_NO_BYTES.len()].copy_from_slice(&OF_NO_BYTES);
        return Ok(OF_NO_BYTES.len());
    }
    let (lines, rest) = file.as_chunks::<LINE_BYTES>();
    if !rest.is_empty() || lines.len() > MOST_LINES {
        return Err(Refusal::new(1, 0));
    }
    for (index, (line, row)) in lines.iter().zip(rows).enumerate() {
        if read_line(line, row).is_none() {
            return Err(Refusal::new(2, index + 1));
        }
    }
    Ok(lines.len())
}

fn read_line(line: &[u8; LINE_BYTES], row: &mut Row) -> Option<()> {
    let (fields, end) = line.as_chunks::<FIELD_BYTES>();
    if end != b"\n" {
        return None;
    }
    for (field, number) in fields.iter().zip(row) {
        *number = read_field(field)?;
    }
    Some(())
}

fn read_field(field: &[u8; FIELD_BYTES]) -> Option<i16> {
    // Most fields are one digit, and a zero can be written in no other way.
    if let [b' ', b' ', b' ', b' ', b' ', digit @ b'0'..=b'9'] = field {
        return Some(i16::from(digit - b'0'));
    }
    let blanks = field.iter().take_while(|byte| **byte == b' ').count();
    let (sign, digits) = match &field[blanks..] {
        [b'-', digits @ ..] => (-1, digits),
        digits => (1, digits),
    };
    if digits.first().is_none_or(|digit| *digit == b'0') {
        return None;
    }
    let mut size = 0;
    for digit in digits {
        if !digit.is_ascii_digit() {
            return None;
        }
        size = size * 10 + i32::from(digit - b'0');
    }
    i16::try_from(sign * size).ok()
}

/// Writes every row as a line into a room of as many lines.
pub fn write(rows: &[Row], room: &mut [u8]) {
    let (lines, _) = room.as_chunks_mut::<LINE_BYTES>();
    for (row, line) in rows.iter().zip(lines) {
        let (fields, end) = line.as_chunks_mut::<FIELD_BYTES>();
        for (number, field) in row.iter().zip(fields) {
            *field = field_of(*number);
        }
        end.copy_from_slice(b"\n");
    }
}

fn field_of(number: i16) -> [u8; FIELD_BYTES] {
    // Most numbers have one digit.
    if let 0..=9 = number {
        return [b' ', b' ', b' ', b' ', b' ', b'0' + number as u8];
    }
    let mut field = [b' '; FIELD_BYTES];
    let mut first = FIELD_BYTES;
    let mut left = number.unsigned_abs();
    while left > 0 {
        first -= 1;
        field[first] = b'0' + (left % 10) as u8;
        left /= 10;
    }
    if number < 0 {
        field[first - 1] = b'-';
    }
    field
}

#[cfg(test)]
mod tests {
    use super::{field_of, read_field};
    use generate::cases::BAD_FIELDS;

    #[test]
    fn numbers_in_range_are_read() {
        for number in i16::MIN..=i16::MAX {
            let text = format!("{number:6}");
            let field = text.as_bytes().try_into().expect("six characters");
            assert_eq!(read_field(field), Some(number), "{text:?}");
        }
    }

    #[test]
    fn numbers_are_written() {
        for number in i16::MIN..=i16::MAX {
            assert_eq!(field_of(number), format!("{number:6}").as_bytes());
        }
    }

    #[test]
    fn other_forms_are_malformed() {
        for form in BAD_FIELDS {
            assert_eq!(read_field(&form), None, "{form:?}");
        }
    }
}
