//! The files that the safe layer writes: round trips, numbers far from 0, and what stood in a vector or a
//! buffer before.

use std::fs;
use std::path::PathBuf;

use generate::{valid, written_back, Random, Size};
use pithread::header::{LINE_BYTES, MOST_FILE_BYTES};
use pithread::{Refusal, Table};

const LISTING: &[u8] = include_bytes!("../../../examples/listing.txt");

/// The files of some folder under `examples`.
fn files_of(folder: &str) -> Vec<(PathBuf, Vec<u8>)> {
    let folder = format!("{}/../../examples/{folder}", env!("CARGO_MANIFEST_DIR"));
    let entries = fs::read_dir(&folder).unwrap_or_else(|error| panic!("{folder}: {error}"));
    let paths = entries.map(|entry| entry.expect("a file of the folder").path());
    let paths = paths.filter(|path| path.extension().is_some_and(|extension| extension == "txt"));
    paths.map(|path| (path.clone(), fs::read(path).expect("an example"))).collect()
}

fn largest() -> Vec<u8> {
    valid(&mut Random::new(50_000_000), Size::LARGEST).text()
}

/// The listing's file with another constant in its set: line 14, field 7.
fn with_constant(number: i16) -> Vec<u8> {
    let mut file = LISTING.to_vec();
    let place = 13 * LINE_BYTES + 6 * 6;
    file[place..place + 6].copy_from_slice(format!("{number:6}").as_bytes());
    file
}

/// Loads the file and writes it again; loads what was written. A file without bytes becomes another one.
fn round_trip(file: &[u8], about: &str) {
    let table = Table::load(file).unwrap_or_else(|refusal| panic!("{about}: {refusal}"));
    let written = table.write();
    assert!(written == *written_back(file), "{about}: another file was written");
    assert!(Table::load(&written) == Ok(table), "{about}: another table was loaded");
}

#[test]
fn the_examples_are_written_as_they_are() {
    let files = [files_of(""), files_of("first")].concat();
    assert!(files.len() >= 20, "{} files", files.len());
    for (path, file) in files {
        round_trip(&file, &path.to_string_lossy());
    }
}

#[test]
fn the_largest_file_is_written_as_it_is() {
    let file = largest();
    assert_eq!(file.len(), MOST_FILE_BYTES);
    round_trip(&file, "865 lines");
    assert_eq!(Table::load(&file).map(|table| table.lines()), Ok(Table::ROWS));
}

#[test]
fn every_number_is_written_as_it_was() {
    for number in i16::MIN..=i16::MAX {
        round_trip(&with_constant(number), &format!("a constant of {number}"));
    }
}

#[test]
fn a_number_set_in_the_table_stands_in_the_file() {
    let table = Table::load(&with_constant(7)).expect("it loads");
    for number in [i16::MIN, -10_000, -9_999, -1, 0, 10, i16::MAX] {
        let mut bytes = *table.as_bytes();
        let place = 2 * (13 * pithread::FIELDS + 6);
        bytes[place..place + 2].copy_from_slice(&number.to_le_bytes());
        let edited = Table::from_bytes(&bytes).expect("a constant may be any number");
        assert_eq!(edited.write(), with_constant(number));
    }
}

#[test]
fn what_stood_in_the_vector_stays() {
    let (first, second) = (with_constant(1), largest());
    let mut mail = b"From the shop\n".to_vec();
    Table::load(&first).expect("it loads").append_to(&mut mail);
    Table::load(&second).expect("it loads").append_to(&mut mail);
    assert!(mail == [b"From the shop\n", &first[..], &second[..]].concat());
}

#[test]
fn a_buffer_keeps_what_is_behind_the_file() {
    for file in [with_constant(i16::MIN), largest()] {
        let table = Table::load(&file).expect("it loads");
        for more in [0, 1, LINE_BYTES, 100_000] {
            let mut buffer = vec![0xa5; file.len() + more];
            assert_eq!(table.write_into(&mut buffer), Ok(file.len()));
            assert!(buffer == [&file[..], &vec![0xa5; more]].concat(), "{more} bytes more");
        }
    }
}

#[test]
fn a_buffer_that_is_too_short_stays_as_it_was() {
    for file in [with_constant(i16::MIN), largest()] {
        let table = Table::load(&file).expect("it loads");
        for fewer in [1, LINE_BYTES, file.len() - 1, file.len()] {
            let mut buffer = vec![0xa5; file.len() - fewer];
            assert_eq!(table.write_into(&mut buffer), Err(Refusal::ShortBuffer));
            assert!(buffer.iter().all(|byte| *byte == 0xa5), "{fewer} bytes fewer");
        }
    }
}
