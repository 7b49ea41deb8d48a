//! Procedures that are loaded to a table, edited there and written again.

use std::ffi::OsStr;
use std::fs;
use std::os::unix::fs::{symlink, PermissionsExt};
use std::path::Path;

use generate::{any_valid, table_of, text_of, valid, written_back, Random, Size};
use process::{example, kept};

use crate::{done, folder, load, text, workbench, WORKBENCH};

/// What it says of the table.
fn set(table: &Path, line: usize, field: usize, number: i16) -> String {
    let [line, field] = [line, field].map(|place| place.to_string());
    let (printed, said) = done(&["set", text(table), &line, &field, &number.to_string()]);
    assert_eq!(printed, b"");
    said
}

fn write(table: &Path) -> Vec<u8> {
    let (printed, said) = done(&["write", text(table)]);
    assert_eq!(said, "");
    printed
}

/// The file with another number in a field, both counted from 1.
fn with(file: &[u8], line: usize, field: usize, number: i16) -> Vec<u8> {
    let mut file = file.to_vec();
    let place = (line - 1) * 73 + (field - 1) * 6;
    file[place..place + 6].copy_from_slice(format!("{number:6}").as_bytes());
    file
}

#[test]
fn the_examples_come_back() {
    let table = folder("examples").join("table");
    let mut count = 0;
    for entry in fs::read_dir(example("")).expect("the examples") {
        let path = entry.expect("a file of the folder").path();
        if path.extension().is_some_and(|extension| extension == "txt") {
            load(&path, &table);
            let file = fs::read(&path).expect("an example");
            assert!(write(&table) == *written_back(&file), "{path:?}");
            count += 1;
        }
    }
    assert!(count >= 17, "{count} examples");
}

/// It is loaded as the smallest file, and its table can be edited as any other.
#[test]
fn a_file_without_bytes_comes_back_as_three_lines() {
    let folder = folder("no-bytes");
    let (file, table) = (kept(&folder, OsStr::new("file"), b""), folder.join("table"));
    load(&file, &table);
    let three = fs::read(example("first/1.txt")).expect("an example");
    assert_eq!(write(&table), three);
    set(&table, 3, 2, 2);
    assert_eq!(write(&table), with(&three, 3, 2, 2));
}

#[test]
fn files_of_any_size_come_back() {
    let folder = folder("sizes");
    for seed in 51_000_000..51_000_040 {
        let random = &mut Random::new(seed);
        let file = if seed % 10 == 0 { valid(random, Size::LARGEST) } else { any_valid(random) };
        let path = kept(&folder, OsStr::new("file"), &file.text());
        let table = folder.join("table");
        load(&path, &table);
        assert!(fs::read(&table).expect("the table") == table_of(&file.rows), "seed {seed}");
        assert!(write(&table) == file.text(), "seed {seed}");
    }
}

#[test]
fn a_number_is_set() {
    let table = folder("set").join("table");
    let file = fs::read(example("units.txt")).expect("an example");
    load(&example("units.txt"), &table);
    let mut before = 100;
    for number in [300, -1, i16::MIN, i16::MAX, 0, 99, 100] {
        let said = set(&table, 55, 4, number);
        let change = format!("line 55, field 4: {before} became {number}; ");
        assert_eq!(said, format!("workbench: {change}the table can be written as a file\n"));
        assert!(write(&table) == with(&file, 55, 4, number), "{number}");
        before = number;
    }
}

#[test]
fn every_place_is_its_own() {
    let table = folder("every-place").join("table");
    for (line, field) in [(1, 1), (1, 12), (2, 1), (433, 7), (864, 12), (865, 1), (865, 12)] {
        load(&example("units.txt"), &table);
        let mut wanted = fs::read(&table).expect("the table");
        let place = 2 * (12 * (line - 1) + field - 1);
        wanted[place..place + 2].copy_from_slice(&[0x34, 0x82]);
        set(&table, line, field, i16::from_le_bytes([0x34, 0x82]));
        assert!(fs::read(&table).expect("the table") == wanted, "line {line}, field {field}");
    }
}

#[test]
fn several_numbers_are_set_before_the_table_is_right_again() {
    let table = folder("several").join("table");
    let file = fs::read(example("units.txt")).expect("an example");
    load(&example("units.txt"), &table);
    let wrong =
        "the table cannot be written as a file yet, ground 9: no procedure file has this table; a load \
                 of its lines says ground 4, line 55: ";
    for field in [2, 4] {
        let said = set(&table, 55, field, 0);
        assert!(said.contains(wrong) && said.lines().count() == 1, "{said}");
        let output = workbench(&["write", text(&table)]);
        let message = "is refused, ground 9: no procedure file has this table; a load of its lines says \
                       ground 4, line 55: a number is outside its range, or an unused field is not 0";
        WORKBENCH.expect(&output, 1, message);
    }
    let said = set(&table, 55, 3, 0);
    assert!(said.contains("line 55, field 3: 2 became 0; the table can be written as a file"), "{said}");
    let always = with(&with(&with(&file, 55, 2, 0), 55, 3, 0), 55, 4, 0);
    assert!(write(&table) == always);
}

/// The file of one node, an end, gets a choice before it: two numbers in the header, three in the lines that
/// are there, and then a node and a branch more.
#[test]
fn lines_are_added() {
    let table = folder("lines").join("table");
    load(&example("first/1.txt"), &table);
    let edits = [(1, 5, 2), (1, 6, 1), (2, 4, 2), (3, 2, 1), (3, 3, 1), (4, 1, 5), (5, 1, 6), (5, 9, 1)];
    for (place, (line, field, number)) in edits.into_iter().enumerate() {
        let right = set(&table, line, field, number).contains("the table can be written as a file");
        assert_eq!(right, place == edits.len() - 1, "line {line}, field {field}");
    }
    let rows: [&[i16]; 5] =
        [&[1, 0, 1, 0, 2, 1], &[3, 0, 0, 2], &[5, 1, 1], &[5], &[6, 0, 0, 0, 0, 0, 0, 0, 1]];
    assert_eq!(write(&table), text_of(&rows));
}

#[test]
fn a_table_is_replaced_where_it_stands() {
    let folder = folder("replaced");
    let (table, link) = (kept(&folder, OsStr::new("table"), b"something else"), folder.join("link"));
    fs::set_permissions(&table, fs::Permissions::from_mode(0o640)).expect("they are set");
    symlink("table", &link).expect("a link is made");
    load(&example("units.txt"), &link);
    set(&link, 55, 4, 5);
    assert!(fs::symlink_metadata(&link).expect("the link").is_symlink());
    assert_eq!(fs::metadata(&table).expect("the table").permissions().mode() & 0o777, 0o640);
    let file = fs::read(example("units.txt")).expect("an example");
    assert!(write(&table) == with(&file, 55, 4, 5));
    assert_eq!(fs::read_dir(&folder).expect("the folder").count(), 2, "nothing else is left there");
    // The prover takes no repository with a link in it, wherever it stands.
    fs::remove_file(&link).expect("the link is removed");
}
