//! Why files are refused: the first finding is held to the loader, on all that the generators make.

use std::fs;
use std::path::{Path, PathBuf};

use generate::cases::{self, Case};
use generate::{any_valid, damaged, damaged_rows, padded, text_of, valid, Random, Row, Size, LINE_BYTES};
use pithread::{Refusal, Table};
use reader::{faults, Finding};

fn at_root(path: &str) -> PathBuf {
    Path::new(env!("CARGO_MANIFEST_DIR")).join("../..").join(path)
}

/// The findings of a file; the first is what the loader answers, and they are such as can be shown.
fn checked(file: &[u8], about: &str) -> Vec<Finding> {
    let found = faults(file);
    let first = found.first().map(|finding| finding.refusal);
    assert_eq!(first, Table::load(file).err(), "{about}");
    assert!(found.is_sorted_by_key(Finding::ground), "{about}: {found:?}");
    for (place, finding) in found.iter().enumerate() {
        assert_eq!(finding.later, place > 0, "{about}");
        assert!(finding.field.is_none_or(|field| (1..=12).contains(&field)), "{about}: {finding}");
        assert!(!finding.wrong.is_empty() && !finding.expected.is_empty(), "{about}: {finding}");
        assert_eq!(finding.words.is_some(), finding.ground() >= 3, "{about}: {finding}");
        expect_mark(finding, file, about);
    }
    found
}

/// What is marked is the field of the finding, in its line of the file.
fn expect_mark(finding: &Finding, file: &[u8], about: &str) {
    let (Some(line), Some(field)) = (finding.line(), finding.field) else { return };
    let bytes = &file[(line - 1) * LINE_BYTES..line * LINE_BYTES - 1];
    let marked = finding.marked.as_ref().unwrap_or_else(|| panic!("{about}: {finding}"));
    if bytes.is_ascii() {
        assert!(
            (field - 1) * 6 <= marked.place().start && marked.place().end == field * 6,
            "{about}: {finding}"
        );
        assert_eq!(marked.line().len(), bytes.len(), "{about}: {finding}");
    }
}

#[test]
fn right_files_have_none() {
    assert_eq!(faults(b""), []);
    for seed in 67_000_000..67_003_000 {
        assert_eq!(faults(&any_valid(&mut Random::new(seed)).text()), [], "seed {seed}");
    }
    for size in Size::LIMITS {
        assert_eq!(faults(&valid(&mut Random::new(2), size).text()), [], "{size:?}");
    }
}

#[test]
fn damaged_files() {
    let mut came = [0; 8];
    let mut later = [0; 8];
    for seed in 68_000_000..68_003_000 {
        let random = &mut Random::new(seed);
        let file = any_valid(random);
        for number in 0..10 {
            let found = checked(&damaged(random, &file), &format!("seed {seed}, file {number}"));
            came[found.first().map_or(0, Finding::ground) as usize] += 1;
            found.iter().skip(1).for_each(|finding| later[finding.ground() as usize] += 1);
        }
    }
    println!("first {came:?}, later {later:?}");
    assert!(
        came.iter().zip([1_000, 200, 2_000, 4_000, 4_000, 1_000, 500, 300]).all(|(came, due)| *came >= due),
        "{came:?}"
    );
    assert!(later[2..].iter().all(|count| *count >= 300), "{later:?}");
}

fn expect_case(case: &Case) {
    let first = checked(&case.file, &case.name)
        .first()
        .map_or((0, 0), |finding| (finding.ground(), finding.line().unwrap_or(0) as i32));
    assert_eq!(first, (case.ground, case.line), "{}", case.name);
}

generate::case_tests!(expect_case);

/// Every field of two small files, set to every one of many numbers.
#[test]
fn each_field_of_small_files() {
    let far = [i16::MIN, -300, -17, 192, 193, 256, 257, 384, 385, i16::MAX];
    for mut rows in [cases::LISTING.map(padded).to_vec(), cases::PAIR.map(padded).to_vec()] {
        for place in 0..rows.len() * 12 {
            let (line, field) = (place / 12, place % 12);
            let kept = rows[line][field];
            for number in (-4..=20).chain(far) {
                rows[line][field] = number;
                checked(&text_of(&rows), &format!("line {}, field {}, number {number}", line + 1, field + 1));
            }
            rows[line][field] = kept;
        }
    }
}

#[test]
fn any_bytes() {
    let right = text_of(&cases::LISTING[..]);
    for length in 0..=right.len() {
        checked(&right[..length], &format!("the first {length} bytes"));
    }
    for seed in 69_000_000..69_003_000 {
        let random = &mut Random::new(seed);
        let length = LINE_BYTES * random.within(0..=20) + random.pick(&[0, 0, 0, 1, 72]);
        let mut bytes: Vec<u8> = right.iter().cycle().take(length).copied().collect();
        let odd = random.pick(&[0, 1, 5, 100]);
        bytes.iter_mut().for_each(|byte| {
            if random.chance(odd) {
                *byte = random.byte()
            }
        });
        for finding in checked(&bytes, &format!("seed {seed}")) {
            assert!(!finding.to_string().is_empty());
        }
    }
}

#[test]
fn any_numbers() {
    for seed in 70_000_000..70_005_000 {
        let random = &mut Random::new(seed);
        let mut rows = vec![[0; 12]; random.within(1..=30)];
        for number in rows.as_flattened_mut() {
            *number = if random.chance(80) { random.below(7) as i16 } else { random.number() };
        }
        checked(&text_of(&rows), &format!("seed {seed}"));
    }
}

#[test]
fn large_files_are_quick() {
    let begun = std::time::Instant::now();
    let megabytes: Vec<u8> = text_of(&cases::LISTING[..]).repeat(4_000);
    checked(&megabytes, "too many lines");
    checked(&megabytes[1..], "not whole");
    checked(&vec![b'x'; 865 * LINE_BYTES], "865 lines of x");
    checked(&vec![b'\n'; 1 << 20], "newlines");
    // All slots of a definition are read at each of its 192 nodes, and none is ever written.
    let mut rows = vec![padded(&[1, 0, 1, 16, 192, 382]), padded(&[3, 0, 16, 192])];
    rows.extend([padded(&[4]); 16]);
    rows.extend([padded(&[5, 1, 2]); 191]);
    rows.push(padded(&[5]));
    rows.extend(
        (1..=382)
            .map(|branch| padded(&[6, 4, 14, 15, 6, branch % 13, branch % 7, branch % 11, (branch + 1) / 2])),
    );
    let found = checked(&text_of(&rows), "all unwritten");
    assert!(found.len() > 50, "{}", found.len());
    assert!(begun.elapsed().as_secs() < 10);
}

/// Among the later faults is the one that the loader names when the line of the first is mended.
#[test]
fn later_faults_are_named_next() {
    let mut next = [0; 8];
    for seed in 71_000_000..71_010_000 {
        let random = &mut Random::new(seed);
        let file = any_valid(random);
        let mut rows = damaged_rows(random, &file);
        let found = faults(&text_of(&rows));
        let Some(first) = found.first().filter(|first| first.ground() >= 4) else { continue };
        let index = first.line().expect("these name a line") - 1;
        if rows[index][0] != 6 || rows.len() != file.rows.len() {
            continue;
        }
        rows[index] = file.rows[index];
        let Err(refusal) = Table::load(&text_of(&rows)) else { continue };
        let elsewhere = refusal.line() != first.refusal.line();
        if elsewhere && matches!(refusal, Refusal::Range { .. } | Refusal::Types { .. }) {
            assert!(found[1..].iter().any(|later| later.refusal == refusal), "seed {seed}: {refusal}");
            next[refusal.number() as usize] += 1;
        }
    }
    assert!(next[4] >= 20 && next[5] >= 30, "{next:?}");
}

/// The numbers in a step of a path: from node, to node, line.
fn step_of(note: &str) -> Option<[usize; 3]> {
    let (from, rest) = note.strip_prefix("    node ")?.split_once(": ")?;
    let (to, line) = rest.rsplit_once(" to node ")?.1.strip_suffix(')')?.split_once(" (line ")?;
    Some([from, to, line].map(|number| number.parse().expect("a number")))
}

/// The slot that a branch writes.
fn written(row: &Row) -> Option<i16> {
    match row[4] {
        2 => Some(row[6]),
        3 | 5 | 6 | 7 => Some(row[5]),
        _ => None,
    }
}

/// Every path that is shown begins at node 0, goes by branches of the file, and passes every write by.
#[test]
fn paths_are_ways_of_the_file() {
    let mut steps = 0;
    for seed in 72_000_000..72_010_000 {
        let random = &mut Random::new(seed);
        let file = any_valid(random);
        let rows = damaged_rows(random, &file);
        for finding in faults(&text_of(&rows)).iter().filter(|finding| finding.ground() == 6) {
            let field = finding.field.expect("a slot is at fault");
            let slot = rows[finding.line().expect("a line") - 1][field - 1];
            let mut at = 0;
            for [from, to, line] in finding.notes.iter().filter_map(|note| step_of(note)) {
                let row = &rows[line - 1];
                let child = row[4] == 4 && usize::from(row[9].unsigned_abs()) == to;
                assert!(from == at && row[0] == 6 && written(row) != Some(slot), "seed {seed}: {finding}");
                assert!(child || usize::from(row[8].unsigned_abs()) == to, "seed {seed}: {finding}");
                at = to;
                steps += 1;
            }
            let words = finding.words.as_deref().expect("it has words");
            assert!(
                words.contains(&format!("node {at} ")) || words.contains(&format!("node {at}:")),
                "{finding}"
            );
        }
    }
    assert!(steps >= 1_000, "{steps} steps");
}

/// What is said of each refused example, kept.
#[test]
fn refused_examples() {
    let expected =
        fs::read_to_string(at_root("examples/refused/expected")).expect("the table of the refused files");
    let mut said = String::new();
    for entry in expected.lines().filter(|line| !line.starts_with('#')) {
        let words: Vec<&str> = entry.split_whitespace().collect();
        let [name, ground, line] = words[..] else { panic!("{entry}") };
        let file = fs::read(at_root(&format!("examples/refused/{name}.txt"))).expect("a refused file");
        let found = checked(&file, name);
        if let [first, ..] = &found[..] {
            assert_eq!(
                (first.ground().to_string(), first.line().unwrap_or(0).to_string()),
                (ground.into(), line.into())
            );
        }
        said.push_str(&format!("{name}\n\n"));
        found.iter().for_each(|finding| said.push_str(&format!("{finding}\n\n")));
        let mended =
            fs::read(at_root(&format!("examples/refused/{name}.mended.txt"))).expect("a mended file");
        assert_eq!(faults(&mended), [], "{name}");
    }
    let kept = at_root("rust/reader/tests/kept/refused.txt");
    if said != fs::read_to_string(&kept).unwrap_or_default() {
        let other = std::env::temp_dir().join("refused.txt");
        fs::write(&other, &said).expect("it can be written");
        panic!("{} is not {}", other.display(), kept.display());
    }
}

/// The pair with some numbers changed: line, field and number of each.
fn pair(edits: &[(usize, usize, i16)]) -> Vec<u8> {
    let mut rows = cases::PAIR.map(padded);
    edits.iter().for_each(|(line, field, number)| rows[line - 1][field - 1] = *number);
    text_of(&rows)
}

/// What is wrong, what was expected, and the notes, of every fault of the pair after a change.
fn said(edits: &[(usize, usize, i16)]) -> Vec<String> {
    let said = |finding: &Finding| {
        let notes: String = finding.notes.iter().map(|note| format!(" | {note}")).collect();
        format!(
            "{} {}: {}; expected: {}{notes}",
            finding.ground(),
            finding.line().unwrap_or(0),
            finding.wrong,
            finding.expected
        )
    };
    checked(&pair(edits), &format!("{edits:?}")).iter().map(said).collect()
}

#[test]
fn sums_stand_side_by_side() {
    assert_eq!(
        said(&[(4, 4, 4), (5, 3, 3)]),
        [
            "3 1: the definitions have 3 and 3 slots, together 6; the header says 5; expected: the same number",
            "3 1: the definitions have 4 and 3 nodes, together 7; the header says 6; expected: the same number",
        ]
    );
    assert_eq!(
        said(&[(11, 3, 2)]),
        ["3 1: the choices have 2, 1 and 2 branches, together 5; the header says 4; expected: the same number"]
    );
    assert_eq!(
        said(&[(1, 6, 5)]),
        ["3 1: the file has 20 lines, and the header counts 21 with itself; expected: as many lines as it counts \
          | field 6: the header says 5 branches, and 4 of the lines are of kind 6"]
    );
}

#[test]
fn types_stand_side_by_side() {
    assert_eq!(
        said(&[(13, 4, 1), (17, 7, 2), (20, 6, 1), (20, 7, 0)]),
        [
            "5 13: field 4, an argument: slot 1 is of type 0, numbers; expected: type 1, channels that carry numbers, \
             as parameter 0 of definition 1 is | line 7 says the type of slot 1",
            "5 17: field 7, b, the slot for the value: slot 2 is of type 2, channels that carry type 2; expected: type 0, \
             numbers, which the channels of slot 0 carry | line 8 says the type of slot 2",
            "5 20: field 6, a, the slot of the channel: slot 1 is of type 0, numbers; expected: a slot for channels \
             | line 10 says the type of slot 1",
            "6 13: field 4, an argument: slot 1 may not have been written; expected: a parameter, or a slot that is \
             written on every path to here | a path on which nothing writes slot 1: \
             |     node 0: receive on slot 0 into slot 2; goes to node 1 (line 17) \
             |     node 1: slot 2 becomes a new channel; goes to node 2 (line 18)",
        ]
    );
    assert_eq!(
        said(&[(2, 2, 2)])[0],
        "5 4: type 1, that of the ports, carries type 2; expected: 0, numbers | line 2 says what type 1 carries"
    );
    assert_eq!(
        said(&[(6, 2, 2)])[0],
        "5 4: slot 0 of definition 0, for port 0, is of type 2, channels that carry type 2; expected: type 1, channels \
         that carry numbers | line 6 says the type of slot 0"
    );
}

#[test]
fn ranges_and_what_leads_where() {
    assert_eq!(
        said(&[(19, 3, 2), (20, 9, 3), (16, 2, 4)]),
        [
            "4 16: field 2, the kind of the node, is 4; expected: a number from 0 to 2",
            "4 19: field 3, the guard's slot, is 2; expected: a slot of definition 1, from 0 to 1",
            "4 20: field 9, the next node, is 3; expected: a node of definition 1 behind node 0, from 1 to 2",
        ]
    );
    assert_eq!(
        said(&[(17, 9, 2)]),
        ["7 12: no path from node 0 leads to node 1; expected: a branch with it as its next node or its child's node \
          | node 0 leads to 2"]
    );
    assert_eq!(
        said(&[(20, 9, 2)]),
        ["7 15: no path from node 0 leads to node 1; expected: a branch with it as its next node or its child's node \
          | node 0 leads to 2"]
    );
}

/// Two characters at the ends of lines, as some editors have them.
#[test]
fn lines_of_another_length() {
    let text = String::from_utf8(pair(&[])).expect("text").replace('\n', "\r\n");
    let found = checked(text.as_bytes(), "CR and LF");
    assert_eq!(found[0].wrong, "the file has 1480 bytes, which is 20 times 73 and 20 more");
    assert_eq!(found[0].notes[0], "line 1 has 72 characters and ends with CR and LF, not with LF alone");
    assert_eq!(found[0].notes[3], "and 17 lines of another length behind these");
}
