//! The reference's listing against texts worked out by hand, and against the calls.

use std::fs;
use std::path::Path;

use generate::cases::LISTING;
use generate::compose::{call, compose, definition, go, new, one, receive, spawn, Node};
use generate::procedures::hoarders;
use generate::standstills::{all_closed, lone_receiver, port_waiter, ring_beside_port};
use generate::{profiled, text_of, File, Random, Words, LIVELY, READY, STILL};
use interface::{CHANNELS, FULL_RIGHTS, STATE_BYTES};
use reference::{collect, listing, run, start, step, TABLE_BYTES};

const HEADING: &str = "  STEPTHREAD  NODE   ACTBRANCH  WITH\n";

const EXAMPLE: &str = "  STEPTHREAD  NODE   ACTBRANCH  WITH
     1     0     0     3     0    -1
     2     0     1     3     0     1
     3     1     4     2     0    -1
     4     0     2     3     0    -1
     5     0     3     3     0     1
     6     1     5     0     0    -1
     7     0     5     0     0    -1
     7     1    -1     0     0
";

fn listed(file: &File) -> String {
    text(&file.text())
}

fn text(file: &[u8]) -> String {
    String::from_utf8(listing(file)).expect("digits, blanks and newlines")
}

/// The numbers of a line, which stand in columns of 6.
fn numbers(line: &str) -> Vec<i32> {
    let (columns, rest) = line.as_bytes().as_chunks::<6>();
    assert!(rest.is_empty(), "{line:?}");
    let columns = columns.iter().map(|column| std::str::from_utf8(column).expect("digits"));
    columns.map(|column| column.trim_start().parse().expect("a number")).collect()
}

/// The lines of a listing behind the heading, as numbers.
fn rows(listed: &str) -> Vec<Vec<i32>> {
    let lines = listed.strip_prefix(HEADING).expect("the heading comes first");
    lines.lines().map(numbers).collect()
}

#[test]
fn the_example() {
    assert_eq!(text(&text_of(&LISTING)), EXAMPLE);
}

#[test]
fn refused_files_print_one_line() {
    let right = text_of(&LISTING);
    assert_eq!(text(&right[..1]), "     1     0\n");
    assert_eq!(text(&right[..72]), "     1     0\n");
    let changed = |place: usize, byte: u8| {
        let mut file = right.clone();
        file[place] = byte;
        text(&file)
    };
    let field = |line: usize, field: usize| 73 * (line - 1) + 6 * field - 1;
    assert_eq!(changed(field(2, 2), b'x'), "     2     2\n");
    assert_eq!(changed(field(16, 1), b'5'), "     3    16\n");
    assert_eq!(changed(field(4, 2), b'2'), "     4     4\n");
    assert_eq!(changed(field(4, 2), b'0'), "     5    12\n");
    assert_eq!(changed(field(14, 5), b'0'), "     4    14\n");
    assert_eq!(changed(field(13, 9), b'3'), "     6    15\n");
    assert_eq!(changed(field(13, 10), b'5'), "     7    10\n");
}

/// Its one thread comes to its end.
#[test]
fn a_file_without_bytes() {
    let expected = "     1     0     0     0     0    -1\n     1     1    -1     0     0\n";
    assert_eq!(text(b""), format!("{HEADING}{expected}"));
    replay(b"", &rows(&text(b"")), "no bytes");
}

/// A definition that calls itself goes on for ever.
#[test]
fn reason_0_after_a_thousand_steps() {
    let file = compose(&[], 0, &[definition(0, &[], vec![call(0, &[])])]);
    let steps: String = (1..=1_000).map(|step| format!("{step:6}     0     0     1     0    -1\n")).collect();
    assert_eq!(listed(&file), format!("{HEADING}{steps}  1000     0    -1     0     0\n"));
}

#[test]
fn reason_1_and_a_collected_thread() {
    let expected = "     1     0     0     3     0    -1
     2     0     1     3     0    -1
     3     0     2     1     0    -1
     4     0     3     2     0    -1
     4     1    -1     1     0
     0     3
";
    assert_eq!(listed(&lone_receiver()), format!("{HEADING}{expected}"));
}

/// One thread spawns until no row is free. The others wait on a channel that it knows.
#[test]
fn reason_2_and_no_line_for_the_step_refused() {
    let opening = definition(0, &[1], vec![one(go(new(0), 1)), call(1, &[0])]);
    let nodes = vec![one(spawn(1, 2)), call(1, &[0]), one(go(receive(0, 0), 3)), Node::End];
    let rows = rows(&listed(&compose(&[1], 0, &[opening, definition(1, &[1], nodes)])));
    let (closing, steps) = rows.split_last().expect("a closing line");
    assert_eq!(closing, &[191, 2, 0, 0, 1]);
    assert_eq!(steps.len(), 191);
    assert_eq!(steps[2..5], [[3, 0, 2, 3, 0, 1], [4, 1, 4, 2, 0, -1], [5, 0, 3, 1, 0, -1]]);
    assert_eq!(steps[188..], [[189, 0, 2, 3, 0, 63], [190, 63, 4, 2, 0, -1], [191, 0, 3, 1, 0, -1]]);
}

#[test]
fn reason_3_and_all_channels_freed() {
    let rows = rows(&listed(&hoarders()));
    assert_eq!(rows.len(), 152 + 1 + 8);
    assert_eq!(rows[151..153], [vec![152, 0, 17, 1, 0, -1], vec![152, 3, 0, 8, 0]]);
    let waited: Vec<Vec<i32>> = (1..=8).map(|thread| vec![thread, 18]).collect();
    assert_eq!(rows[153..], waited);
}

#[test]
fn collected_threads_stand_lowest_first() {
    let rows = rows(&listed(&ring_beside_port()));
    let closing = rows.iter().position(|row| row.len() == 5).expect("a closing line");
    assert_eq!(rows[closing][1..], [1, -1, 4, 2]);
    assert_eq!(rows[closing + 1..], [[0, 17], [1, 20], [2, 23], [5, 31]]);
}

/// The bench has the ports for good.
#[test]
fn ports_are_in_use() {
    let expected = "     1     0     0     3     0    -1
     2     0     1     1     0    -1
     3     0     2     2     0    -1
     3     1    -1     0     1
";
    assert_eq!(listed(&port_waiter()), format!("{HEADING}{expected}"));
    let expected = "     4     1    -1     1     1\n     0     3\n";
    assert!(listed(&all_closed()).ends_with(expected), "the port is in use, and the thread is gone");
}

/// The files in examples/listings are the listings of the examples.
#[test]
fn the_examples_have_their_listings() {
    let examples = Path::new(env!("CARGO_MANIFEST_DIR")).join("../../examples");
    let names = |folder: &Path, extension: &str| -> Vec<String> {
        let entries = fs::read_dir(folder).expect("a folder of the examples");
        let paths = entries.map(|entry| entry.expect("an entry of the folder").path());
        let files = paths.filter(|path| path.extension().is_some_and(|given| given == extension));
        let mut names: Vec<String> =
            files.map(|path| path.file_stem().expect("a name").to_string_lossy().into_owned()).collect();
        names.sort_unstable();
        names
    };
    let found = names(&examples, "txt");
    assert!(found.len() >= 11);
    assert_eq!(found, names(&examples.join("listings"), "out"));
    for name in found {
        let file = fs::read(examples.join(format!("{name}.txt"))).expect("an example");
        let kept = fs::read(examples.join(format!("listings/{name}.out"))).expect("its listing");
        assert!(listing(&file) == kept, "examples/listings/{name}.out is not the listing of its file");
    }
}

/// Each line is what a step of the next ready thread answers; the closing line is what a run and a
/// collection answer.
#[test]
fn the_calls_say_the_same() {
    let profiles = LIVELY.iter().chain(&STILL);
    for (profile, seed) in profiles.flat_map(|profile| (1..=4).map(move |seed| (profile, seed))) {
        let file = profiled(&mut Random::new(seed), profile).text();
        replay(&file, &rows(&text(&file)), &format!("{}, seed {seed}", profile.name));
    }
}

fn replay(file: &[u8], rows: &[Vec<i32>], about: &str) {
    let mut table = vec![0; TABLE_BYTES];
    assert_eq!(reference::answer(file, &mut table), (0, 0), "{about}");
    let mut state = vec![0; STATE_BYTES];
    start(&table, &mut state);
    let mut whole = state.clone();
    let closing = rows.iter().position(|row| row.len() == 5).expect("a closing line");
    for (number, row) in (1..).zip(&rows[..closing]) {
        let mut words = Words::new(&state);
        let thread = next_ready(&mut words);
        words.front()[2] = (thread as i32 + 1) % 64;
        state = words.to_bytes();
        let did = step(&table, &mut state, &FULL_RIGHTS, 0, thread as u32);
        assert_eq!(did.refusal, 0, "{about}");
        assert_eq!(row, &[number, thread as i32, did.node, did.act, did.branch, did.partner], "{about}");
    }
    let ran = run(&table, &mut whole, &FULL_RIGHTS, 0, 1_000);
    let before = Words::new(&whole);
    let collected = collect(&table, &mut whole, &FULL_RIGHTS, 0);
    let after = Words::new(&whole);
    let in_use = (CHANNELS - after.channels(0).len()) as i32;
    assert_eq!(rows[closing], [ran.steps, ran.reason, ran.thread, collected.threads, in_use], "{about}");
    let gone = (0..64).filter(|thread| after.thread(*thread)[0] != before.thread(*thread)[0]);
    let waited: Vec<[i32; 2]> = gone.map(|thread| [thread as i32, before.thread(thread)[1]]).collect();
    assert_eq!(rows[closing + 1..], waited, "{about}");
}

/// The first ready thread from the turn on, around the end.
fn next_ready(words: &mut Words) -> usize {
    let turn = words.front()[2] as usize;
    let ready = words.threads(READY);
    *ready.iter().find(|thread| **thread >= turn).unwrap_or(&ready[0])
}
