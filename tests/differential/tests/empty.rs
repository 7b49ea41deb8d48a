//! A file without bytes: it loads as the smallest file does, and what the archive makes of its table is held
//! against the reference.

use differential::{Calls, Comparison, Writes};
use generate::{padded, table_of, text_of, LINE_BYTES, SMALLEST, TABLE_BYTES};
use interface::{
    Answer, Call, Collected, Given, Ran, Stepped, Taken, Written, ALL_STEPS, ENDED, NOBODY, NONE_READY, PORT,
    SHORT_BUFFER, STATE_BYTES, THREAD,
};

/// The table that a file loads to.
fn loaded(file: &[u8]) -> Vec<u8> {
    let mut comparison = Comparison::new(archive::answer);
    assert_eq!(comparison.compare(file, "a right file"), (0, 0));
    comparison.table().to_vec()
}

#[test]
fn it_has_the_table_of_the_smallest_file() {
    let table = loaded(b"");
    assert!(table == loaded(&text_of(&SMALLEST)));
    assert!(table == table_of(&SMALLEST.map(padded)));
}

#[test]
fn a_table_buffer_of_wrong_length_is_refused() {
    let mut comparison = Comparison::new(archive::answer);
    for length in [0, 1, LINE_BYTES, TABLE_BYTES - 1, TABLE_BYTES + 1, 2 * TABLE_BYTES] {
        let about = format!("no bytes, {length} for the table");
        assert_eq!(comparison.compare_length(b"", length, &about), (8, 0), "{about}");
    }
}

/// One byte is enough to make it another file, whatever the table buffer.
#[test]
fn files_of_a_few_bytes_are_refused() {
    let mut comparison = Comparison::new(archive::answer);
    for byte in [0, b'\n', b' ', b'0', 255] {
        for length in 1..=LINE_BYTES {
            let due = if length < LINE_BYTES { (1, 0) } else { (2, 1) };
            for table_length in [0, TABLE_BYTES - 1, TABLE_BYTES, TABLE_BYTES + 1] {
                let about = format!("{length} bytes of {byte}, {table_length} for the table");
                let answer = comparison.compare_length(&vec![byte; length], table_length, &about);
                assert_eq!(answer, due, "{about}");
            }
        }
    }
}

fn ran(steps: i32, reason: i32) -> Answer {
    Answer::Ran(Ran { refusal: 0, steps, reason, thread: NOBODY })
}

/// Each of these calls on the state, with its answer.
fn expect(calls: &mut Calls, table: &[u8], state: &[u8], answers: &[(Call, Answer)]) {
    for (call, answer) in answers {
        assert_eq!(calls.compare(*call, table, state, "no bytes"), *answer, "{call:?}");
    }
}

#[test]
fn its_one_thread_ends() {
    let (table, mut calls) = (loaded(b""), Calls::new(archive::ENGINE));
    assert_eq!(calls.compare(Call::Start, &table, &[0x5a; STATE_BYTES], "no bytes").refusal(), 0);
    let started = calls.state().to_vec();
    let (step, run) = (Call::Step { thread: 0 }, Call::Run { n: 1_000 });
    let ended = Stepped { refusal: 0, node: 0, act: ENDED, branch: 0, partner: NOBODY };
    let before = [(run, ran(1, NONE_READY)), (step, Answer::Stepped(ended))];
    let no_thread = Stepped { refusal: THREAD, ..Stepped::default() };
    let after = [(run, ran(0, NONE_READY)), (step, Answer::Stepped(no_thread))];
    let at_any_time = [
        (Call::Give { port: 0, number: 7 }, Answer::Given(Given { refusal: PORT, thread: 0 })),
        (Call::Take { port: 0 }, Answer::Taken(Taken { refusal: PORT, thread: 0, number: 0 })),
        (Call::Collect, Answer::Collected(Collected { refusal: 0, threads: 0 })),
        (Call::Run { n: 0 }, ran(0, ALL_STEPS)),
    ];
    expect(&mut calls, &table, &started, &at_any_time);
    expect(&mut calls, &table, &started, &before);
    let state = calls.state().to_vec();
    expect(&mut calls, &table, &state, &at_any_time);
    expect(&mut calls, &table, &state, &after);
}

#[test]
fn its_table_is_written_as_three_lines() {
    let (table, text) = (loaded(b""), text_of(&SMALLEST));
    assert_eq!(text.len(), 219);
    let mut writes = Writes::new(archive::write);
    for length in 0..=2 * text.len() {
        let written = writes.compare(&table, &vec![0xa5; length], "no bytes");
        if length < text.len() {
            assert_eq!(written, Written { refusal: SHORT_BUFFER, bytes: 0 });
        } else {
            assert_eq!(written, Written { refusal: 0, bytes: 219 });
            assert!(writes.buffer()[..219] == text);
        }
    }
}

#[test]
fn the_driver_restores_its_table() {
    let (table, mut text, mut other) = (loaded(b""), vec![0xa5; 300], vec![0xa5; TABLE_BYTES]);
    assert_eq!(driver::restore(&table, &mut text, &mut other), 0);
    assert!(text[..219] == text_of(&SMALLEST) && text[219..] == [0xa5; 81] && other == table);
}
