//! The safe layer on the files of `examples` and on small ones written here.

use generate::rental::doublings;
use pithread::{Act, AtSeat, Bench, Ran, Reason, Refusal, Rights, Seat, Status, Stepped, Table, Taken};

fn example(name: &str) -> Vec<u8> {
    let path = format!("{}/../../examples/{name}", env!("CARGO_MANIFEST_DIR"));
    std::fs::read(&path).unwrap_or_else(|error| panic!("{path}: {error}"))
}

fn bench(name: &str) -> Bench {
    Bench::load(&example(name)).expect("the examples load")
}

/// The bench lent to a seat that may do everything.
fn all(bench: &mut Bench) -> AtSeat<'_> {
    bench.at(&Rights::FULL, Seat::ALL[4])
}

/// The text of some lines, each of which goes on with zeros.
fn text_of(rows: &[&[i16]]) -> Vec<u8> {
    let mut text = String::new();
    for row in rows {
        for field in 0..pithread::FIELDS {
            text += &format!("{:6}", row.get(field).unwrap_or(&0));
        }
        text.push('\n');
    }
    text.into_bytes()
}

/// The file with another number in a field, both counted from 1.
fn with(mut file: Vec<u8>, line: usize, field: usize, number: i16) -> Vec<u8> {
    let place = (line - 1) * 73 + (field - 1) * 6;
    file[place..place + 6].copy_from_slice(format!("{number:6}").as_bytes());
    file
}

/// A thread fills its sixteen slots with channels, starts one that waits, and begins again.
fn creators() -> Vec<u8> {
    let mut rows: Vec<Vec<i16>> = vec![vec![1, 1, 1, 16, 20, 18], vec![2, 1], vec![3, 0, 16, 20]];
    rows.extend((0..16).map(|_| vec![4, 1]));
    rows.extend((0..17).map(|_| vec![5, 1, 1]));
    rows.extend([vec![5, 2, 0], vec![5, 1, 1], vec![5, 0]]);
    rows.extend((0..16).map(|slot| vec![6, 0, 0, 0, 3, slot, 0, 0, slot + 1]));
    rows.extend([vec![6, 0, 0, 0, 4, 0, 0, 0, 17, 18], vec![6, 0, 0, 0, 2, 0, 1, 0, 19]]);
    text_of(&rows.iter().map(Vec::as_slice).collect::<Vec<_>>())
}

#[test]
fn a_number_goes_in_and_comes_out_doubled() {
    let mut bench = bench("doubler.txt");
    assert_eq!(all(&mut bench).give(0, 21), Ok(None));
    assert_eq!(all(&mut bench).step(0), Ok(Stepped { node: 0, act: Act::Waits }));
    assert_eq!(all(&mut bench).take(1), Ok(None));
    assert_eq!(all(&mut bench).give(0, 21), Ok(Some(0)));
    assert_eq!(all(&mut bench).step(0), Ok(Stepped { node: 1, act: Act::Called }));
    assert_eq!(
        all(&mut bench).step(0),
        Ok(Stepped { node: 2, act: Act::Branch { branch: 1, partner: None } })
    );
    assert_eq!(all(&mut bench).run(1000), Ok(Ran { steps: 1, reason: Reason::NoneReady }));
    assert_eq!(all(&mut bench).take(1), Ok(Some(Taken { thread: 0, number: 42 })));
    assert_eq!(all(&mut bench).run(2), Ok(Ran { steps: 2, reason: Reason::AllSteps }));
    assert_eq!(all(&mut bench).give(0, -1), Ok(Some(0)));
    assert_eq!(all(&mut bench).run(2).map(|ran| ran.steps), Ok(2));
    assert_eq!(all(&mut bench).step(0), Ok(Stepped { node: 5, act: Act::Ended }));
    assert_eq!(bench.state().threads().count(), 0);
}

#[test]
fn a_file_without_bytes_is_a_procedure_that_ends() {
    let mut empty = Bench::load(&[]).expect("it loads");
    assert_eq!(empty, bench("first/1.txt"));
    assert_eq!((empty.table().lines(), empty.table().ports()), (3, 0));
    assert_eq!(all(&mut empty).give(0, 21), Err(Refusal::Port));
    assert_eq!(all(&mut empty).step(0), Ok(Stepped { node: 0, act: Act::Ended }));
    assert_eq!(all(&mut empty).run(1000), Ok(Ran { steps: 0, reason: Reason::NoneReady }));
    assert_eq!(all(&mut empty).collect(), Ok(0));
    assert_eq!(empty.state().threads().count(), 0);
}

#[test]
fn a_step_names_whom_it_starts_and_whom_it_meets() {
    let mut bench = bench("listing.txt");
    all(&mut bench).step(0).expect("a new channel");
    assert_eq!(
        all(&mut bench).step(0),
        Ok(Stepped { node: 1, act: Act::Branch { branch: 0, partner: Some(1) } })
    );
    assert_eq!(all(&mut bench).step(1), Ok(Stepped { node: 4, act: Act::Waits }));
    all(&mut bench).step(0).expect("a number");
    assert_eq!(
        all(&mut bench).step(0),
        Ok(Stepped { node: 3, act: Act::Branch { branch: 0, partner: Some(1) } })
    );
}

#[test]
fn the_state_shows_threads_and_channels() {
    let mut bench = bench("relay.txt");
    let run = all(&mut bench).run(5).expect("never refused");
    assert_eq!(run, Ran { steps: 5, reason: Reason::AllSteps });
    let state = bench.state();
    let threads: Vec<_> = state.threads().collect();
    let seen: Vec<_> = threads.iter().map(|thread| (thread.number, thread.status, thread.node)).collect();
    assert_eq!(seen, [(0, Status::Ready, 4), (1, Status::Ready, 6)]);
    assert_eq!(threads[0].slots[..3], [0, 1, 0]);
    assert_eq!(threads[1].slots[..3], [0, 1, 0]);
    let channels: Vec<_> = state.channels().map(|channel| (channel.number, channel.kind)).collect();
    assert_eq!(channels, [(0, 2), (1, 1)]);
    assert!(state.channels().all(|channel| channel.holders == 2 && channel.waiting == 0));
    assert_eq!([state.turn(), state.next_thread(), state.next_channel()], [1, 2, 2]);
    assert_eq!(all(&mut bench).run(2).map(|ran| ran.steps), Ok(2));
    assert_eq!(bench.state().channels().map(|channel| channel.waiting).collect::<Vec<_>>(), [1, 1]);
}

#[test]
fn a_thread_that_nobody_can_wake_is_taken() {
    let mut bench = Bench::load(&creators()).expect("the file is right");
    all(&mut bench).run(19).expect("never refused");
    assert_eq!(bench.state().threads().filter(|thread| thread.status == Status::Waiting).count(), 1);
    assert_eq!(all(&mut bench).collect(), Ok(1));
    assert_eq!(bench.state().threads().map(|thread| thread.number).collect::<Vec<_>>(), [0]);
}

#[test]
fn threads_that_lack_a_row_are_named() {
    let mut bench = bench("workers.txt");
    let reason = loop {
        all(&mut bench).run(1000).expect("never refused");
        all(&mut bench).give(0, 5).expect("there is such a port");
        match all(&mut bench).run(1000).expect("never refused").reason {
            Reason::NoneReady => {}
            reason => break reason,
        }
    };
    assert_eq!(reason, Reason::LackedThreadRow { thread: 0 });
    let mut bench = Bench::load(&creators()).expect("the file is right");
    let ran = all(&mut bench).run(u16::MAX).expect("never refused");
    assert_eq!(ran.reason, Reason::LackedChannelRow { thread: 0 });
    assert_eq!(bench.state().channels().count(), 128);
}

/// For each ground, in order, a call that is refused on it.
fn one_of_each() -> Vec<Result<Bench, Refusal>> {
    let file = example("doubler.txt");
    let table = Table::load(&file).expect("it loads");
    let mut full = bench("workers.txt");
    while matches!(all(&mut full).run(1000), Ok(Ran { reason: Reason::NoneReady, .. })) {
        all(&mut full).give(0, 5).expect("there is such a port");
    }
    let mut crowded = Bench::load(&creators()).expect("the file is right");
    all(&mut crowded).run(u16::MAX).expect("never refused");
    let mut malformed = file.clone();
    malformed[2 * 73 + 4] = b'+';
    let mut damaged = *table.as_bytes();
    damaged[0] = 2;
    let unreachable = text_of(&[&[1, 0, 1, 0, 2, 0], &[3, 0, 0, 2], &[5], &[5]]);
    let profile = |file: &[u8]| Table::load(file).and_then(|table| table.profile()).map(|_| full.clone());
    vec![
        Bench::load(&file[..72]),
        Bench::load(&malformed),
        Bench::load(&with(file.clone(), 4, 1, 7)),
        Bench::load(&with(file.clone(), 5, 2, 9)),
        Bench::load(&with(file.clone(), 7, 2, 1)),
        Bench::load(&with(file.clone(), 20, 7, 3)),
        Bench::load(&unreachable),
        Bench::resume(table.clone(), &[0; 6_155]),
        Table::from_bytes(&damaged).and_then(Bench::start),
        Bench::resume(table.clone(), &[0; 6_156]),
        all(&mut bench("doubler.txt")).step(64).map(|_| full.clone()),
        all(&mut bench("doubler.txt")).take(2).map(|_| full.clone()),
        all(&mut full.clone()).step(0).map(|_| full.clone()),
        all(&mut crowded.clone()).step(0).map(|_| full.clone()),
        table.write_into(&mut vec![0; file.len() - 1]).map(|_| full.clone()),
        profile(&file),
        profile(&doublings(7).text()),
        Rights::from_bytes(&[4; 288]).map(|_| full.clone()),
        full.clone().at(&Rights::NONE, Seat::ALL[7]).collect().map(|_| full.clone()),
    ]
}

#[test]
fn every_ground_has_its_number() {
    let numbers: Vec<i32> = one_of_each()
        .into_iter()
        .map(|result| result.map_or_else(|refusal| refusal.number(), |_| 0))
        .collect();
    assert_eq!(numbers, (1..=19).collect::<Vec<i32>>());
}

#[test]
fn the_grounds_of_a_file_name_a_line() {
    let lines: Vec<Option<u32>> =
        one_of_each().into_iter().map(|result| result.err().and_then(Refusal::line)).collect();
    assert_eq!(lines[..7], [None, Some(3), Some(4), Some(5), Some(13), Some(20), Some(4)]);
    assert_eq!(lines[7..], [None; 12]);
}

#[test]
fn a_refusal_says_what_is_wrong() {
    let refusal = Bench::load(&with(example("doubler.txt"), 5, 2, 9)).expect_err("there is no type 9");
    assert_eq!(
        refusal.to_string(),
        "ground 4, line 5: a number is outside its range, or an unused field is not 0"
    );
    assert_eq!(Refusal::Port.to_string(), "ground 12: the file has no such port");
    assert_eq!(Refusal::ForbiddenCall.to_string(), "ground 16: the profile forbids a call");
    assert_eq!(Refusal::ManyThreads.to_string(), "ground 17: there can be more threads than thread rows");
    assert_eq!(
        Refusal::Seat.to_string(),
        "ground 19: there is no such seat, or it has not the right to this call"
    );
}

#[test]
fn a_refused_call_changes_nothing() {
    let mut bench = bench("doubler.txt");
    all(&mut bench).run(1).expect("never refused");
    let before = bench.clone();
    assert_eq!(all(&mut bench).step(0), Err(Refusal::Thread));
    assert_eq!(all(&mut bench).give(2, 1), Err(Refusal::Port));
    assert_eq!(all(&mut bench).take(7), Err(Refusal::Port));
    assert_eq!(all(&mut bench).take(u32::MAX), Err(Refusal::Seat));
    assert!(bench == before);
}

#[test]
fn a_bench_goes_on_from_kept_bytes() {
    let mut bench = bench("doubler.txt");
    all(&mut bench).run(1).expect("never refused");
    let table = Table::from_bytes(bench.table().as_bytes()).expect("it was loaded");
    let mut again = Bench::resume(table, bench.state().as_bytes()).expect("it is sound");
    assert!(again == bench);
    assert_eq!(all(&mut again).give(0, 4), Ok(Some(0)));
    assert_eq!(Table::from_bytes(&[]), Err(Refusal::BufferLength));
    assert_eq!(Table::from_bytes(&[0; 20_761]), Err(Refusal::BufferLength));
    // The state of one file is no state of another.
    let other = Table::load(&example("listing.txt")).expect("it loads");
    assert_eq!(Bench::resume(other, bench.state().as_bytes()), Err(Refusal::State));
}

#[test]
fn a_table_has_the_numbers_of_its_file() {
    let file = example("countdown.txt");
    let table = Table::load(&file).expect("it loads");
    for (number, line) in file.chunks(73).enumerate() {
        let text = String::from_utf8_lossy(line);
        let fields: Vec<i16> =
            text.split_whitespace().map(|field| field.parse().expect("a number")).collect();
        assert_eq!(table.row(number)[..], fields, "line {}", number + 1);
    }
    assert_eq!(table.row(Table::ROWS - 1), [0; 12]);
    assert_eq!(table.ports(), 0);
}
