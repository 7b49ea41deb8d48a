//! Tables that the safe layer checks for the rental-shop profile, and what the bench then keeps of the
//! pledge.

use generate::rental::{self, doublings, spawns_in_a_row};
use pithread::{Act, Bench, Reason, Refusal, Rights, Seat, Table};

fn example(name: &str) -> Table {
    let path = format!("{}/../../examples/{name}", env!("CARGO_MANIFEST_DIR"));
    let file = std::fs::read(&path).unwrap_or_else(|error| panic!("{path}: {error}"));
    Table::load(&file).expect("the examples load")
}

/// What each example comes to; nothing for those with a call that the profile forbids.
const EXAMPLES: [(&str, Option<u32>); 22] = [
    ("ackermann.txt", None),
    ("countdown.txt", Some(1)),
    ("crew.txt", Some(4)),
    ("critical.txt", Some(3)),
    ("doubler.txt", None),
    ("empty_slot.txt", Some(1)),
    ("first/1.txt", Some(1)),
    ("first/2.txt", Some(1)),
    ("first/3.txt", Some(1)),
    ("itself.txt", Some(2)),
    ("jobs.txt", Some(5)),
    ("largest.txt", Some(1)),
    ("late_sender.txt", Some(3)),
    ("listing.txt", Some(2)),
    ("lock.txt", Some(3)),
    ("philosophers.txt", Some(10)),
    ("pool.txt", None),
    ("relay.txt", Some(2)),
    ("ring_and_chain.txt", Some(6)),
    ("sieve.txt", None),
    ("units.txt", None),
    ("workers.txt", None),
];

#[test]
fn the_examples_have_their_bounds() {
    for (name, bound) in EXAMPLES {
        assert_eq!(example(name).profile(), bound.ok_or(Refusal::ForbiddenCall), "{name}");
    }
}

#[test]
fn answers_that_are_known() {
    for case in rental::cases() {
        let table = Table::load(&case.file.text()).expect("the file is right");
        let answer = match table.profile() {
            Ok(threads) => (0, threads as i32),
            Err(refusal) => (refusal.number(), 0),
        };
        assert_eq!(answer, (case.due.refusal, case.due.threads), "{}", case.name);
    }
}

/// The bench makes steps of threads that are not at an end, until there is none.
fn crowded(file: &[u8], ends: &[u32]) -> (usize, Option<Refusal>) {
    let mut bench = Bench::load(file).expect("the file is right");
    loop {
        let thread = bench.state().threads().find(|thread| !ends.contains(&thread.node));
        let Some(thread) = thread else { return (bench.state().threads().count(), None) };
        match bench.at(&Rights::FULL, Seat::ALL[0]).step(thread.number) {
            Ok(stepped) => assert!(matches!(stepped.act, Act::Branch { .. })),
            Err(refusal) => return (bench.state().threads().count(), Some(refusal)),
        }
    }
}

#[test]
fn all_rows_are_enough_for_64_threads() {
    assert_eq!(crowded(&spawns_in_a_row(64).text(), &[63]), (64, None));
    assert_eq!(crowded(&doublings(6).text(), &[6]), (64, None));
    assert_eq!(crowded(&spawns_in_a_row(65).text(), &[64]), (64, Some(Refusal::NoThreadRow)));
    assert_eq!(crowded(&doublings(7).text(), &[7]), (64, Some(Refusal::NoThreadRow)));
}

#[test]
fn a_file_that_passes_never_lacks_a_thread_row() {
    let table = example("philosophers.txt");
    let most = table.profile().expect("it passes") as usize;
    let mut bench = Bench::start(table).expect("never refused");
    for steps in 0..200 {
        let ran = bench.at(&Rights::FULL, Seat::ALL[0]).run(steps % 7).expect("the seat may run");
        assert!(!matches!(ran.reason, Reason::LackedThreadRow { .. }));
        assert!(bench.state().threads().count() <= most);
    }
}
