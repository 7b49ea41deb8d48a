//! The archive's check for the rental-shop profile against the reference, on very many tables.

use differential::{examples, for_fields, for_seeds, Profiles, Traffic};
use generate::cases::Case;
use generate::rental::{self, led, tamed};
use generate::{
    any_valid, cases, damaged_table, padded, table_of, valid, File, Size, MOST_LINES, TABLE_BYTES,
};
use interface::{Call, Profiled, BUFFER_LENGTH, FORBIDDEN_CALL, MANY_THREADS, STATE_BYTES, TABLE};

fn refused(refusal: i32) -> Profiled {
    Profiled { refusal, threads: 0 }
}

/// Checks by both sides, and what they have met.
struct Checks {
    profiles: Profiles,
    traffic: Traffic,
}

impl Checks {
    fn new() -> Checks {
        Checks { profiles: Profiles::new(archive::profile), traffic: Traffic::default() }
    }

    fn check(&mut self, table: &[u8], about: &str) -> Profiled {
        let profiled = self.profiles.compare(table, about);
        self.traffic.add_profile(&profiled);
        profiled
    }

    /// Checks the table of a right file, which is not refused as a table.
    fn check_file(&mut self, file: &File, about: &str) {
        let refusal = self.check(&table_of(&file.rows), about).refusal;
        assert!([0, FORBIDDEN_CALL, MANY_THREADS].contains(&refusal), "{about}: refused with {refusal}");
        self.traffic.note("all lines", i32::from(file.rows.len() == MOST_LINES));
    }
}

#[test]
fn right_files() {
    let mut checks = Checks::new();
    for_seeds(65_000_000, 60_000, |random, about| checks.check_file(&rental::any(random), about));
    for_seeds(65_100_000, 10_000, |random, about| checks.check_file(&any_valid(random), about));
    for_seeds(65_200_000, 30_000, |random, about| {
        let (definitions, choices) = (random.within(1..=6), random.within(1..=7));
        checks.check_file(&led(random, definitions, choices), about);
    });
    let traffic = checks.traffic;
    traffic.print();
    assert!(traffic.calls() >= 100_000);
    traffic.expect("profile", [0, FORBIDDEN_CALL], 10_000);
    traffic.expect("profile", [MANY_THREADS], 3_000);
    traffic.expect("bound", 1..=64, 15);
    traffic.expect("all lines", [1], 500);
}

#[test]
fn files_at_the_limits() {
    let mut checks = Checks::new();
    for_seeds(66_000_000, 100, |random, about| {
        for size in Size::LIMITS {
            let file = valid(random, size);
            checks.check_file(&file, &format!("{about}, {size:?}"));
            checks.check_file(&tamed(random, file), &format!("{about}, {size:?}, tamed"));
        }
    });
    let traffic = checks.traffic;
    traffic.print();
    traffic.expect("profile", [0, FORBIDDEN_CALL, MANY_THREADS], 100);
    traffic.expect("all lines", [1], 200);
}

/// Files with a known answer: ladders that no path by path search would come through, bounds at and beside
/// the number of rows and beyond narrow numbers, calls of every direction.
#[test]
fn answers_that_are_known() {
    let mut checks = Checks::new();
    for rental::Case { name, file, due } in rental::cases() {
        assert_eq!(checks.check(&table_of(&file.rows), &name), due, "{name}");
    }
    let traffic = checks.traffic;
    traffic.print();
    traffic.expect("profile", [0, FORBIDDEN_CALL, MANY_THREADS], 100);
    traffic.expect("bound", 1..=64, 2);
}

/// Tables after a change. Some are still right.
#[test]
fn damaged_tables() {
    let mut checks = Checks::new();
    for_seeds(67_000_000, 10_000, |random, about| {
        let file = rental::any(random);
        for number in 0..5 {
            checks.check(&damaged_table(random, &file), &format!("{about}, table {number}"));
        }
    });
    let traffic = checks.traffic;
    traffic.print();
    traffic.expect("profile", [TABLE], 20_000);
    traffic.expect("profile", [0, BUFFER_LENGTH, FORBIDDEN_CALL], 500);
    traffic.expect("profile", [MANY_THREADS], 100);
}

/// The length comes before the table, the table before the calls, and these before the bound.
#[test]
fn the_grounds_in_order() {
    let mut checks = Checks::new();
    for rental::Case { name, file, due } in rental::cases() {
        let right = table_of(&file.rows);
        let mut behind = right.clone();
        behind[TABLE_BYTES - 1] = 1;
        for length in [0, 1, 24, TABLE_BYTES - 1, TABLE_BYTES + 1, 2 * TABLE_BYTES] {
            for table in [&right, &behind] {
                let due = refused(BUFFER_LENGTH);
                assert_eq!(checks.check(&table.repeat(2)[..length], &name), due, "{name}, {length} bytes");
            }
        }
        assert_eq!(checks.check(&behind, &name), refused(TABLE), "{name}");
        assert_eq!(checks.check(&right, &name), due, "{name}");
    }
    for byte in [0, 1, 2, 127, 128, 255] {
        assert_eq!(checks.check(&[byte; TABLE_BYTES], "one byte repeated"), refused(TABLE));
    }
}

/// Every field of some small tables, set to each of many numbers: calls, targets and actions among them.
#[test]
fn each_field_of_small_tables() {
    let mut checks = Checks::new();
    let numbers: Vec<i16> = (-2..=17).collect();
    for rows in
        [cases::LISTING.map(padded).to_vec(), cases::PAIR.map(padded).to_vec(), rental::with_arguments().rows]
    {
        for_fields(&rows, &numbers, |rows, about| _ = checks.check(&table_of(rows), about));
    }
    let traffic = checks.traffic;
    traffic.print();
    traffic.expect("profile", [0, FORBIDDEN_CALL], 150);
    traffic.expect("profile", [TABLE], 10_000);
    traffic.expect("bound", [2, 3], 150);
}

/// The proved driver starts what passes by the functions that C calls: as the reference does it in two calls.
#[test]
fn the_driver_starts_what_passes() {
    let mut traffic = Traffic::default();
    for_seeds(68_000_000, 3_000, |random, about| {
        let file = rental::any(random);
        let table = if random.chance(80) { table_of(&file.rows) } else { damaged_table(random, &file) };
        let mut state = vec![0x5a; random.pick(&[STATE_BYTES, STATE_BYTES, STATE_BYTES, 0, STATE_BYTES + 1])];
        let mut due_state = state.clone();
        let due = match reference::profile(&table).refusal {
            0 => reference::ENGINE.answer(Call::Start, &table, &mut due_state).refusal(),
            refusal => refusal,
        };
        assert_eq!(driver::start_profiled(&table, &mut state), due, "{about}");
        assert!(state == due_state, "{about}: other bytes");
        traffic.note("started", due);
    });
    traffic.expect("started", [0, BUFFER_LENGTH, TABLE, FORBIDDEN_CALL], 200);
    traffic.expect("started", [MANY_THREADS], 50);
}

#[test]
fn examples_get_one_answer() {
    let mut checks = Checks::new();
    for folder in ["examples", "examples/first", "examples/refused"] {
        for (path, text) in examples(folder) {
            if let Ok(table) = reference::load(&text) {
                checks.check(&table.to_bytes(), &path);
            }
        }
    }
    checks.traffic.print();
}

/// A case that loads gets an answer; the numbers of one that does not are no table.
fn check(case: &Case) {
    if let Some(table) = case.table() {
        let profiled = Checks::new().check(&table, &case.name);
        assert_eq!(profiled == refused(TABLE), case.ground != 0, "{}", case.name);
    }
}

generate::case_tests!(check);
