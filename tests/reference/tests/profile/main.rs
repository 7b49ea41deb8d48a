//! The reference's check for the rental-shop profile: beside answers that are known by how a file is made,
//! and beside searches that know nothing of bounds.

mod search;

use generate::rental::{self, forbidden_calls, led, tamed, Case};
use generate::{padded, profiled, table_of, File, Random, LIVELY, SMALLEST, STILL, TABLE_BYTES};
use interface::{Profiled, BUFFER_LENGTH, FORBIDDEN_CALL, MANY_THREADS, TABLE, THREADS};
use reference::{accepted, profile};
use search::{by_calls, where_all_goes_ahead, Most};

fn refused(refusal: i32) -> Profiled {
    Profiled { refusal, threads: 0 }
}

/// The bound of a file, if it passes.
fn bound_of(file: &File) -> Option<usize> {
    let profiled = profile(&table_of(&file.rows));
    (profiled.refusal == 0).then_some(profiled.threads as usize)
}

#[test]
fn answers_that_are_known() {
    let cases = rental::cases();
    for Case { name, file, due } in &cases {
        let table = table_of(&file.rows);
        assert!(accepted(&table), "{name}: made to be right");
        assert_eq!(profile(&table), *due, "{name}");
    }
    let count = |refusal| cases.iter().filter(|case| case.due.refusal == refusal).count();
    let counts = [0, FORBIDDEN_CALL, MANY_THREADS].map(count);
    assert!(counts.iter().all(|count| *count >= 100), "{counts:?}");
}

#[test]
fn the_length_of_the_table_comes_first() {
    let right = table_of(&SMALLEST.map(padded));
    assert_eq!(profile(&right), Profiled { refusal: 0, threads: 1 });
    for length in [0, 1, TABLE_BYTES - 1, TABLE_BYTES + 1, 2 * TABLE_BYTES] {
        assert_eq!(profile(&right.repeat(2)[..length]), refused(BUFFER_LENGTH), "{length} bytes");
        assert_eq!(profile(&vec![0xa5; length]), refused(BUFFER_LENGTH), "{length} bytes");
    }
}

/// A table that no file has is refused as such, whatever its calls and bounds would be.
#[test]
fn the_table_comes_before_the_profile() {
    for Case { name, file, .. } in rental::cases() {
        let mut behind = table_of(&file.rows);
        behind[TABLE_BYTES - 1] = 1;
        let mut kind = table_of(&file.rows);
        kind[0] = 2;
        for wrong in [behind, kind] {
            assert_eq!(profile(&wrong), refused(TABLE), "{name}");
        }
    }
}

/// Ground 16 exactly where a call of the file is one that the words of the request forbid.
#[test]
fn forbidden_calls_are_found() {
    let (mut with, mut without) = (0, 0);
    for seed in 60_000_000..60_004_000 {
        let file = rental::any(&mut Random::new(seed));
        let forbidden = !forbidden_calls(&file).is_empty();
        let profiled = profile(&table_of(&file.rows));
        assert_eq!(profiled.refusal == FORBIDDEN_CALL, forbidden, "seed {seed}");
        with += usize::from(forbidden);
        without += usize::from(!forbidden);
    }
    println!("{with} with a forbidden call, {without} without");
    assert!(with >= 500 && without >= 1_500);
}

/// What searches have met.
#[derive(Debug, Default)]
struct Met {
    /// For each bound, how many files were searched to their end.
    whole: [usize; 12],
    /// Files that had too many states, and those of them in which more threads were seen than there are rows.
    cut: usize,
    crowded: usize,
}

impl Met {
    fn add(&mut self, most: Most) {
        match most.everywhere {
            true => self.whole[most.threads.min(11)] += 1,
            false => self.cut += 1,
        }
        self.crowded += usize::from(most.threads > THREADS);
    }
}

/// The bound is just the number of threads that there can be where every branch may go ahead at any time:
/// each thread takes the branches that come to the most, and whoever has no more to spawn stays where it
/// is. So it is for every file whose calls are allowed, whatever its branches do.
#[test]
fn the_bound_is_reached_where_all_goes_ahead() {
    let mut met = Met::default();
    for seed in 61_000_000..61_003_000 {
        let random = &mut Random::new(seed);
        let file = rental::any(random);
        let file = tamed(random, file);
        let most = where_all_goes_ahead(&file, 2_000);
        match bound_of(&file) {
            Some(bound) if most.everywhere => assert_eq!(bound, most.threads, "seed {seed}"),
            Some(bound) => assert!(bound >= most.threads, "seed {seed}: {bound}, {most:?}"),
            None => assert!(!most.everywhere || most.threads > THREADS, "seed {seed}: {most:?}"),
        }
        met.add(most);
    }
    println!("{met:?}");
    assert!(met.whole[1..].iter().all(|files| *files >= 10) && met.cut >= 300 && met.crowded >= 30);
}

/// A bench can lead each thread of these files into any branch, and no thread waits for another. So calls
/// reach the bound too, and nothing more.
#[test]
fn calls_reach_the_bound_where_the_bench_leads() {
    let mut met = Met::default();
    for seed in 62_000_000..62_000_300 {
        let random = &mut Random::new(seed);
        let definitions = random.within(1..=3);
        let file = led(random, definitions, 2);
        let most = by_calls(&file, 3_000);
        let bound = bound_of(&file);
        assert!(bound.is_some_and(|bound| bound >= most.threads), "seed {seed}: {bound:?}, {most:?}");
        if most.everywhere {
            assert_eq!(bound, Some(most.threads), "seed {seed}");
        }
        met.add(most);
    }
    println!("{met:?}");
    assert!(met.whole[1..=4].iter().all(|files| *files >= 15));
}

/// In other files threads wait for each other, and guards close branches: there are never more threads than
/// the bound, and often fewer.
#[test]
fn calls_do_not_exceed_the_bound() {
    let (mut reached, mut below) = (0, 0);
    for (place, profile) in LIVELY.iter().chain(&STILL).enumerate() {
        for seed in 63_000_000 + 1_000 * place as u64..63_000_030 + 1_000 * place as u64 {
            let random = &mut Random::new(seed);
            let file = profiled(random, profile);
            let file = tamed(random, file);
            let Some(bound) = bound_of(&file) else { continue };
            let most = by_calls(&file, 100);
            assert!(most.threads <= bound, "seed {seed}, {}: {bound}, {most:?}", profile.name);
            reached += usize::from(most.threads == bound);
            below += usize::from(most.threads < bound);
        }
    }
    println!("the bound was reached {reached} times, and {below} times not");
    assert!(reached >= 100 && below >= 100);
}
