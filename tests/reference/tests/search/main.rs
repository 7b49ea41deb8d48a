//! Whether a thread that a collection takes could have moved: every short list of calls is tried.

mod futures;
mod shapes;
mod walks;

use futures::{search, Outcome};
use generate::standstills::{self, any_group, chain, port_waiter, through_a_waiter, Foot};
use generate::{profiled, table_of, without, File, Layout, Random, Rule, View, LIVELY, STILL};
use interface::{Collected, FULL_RIGHTS};
use shapes::{Shapes, EVERY_SHAPE};
use walks::{long_walk, walk};

/// How many calls a list has.
const DEPTH: usize = 6;
/// How many states of one walk are searched from.
const FROM_ONE_WALK: usize = 4;
/// For each file of a profile so many random groups.
const GROUPS: usize = 24;

/// What many searches have met.
#[derive(Debug, Default)]
struct Met {
    /// Collections that took somebody, and those of them that left somebody too.
    took: usize,
    took_some: usize,
    /// States that were looked at and showed nothing.
    states: usize,
    /// Searches that found a list by which a thread that was taken moves.
    moved: usize,
    shapes: Shapes,
}

impl Met {
    /// Searches from some of the states of a walk, of those from which the rule takes somebody. The right
    /// rule is first seen to be the reference's.
    fn add_walk(&mut self, random: &mut Random, file: &File, rule: Rule, about: &str) {
        let layout = Layout::new(file);
        let mut states = walk(random, file);
        if rule == Rule::Right {
            states.iter().for_each(|state| _ = compare(file, state, about));
        }
        states.retain(|state| !View::new(&layout, state).taken(rule).is_empty());
        random.shuffle(&mut states);
        for state in states.iter().take(FROM_ONE_WALK) {
            self.add(file, state, rule, about);
        }
    }

    /// Looks for a list of calls by which a thread moves that the rule takes from the state.
    fn add(&mut self, file: &File, state: &[u8], rule: Rule, about: &str) {
        let (table, layout) = (table_of(&file.rows), Layout::new(file));
        let view = View::new(&layout, state);
        let taken = view.taken(rule);
        self.took += 1;
        self.took_some += usize::from(taken.len() < view.threads().len());
        self.shapes.add(&view);
        match search(&table, layout.ports(), state, &taken, DEPTH) {
            Outcome::Still(states) => self.states += states,
            Outcome::Moves(calls) if rule == Rule::Right => {
                panic!("{about}: of {taken:?} one moves by {calls:?}")
            }
            Outcome::Moves(_) => self.moved += 1,
        }
    }
}

/// Walks through random files: so many of each profile, and random groups.
fn random_files(files: u64, rule: Rule) -> Met {
    let mut met = Met::default();
    for place in 0..STILL.len() + GROUPS {
        let first = 20_000_000 + 100_000 * place as u64;
        for seed in first..first + files {
            let random = &mut Random::new(seed);
            let file = match STILL.get(place) {
                Some(profile) => profiled(random, profile),
                None => any_group(random),
            };
            met.add_walk(random, &file, rule, &format!("seed {seed}"));
        }
    }
    println!("{met:?}");
    met
}

/// Walks through a file written by hand.
fn one_file(name: &str, file: &File, rule: Rule) -> Met {
    let mut met = Met::default();
    for seed in 25_000_000..25_000_030 {
        met.add_walk(&mut Random::new(seed), file, rule, &format!("seed {seed}, {name}"));
    }
    println!("{name}: {met:?}");
    met
}

#[test]
fn nobody_who_is_taken_moves_in_random_files() {
    let met = random_files(15, Rule::Right);
    assert!(met.took >= 600 && met.took_some >= 500 && met.states >= 30_000);
    met.shapes.expect(&EVERY_SHAPE, 80);
}

#[test]
fn nobody_who_is_taken_moves_in_files_written_by_hand() {
    let mut took = 0;
    for (name, file) in standstills::all() {
        took += one_file(name, &file, Rule::Right).took;
    }
    assert!(took >= 300, "{took}");
}

#[test]
fn to_forget_the_bench_is_found_out() {
    let met = one_file("port waiter", &port_waiter(), Rule::NoBench);
    assert!(met.took > 0 && met.moved == met.took);
    let met = one_file("chain", &chain(3, Foot::Port), Rule::NoBench);
    assert!(met.moved >= 10);
    let met = random_files(5, Rule::NoBench);
    assert!(met.moved >= 30);
}

#[test]
fn to_follow_offers_only_is_found_out() {
    let met = one_file("through a waiter", &through_a_waiter(), Rule::OffersOnly);
    assert!(met.took > 0 && met.moved == met.took);
    let met = one_file("chain", &chain(3, Foot::Port), Rule::OffersOnly);
    assert!(met.moved >= 10);
    let met = random_files(5, Rule::OffersOnly);
    assert!(met.moved >= 1);
}

/// The answer and every byte of the state are those that the words and the file give; the state is sound
/// and has nobody more to take. Answers how many threads were taken.
fn compare(file: &File, state: &[u8], about: &str) -> usize {
    let layout = Layout::new(file);
    let taken = View::new(&layout, state).taken(Rule::Right);
    let (table, mut after) = (table_of(&file.rows), state.to_vec());
    let collected = reference::collect(&table, &mut after, &FULL_RIGHTS, 0);
    assert_eq!(collected, Collected { refusal: 0, threads: taken.len() as i32 }, "{about}");
    assert!(after == without(&layout, state, &taken), "{about}: another state");
    assert_eq!(reference::fault(&table, &after), None, "{about}");
    assert!(View::new(&layout, &after).taken(Rule::Right).is_empty(), "{about}: not all at once");
    taken.len()
}

#[test]
fn the_reference_takes_those_without_a_series() {
    let (mut none, mut few, mut many) = (0, 0, 0);
    for (place, profile) in LIVELY.iter().chain(&STILL).enumerate() {
        let first = 26_000_000 + 100_000 * place as u64;
        for seed in first..first + 100 {
            let random = &mut Random::new(seed);
            let file = profiled(random, profile);
            for state in long_walk(random, &file) {
                match compare(&file, &state, &format!("seed {seed}, {}", profile.name)) {
                    0 => none += 1,
                    1..10 => few += 1,
                    _ => many += 1,
                }
            }
        }
    }
    println!("nobody {none} times, few {few} times, many {many} times");
    assert!(none >= 5_000 && few >= 5_000 && many >= 300);
}
