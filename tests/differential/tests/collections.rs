//! Collections by the archive alone: nobody whom it takes could have moved, and whoever waits on is linked.

use differential::for_seeds;
use generate::standstills::{self, any_group, chain, clique, port_waiter, Foot};
use generate::{
    any_call, changed_state, profiled, table_of, without, woken_state, File, Layout, Profile, Random, Rule,
    View, Words, FREE, LIVELY, STILL,
};
use interface::{Call, Collected, FRONT_WORDS, FULL_RIGHTS, STATE_BYTES, THREADS, THREAD_WORDS};
use pithread::raw;

/// Calls of a walk, after each of which there is a collection.
const WALK: usize = 20;
/// Lists of calls from before a collection that took some and not all, and calls in each.
const LISTS: usize = 4;
const CALLS: usize = 30;

/// What many collections have met.
#[derive(Debug, Default)]
struct Met {
    took_nobody: usize,
    took: usize,
    /// Those of them that left somebody.
    took_some: usize,
    /// Calls in the lists that followed, and those of them that changed the state.
    calls: usize,
    moves: usize,
    /// Lists by which a thread moved that the rule takes.
    found: usize,
}

/// A file, and the random numbers that its walk and its lists follow.
struct Bench<'a> {
    random: &'a mut Random,
    table: Vec<u8>,
    layout: Layout<'a>,
    about: &'a str,
}

impl Bench<'_> {
    /// Collects after each call of a walk, but goes on as if nothing had been collected.
    fn walk(&mut self, rule: Rule, met: &mut Met) {
        let mut state = vec![0x5a; STATE_BYTES];
        assert_eq!(raw::start(&self.table, &mut state).refusal, 0);
        for _ in 0..WALK {
            let most = self.random.pick(&[3, 20, 200]);
            let run = Call::Run { n: self.random.below(most) as u16 };
            let call = if self.random.chance(30) { run } else { self.any_call(&state) };
            self.make(call, &mut state);
            state = self.varied(state);
            match rule {
                Rule::Right => self.collect(&state, met),
                _ => self.play(&state, &View::new(&self.layout, &state).taken(rule), rule, met),
            }
        }
    }

    /// Some call that is neither a start nor a collection.
    fn any_call(&mut self, state: &[u8]) -> Call {
        loop {
            let call = any_call(self.random, state, self.layout.ports());
            if call != Call::Start && call != Call::Collect {
                return call;
            }
        }
    }

    /// Makes a call on the archive. It may be refused, but not for its buffers.
    fn make(&self, call: Call, state: &mut [u8]) {
        let refusal = archive::ENGINE.answer(call, &self.table, state).refusal();
        assert!(![8, 9, 10].contains(&refusal), "{}: {call:?} is refused with {refusal}", self.about);
    }

    /// Now and then another sound state, to which no calls need lead.
    fn varied(&mut self, state: Vec<u8>) -> Vec<u8> {
        let other = match self.random.below(4) {
            0 => woken_state(self.random, &self.layout, &state),
            1 => changed_state(self.random, &self.layout, &state),
            _ => return state,
        };
        match raw::run(&self.table, &mut other.clone(), &FULL_RIGHTS, 0, 0).refusal {
            0 => other,
            _ => state,
        }
    }

    /// Collects, looks at what is left, and plays lists from before.
    fn collect(&mut self, state: &[u8], met: &mut Met) {
        let mut after = state.to_vec();
        let collected = raw::collect(&self.table, &mut after, &FULL_RIGHTS, 0);
        let taken = gone(state, &after);
        assert_eq!(collected, Collected { refusal: 0, threads: taken.len() as i32 }, "{}", self.about);
        assert!(after == without(&self.layout, state, &taken), "{}: not all the rest stays", self.about);
        let left = View::new(&self.layout, &after);
        for thread in left.waiting() {
            assert!(left.is_linked(thread), "{}: thread {thread} is left and not linked", self.about);
        }
        self.play(state, &taken, Rule::Right, met);
    }

    /// Plays lists of calls, only one where nobody would be left. The rows of the threads taken have to stay
    /// as they are, if the rule is the right one.
    fn play(&mut self, state: &[u8], taken: &[usize], rule: Rule, met: &mut Met) {
        if taken.is_empty() {
            met.took_nobody += 1;
            return;
        }
        let some_left = taken.len() + Words::new(state).threads(FREE).len() < THREADS;
        met.took += 1;
        met.took_some += usize::from(some_left);
        for _ in 0..if some_left { LISTS } else { 1 } {
            let Some(call) = self.moves(state, taken, met) else { continue };
            assert!(rule != Rule::Right, "{}: of {taken:?} one moves by {call:?}", self.about);
            met.found += 1;
        }
    }

    /// Plays one list; answers the call that changes the row of one of the threads.
    fn moves(&mut self, state: &[u8], taken: &[usize], met: &mut Met) -> Option<Call> {
        let mut now = state.to_vec();
        for _ in 0..CALLS {
            let before = now.clone();
            let call = self.any_call(&now);
            self.make(call, &mut now);
            met.calls += 1;
            met.moves += usize::from(now != before);
            if taken.iter().any(|thread| row(&now, *thread) != row(state, *thread)) {
                return Some(call);
            }
        }
        None
    }
}

/// The threads whose rows are free after a collection and were not before.
fn gone(before: &[u8], after: &[u8]) -> Vec<usize> {
    let free = Words::new(before).threads(FREE);
    let mut gone = Words::new(after).threads(FREE);
    gone.retain(|thread| !free.contains(thread));
    gone
}

/// The bytes of a thread's row.
fn row(state: &[u8], thread: usize) -> &[u8] {
    let start = 4 * (FRONT_WORDS + thread * THREAD_WORDS);
    &state[start..start + 4 * THREAD_WORDS]
}

fn walk(random: &mut Random, file: &File, rule: Rule, about: &str, met: &mut Met) {
    let (table, layout) = (table_of(&file.rows), Layout::new(file));
    Bench { random, table, layout, about }.walk(rule, met);
}

/// Walks through random files: so many of each profile, and as many groups of threads as of all profiles.
fn random_files(files: u64, rule: Rule) -> Met {
    let mut met = Met::default();
    let profiles: Vec<&Profile> = LIVELY.iter().chain(&STILL).collect();
    for place in 0..2 * profiles.len() {
        for_seeds(16_000_000 + 100_000 * place as u64, files, |random, about| {
            let (name, file) = match profiles.get(place) {
                Some(profile) => (profile.name, profiled(random, profile)),
                None => ("group", any_group(random)),
            };
            walk(random, &file, rule, &format!("{about}, {name}"), &mut met);
        });
    }
    println!("{met:?}");
    met
}

/// Walks through a file written by hand.
fn one_file(name: &str, file: &File, rule: Rule) -> Met {
    let mut met = Met::default();
    for_seeds(18_000_000, 20, |random, about| {
        walk(random, file, rule, &format!("{about}, {name}"), &mut met);
    });
    println!("{name}: {met:?}");
    met
}

#[test]
fn random_files_keep_those_who_can_move() {
    let met = random_files(14, Rule::Right);
    assert!(met.took_nobody >= 2_500 && met.took >= 2_000 && met.took_some >= 1_300);
    assert!(met.calls >= 180_000 && met.moves >= 55_000);
}

#[test]
fn files_written_by_hand_keep_those_who_can_move() {
    let mut files = standstills::all();
    let feet = [Foot::Port, Foot::Ready, Foot::Lone, Foot::First];
    files.extend(feet.map(|foot| ("64 in a chain", chain(THREADS as i16, foot))));
    files.extend([1, 0].map(|of_the_last| ("64 in a clique", clique(of_the_last))));
    let (mut took, mut moves) = (0, 0);
    for (name, file) in files {
        let met = one_file(name, &file, Rule::Right);
        took += met.took;
        moves += met.moves;
    }
    println!("some were taken {took} times, and others moved {moves} times");
    assert!(took >= 1_500 && moves >= 15_000);
}

/// Such lists find out wrong rules.
#[test]
fn wrong_rules_are_found_out() {
    assert!(one_file("port waiter", &port_waiter(), Rule::NoBench).found >= 50);
    assert!(one_file("chain to a port", &chain(3, Foot::Port), Rule::OffersOnly).found >= 200);
    assert!(random_files(5, Rule::NoBench).found >= 350);
    assert!(random_files(5, Rule::OffersOnly).found >= 45);
}
