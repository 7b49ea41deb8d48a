//! The patterns among the examples do what the guide says, in whatever order their threads step.
//!
//! All calls are made on the archive and on the reference.

use std::fs;
use std::ops::RangeInclusive;
use std::path::Path;

use differential::{for_seeds, Calls};
use generate::{Random, Words, FREE, READY};
use interface::{Answer, Call, CHANNELS, NOBODY, NONE_READY, STATE_BYTES};
use reference::TABLE_BYTES;

/// One example, and the state that the calls so far have led to.
struct Example {
    calls: Calls,
    table: Vec<u8>,
    state: Vec<u8>,
    about: String,
}

impl Example {
    /// Loads an example and starts it.
    fn start(name: &str, about: &str) -> Example {
        let path = Path::new(env!("CARGO_MANIFEST_DIR")).join("../../examples").join(name);
        let mut table = vec![0; TABLE_BYTES];
        assert_eq!(archive::answer(&fs::read(path).expect("an example"), &mut table), (0, 0), "{name}");
        let about = format!("{name}, {about}");
        let (calls, state) = (Calls::new(archive::ENGINE), vec![0; STATE_BYTES]);
        let mut example = Example { calls, table, state, about };
        example.call(Call::Start);
        example
    }

    fn call(&mut self, call: Call) -> Answer {
        let answer = self.calls.compare(call, &self.table, &self.state, &self.about);
        assert_eq!(answer.refusal(), 0, "{}: {call:?}", self.about);
        self.state.clone_from_slice(self.calls.state());
        answer
    }

    /// Steps some ready thread. Answers whether there was one.
    fn step_any(&mut self, random: &mut Random) -> bool {
        let Some(thread) = random.choose(&self.words().threads(READY)) else { return false };
        self.call(Call::Step { thread: thread as u32 });
        true
    }

    /// Runs until no thread is ready.
    fn run(&mut self) {
        match self.call(Call::Run { n: 10_000 }) {
            Answer::Ran(ran) => assert_eq!(ran.reason, NONE_READY, "{}", self.about),
            other => panic!("a run answered {other:?}"),
        }
    }

    /// The thread that the number went to, if there was one.
    fn give(&mut self, port: u32, number: i32) -> Option<i32> {
        match self.call(Call::Give { port, number }) {
            Answer::Given(given) => (given.thread != NOBODY).then_some(given.thread),
            other => panic!("a give answered {other:?}"),
        }
    }

    /// The number and the thread that it came from, if there was one.
    fn take(&mut self, port: u32) -> Option<(i32, i32)> {
        match self.call(Call::Take { port }) {
            Answer::Taken(taken) => (taken.thread != NOBODY).then_some((taken.number, taken.thread)),
            other => panic!("a take answered {other:?}"),
        }
    }

    /// Collects, and answers how many threads were taken, how many are left and how many channels are
    /// in use.
    fn collect(&mut self) -> (i32, usize, usize) {
        let taken = match self.call(Call::Collect) {
            Answer::Collected(collected) => collected.threads,
            other => panic!("a collection answered {other:?}"),
        };
        (taken, self.threads(), CHANNELS - self.words().channels(0).len())
    }

    fn words(&self) -> Words {
        Words::new(&self.state)
    }

    fn threads(&self) -> usize {
        64 - self.words().threads(FREE).len()
    }

    /// How many threads stand at these nodes.
    fn count_at(&self, nodes: RangeInclusive<i32>) -> usize {
        let words = self.words();
        (0..64).filter(|row| words.thread(*row)[0] != FREE && nodes.contains(&words.thread(*row)[1])).count()
    }
}

#[test]
fn the_first_file_answers_with_one_more() {
    let mut example = Example::start("first/3.txt", "run");
    example.run();
    for number in [41, -1, i32::MAX - 1] {
        assert_eq!(example.give(0, number), Some(0));
        assert_eq!(example.give(0, number), None);
        example.run();
        assert_eq!(example.take(0), Some((number + 1, 0)));
        example.run();
    }
    assert_eq!(example.collect(), (0, 1, 1));
    // There is no larger number, and nothing else that the thread could do.
    assert_eq!(example.give(0, i32::MAX), Some(0));
    example.run();
    assert_eq!(example.take(0), None);
    assert_eq!(example.collect(), (1, 0, 1));
}

#[test]
fn the_soak_counts_to_its_end() {
    let mut example = Example::start("soak.txt", "run");
    example.run();
    let count = example.words().thread(0)[2];
    assert_eq!(count, 32_767 << 16);
    assert_eq!(count.checked_add(count), None);
    assert_eq!(example.count_at(4..=4), 1);
    assert_eq!(example.collect(), (1, 0, 0));
}

#[test]
fn the_stages_before_it() {
    let mut example = Example::start("first/1.txt", "run");
    example.run();
    assert_eq!(example.threads(), 0);
    let mut example = Example::start("first/2.txt", "run");
    example.run();
    assert_eq!(example.give(0, 41), Some(0));
    example.run();
    assert_eq!(example.threads(), 0);
}

#[test]
fn the_exercise_keeps_the_largest() {
    let mut example = Example::start("largest.txt", "run");
    example.run();
    assert_eq!(example.take(1), Some((0, 0)));
    for (number, largest) in [(-40_000, 0), (3, 3), (-7, 3), (3, 3), (1 << 30, 1 << 30)] {
        example.run();
        assert_eq!(example.give(0, number), Some(0));
        example.run();
        assert_eq!(example.take(1), Some((largest, 0)));
    }
}

/// Four numbers are at work at a time, whatever is stepped, and each comes out doubled. A number below 0
/// ends a worker.
#[test]
fn a_crew_of_four() {
    for_seeds(30_500_000, 20, |random, about| {
        let mut example = Example::start("crew.txt", about);
        let (mut given, mut taken) = (Vec::new(), Vec::new());
        for _ in 0..200 {
            match random.below(6) {
                0 => given.extend(example.give(0, given.len() as i32).map(|_| 2 * given.len() as i32)),
                1 => taken.extend(example.take(1).map(|(number, _)| number)),
                _ => _ = example.step_any(random),
            }
            assert!(example.threads() <= 4 && given.len() - taken.len() <= 4, "{about}");
        }
        example.run();
        while let Some((number, _)) = example.take(1) {
            taken.push(number);
            example.run();
        }
        taken.sort_unstable();
        assert!(taken == given && given.len() > 4, "{about}: {given:?}, {taken:?}");
        for left in (0..4).rev() {
            assert!(example.give(0, -1).is_some(), "{about}");
            example.run();
            assert_eq!(example.threads(), left, "{about}");
        }
    });
}

/// As many threads as the kind of the job says, and never more.
#[test]
fn jobs_of_two_kinds() {
    let mut most = [0; 3];
    for_seeds(30_600_000, 40, |random, about| {
        let mut example = Example::start("jobs.txt", about);
        example.run();
        let (kind, threads) = random.pick(&[(1, 2), (2, 5), (-7, 5)]);
        assert_eq!(example.give(0, kind), Some(0), "{about}");
        while example.step_any(random) {
            assert!(example.threads() <= threads, "{about}");
        }
        let number = if kind == 1 { 1 } else { 2 };
        most[number] = most[number].max(example.threads());
        for _ in 0..threads {
            assert_eq!(example.take(1).map(|(number, _)| number), Some(number as i32), "{about}");
            example.run();
        }
        assert_eq!((example.take(1), example.threads()), (None, 0), "{about}");
    });
    assert_eq!(most, [0, 2, 5]);
}

/// The worker whose question the bench has taken gets the answer, and no other is in between.
#[test]
fn critical_section() {
    let mut answered = [0; 2];
    let mut waited_for_the_lock = 0;
    for_seeds(30_000_000, 60, |random, about| {
        let mut example = Example::start("critical.txt", about);
        let mut asked = None;
        for _ in 0..200 {
            match random.below(4) {
                0 => asked = example.take(0).or(asked),
                1 => {
                    if let Some(thread) = example.give(1, 5) {
                        let (number, asker) = asked.take().expect("no answer without a question");
                        assert_eq!(thread, asker, "{about}");
                        answered[number as usize - 1] += 1;
                    }
                }
                _ => {
                    example.step_any(random);
                }
            }
            assert!(example.count_at(9..=11) <= 1, "{about}: two in the critical section");
            waited_for_the_lock += usize::from(example.count_at(9..=11) == 1 && example.count_at(8..=8) == 1);
        }
    });
    assert!(answered[0] > 100 && answered[1] > 100 && waited_for_the_lock > 100, "{answered:?}");
}

#[test]
fn lock_with_a_private_release() {
    let mut entered = 0;
    for_seeds(30_100_000, 100, |random, about| {
        let mut example = Example::start("lock.txt", about);
        while example.step_any(random) {
            let inside = example.count_at(10..=11);
            assert!(inside <= 1, "{about}: two in the critical section");
            entered += inside;
        }
        assert_eq!(example.threads(), 1, "{about}: both workers have ended");
        assert_eq!(example.collect(), (1, 0, 0), "{about}: the lock goes with its channels");
    });
    assert!(entered > 200);
}

#[test]
fn task_pool() {
    let mut full = 0;
    for_seeds(30_200_000, 60, |random, about| {
        let mut example = Example::start("pool.txt", about);
        let mut taken = Vec::new();
        loop {
            let stepped = example.step_any(random);
            let inside = example.count_at(22..=23);
            assert!(inside <= 2, "{about}: {inside} tasks in the pool");
            full += usize::from(inside == 2 && example.count_at(21..=21) == 1);
            if !stepped || random.chance(2) {
                match example.take(0) {
                    Some((number, _)) => taken.push(number),
                    None if !stepped => break,
                    None => {}
                }
            }
        }
        taken.sort_unstable();
        assert_eq!(taken, [1, 2, 3], "{about}");
        assert_eq!(example.threads(), 1, "{about}: the pool alone is left");
        assert_eq!(example.collect(), (1, 0, 1), "{about}");
    });
    assert!(full > 100, "{full}");
}

const PRIMES: [i32; 10] = [2, 3, 5, 7, 11, 13, 17, 19, 23, 29];

#[test]
fn sieve_in_runs() {
    let mut example = Example::start("sieve.txt", "in runs");
    example.run();
    for prime in PRIMES {
        assert_eq!(example.take(0).map(|(number, _)| number), Some(prime));
        example.run();
    }
    assert_eq!(example.take(0), None);
    assert_eq!(example.threads(), 11, "a filter for each prime, and the last one");
    assert_eq!(example.collect(), (11, 0, 1));
}

#[test]
fn sieve_in_any_order() {
    for_seeds(30_300_000, 5, |random, about| {
        let mut example = Example::start("sieve.txt", about);
        let mut taken = Vec::new();
        loop {
            let stepped = example.step_any(random);
            if !stepped || random.chance(5) {
                match example.take(0) {
                    Some((number, _)) => taken.push(number),
                    None if !stepped => break,
                    None => {}
                }
            }
            assert!(example.threads() <= 12, "{about}");
        }
        assert_eq!(taken, PRIMES, "{about}");
        assert_eq!(example.collect(), (11, 0, 1), "{about}");
    });
}

#[test]
fn ackermann() {
    for_seeds(30_400_000, 30, |random, about| {
        let mut example = Example::start("ackermann.txt", about);
        while example.step_any(random) {}
        assert_eq!(example.collect(), (0, 1, 1), "{about}: one thread waits with the value");
        assert_eq!(example.take(0), Some((7, 0)), "{about}");
        while example.step_any(random) {}
        assert_eq!(example.threads(), 0, "{about}");
    });
}
