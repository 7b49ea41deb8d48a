//! States in which calls are timed and counted.

use generate::procedures::reckoner;
use generate::standstills::{chain, clique, Foot};
use generate::{profiled, table_of, File, Random, Words, FREE, LIVELY, MOST_LINES, READY};
use interface::{FULL_RIGHTS, NONE_READY, STATE_BYTES, THREADS};

/// A table and a state.
pub struct Standing {
    pub table: Vec<u8>,
    pub state: Vec<u8>,
}

impl Standing {
    /// The state of a file after so many steps.
    pub fn after(file: &File, steps: u16) -> Standing {
        let table = table_of(&file.rows);
        let mut state = vec![0; STATE_BYTES];
        assert_eq!(reference::start(&table, &mut state).refusal, 0);
        assert_eq!(reference::run(&table, &mut state, &FULL_RIGHTS, 0, steps).refusal, 0);
        Standing { table, state }
    }

    /// The state in which all 64 threads of a file have come to wait, so many steps before the last.
    pub fn before_end(file: &File, steps: u16) -> Standing {
        let mut whole = Standing::after(file, 0);
        let ran = reference::run(&whole.table, &mut whole.state, &FULL_RIGHTS, 0, u16::MAX);
        assert_eq!(ran.reason, NONE_READY);
        assert_eq!(Words::new(&whole.state).threads(generate::WAITING).len(), THREADS);
        Standing::after(file, ran.steps as u16 - steps)
    }

    /// A thread that can be stepped, if there is one.
    pub fn steppable(&self) -> Option<u32> {
        let can_step = |thread: &u32| {
            reference::step(&self.table, &mut self.state.clone(), &FULL_RIGHTS, 0, *thread).refusal == 0
        };
        Words::new(&self.state).threads(READY).iter().map(|thread| *thread as u32).find(can_step)
    }
}

/// One thread, which is always ready, and a small table.
pub fn alone() -> Standing {
    Standing::after(&reckoner(), 100)
}

/// The first of the largest files in which threads are still ready after some thousand steps.
pub fn largest() -> Standing {
    let profile = LIVELY.iter().find(|profile| profile.name == "largest").expect("there is one");
    (1..)
        .find_map(|seed| {
            let file = profiled(&mut Random::new(seed), profile);
            assert_eq!(file.rows.len(), MOST_LINES);
            let standing = Standing::after(&file, 3_000);
            let free = Words::new(&standing.state).threads(FREE).len();
            (standing.steppable().is_some() && free < 24).then_some(standing)
        })
        .expect("seeds do not end")
}

/// 64 threads that wait in a chain, each with two channels; so many steps before the last begins to wait.
pub fn chained(foot: Foot, steps: u16) -> Standing {
    Standing::before_end(&chain(64, foot), steps)
}

/// 64 threads that wait in a clique, each with fifteen channels; so many steps before the last begins to wait.
pub fn mutual(of_the_last: i16, steps: u16) -> Standing {
    Standing::before_end(&clique(of_the_last), steps)
}
