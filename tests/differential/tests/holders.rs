//! Who holds which channel, where threads have channels in many slots, some of them several times. What is expected is
//! counted here, from the sets of holders: true counts pass the test of a sound state, one that is off by one does not,
//! and calls leave true counts.

use std::collections::BTreeSet;

use differential::Calls;
use generate::standstills::clique;
use generate::{table_of, Random, Words, FREE, READY, WAITING};
use interface::{Call, CHANNELS, FULL_RIGHTS, NONE_READY, STATE, STATE_BYTES, THREADS};

/// In a clique every thread has so many slots for channels, and so many channels are in use; channel 0 is a port.
const SLOTS: usize = 15;
const STATES: u64 = 400;

/// Status, node, and then the slots.
const FIRST_SLOT: usize = 2;

/// The table of a clique, and the state in which all of its threads wait.
fn standstill() -> (Vec<u8>, Words) {
    let table = table_of(&clique(0).rows);
    let mut state = vec![0; STATE_BYTES];
    assert_eq!(reference::start(&table, &mut state).refusal, 0);
    assert_eq!(reference::run(&table, &mut state, &FULL_RIGHTS, 0, u16::MAX).reason, NONE_READY);
    (table, Words::new(&state))
}

/// The holders of a channel, and the waiting ones.
fn holders(words: &Words, channel: usize) -> (BTreeSet<usize>, BTreeSet<usize>) {
    let holds = |thread: &usize| {
        let row = words.thread(*thread);
        row[0] != FREE && row[FIRST_SLOT..FIRST_SLOT + SLOTS].contains(&(channel as i32))
    };
    let all: BTreeSet<usize> = (0..THREADS).filter(holds).collect();
    let waiting = all.iter().copied().filter(|thread| words.thread(*thread)[0] == WAITING).collect();
    (all, waiting)
}

/// What a channel's row has to be. The bench holds the port.
fn due(words: &Words, channel: usize) -> [i32; 3] {
    let (all, waiting) = holders(words, channel);
    let count = all.len() as i32 + i32::from(channel == 0);
    if count == 0 {
        return [0; 3];
    }
    [1, count, waiting.len() as i32]
}

/// Threads wait, are ready or are gone, and each has a few of the channels in its slots, in any order and with repeats.
fn mixed(random: &mut Random, words: &mut Words) {
    let few = 1 + random.below(SLOTS);
    for thread in 0..THREADS {
        if random.chance(10) {
            words.thread_mut(thread).fill(0);
            continue;
        }
        let own: Vec<i32> = (0..=random.below(few)).map(|_| random.below(SLOTS) as i32).collect();
        let row = words.thread_mut(thread);
        row[0] = if random.chance(60) { WAITING } else { READY };
        row[FIRST_SLOT..FIRST_SLOT + SLOTS].fill_with(|| random.pick(&own));
    }
    for channel in 0..CHANNELS {
        let row = due(words, channel);
        words.channel_mut(channel).copy_from_slice(&row);
    }
}

fn for_mixed(mut test: impl FnMut(&mut Random, &mut Calls, &[u8], &Words, &str)) {
    let (table, standstill) = standstill();
    let mut calls = Calls::new(archive::ENGINE);
    for seed in 1..=STATES {
        let mut random = Random::new(seed);
        let mut words = standstill.clone();
        mixed(&mut random, &mut words);
        test(&mut random, &mut calls, &table, &words, &format!("seed {seed}"));
    }
}

#[test]
fn true_counts_pass_and_others_do_not() {
    for_mixed(|random, calls, table, words, about| {
        let none = Call::Run { n: 0 };
        let state = words.to_bytes();
        assert_eq!(calls.compare(none, table, &state, about).refusal(), 0, "{about}");
        assert_eq!(calls.state(), state, "{about}: a run of no steps leaves the counts");
        for channel in (0..SLOTS).chain([SLOTS + random.below(CHANNELS - SLOTS)]) {
            for (word, by) in [(1, 1), (1, -1), (2, 1), (2, -1)] {
                let mut off = words.clone();
                off.channel_mut(channel)[word] += by;
                let about = format!("{about}, channel {channel}, word {word}, off by {by}");
                assert_eq!(calls.compare(none, table, &off.to_bytes(), &about).refusal(), STATE, "{about}");
            }
        }
    });
}

#[test]
fn calls_leave_true_counts() {
    for_mixed(|random, calls, table, words, about| {
        let mut state = words.to_bytes();
        for _ in 0..20 {
            let call = match random.below(4) {
                0 => Call::Give { port: 0, number: 7 },
                1 => Call::Run { n: random.below(3) as u16 },
                _ => Call::Step { thread: random.below(THREADS) as u32 },
            };
            calls.compare(call, table, &state, about);
            state.copy_from_slice(calls.state());
            let after = Words::new(&state);
            for channel in 0..CHANNELS {
                assert_eq!(
                    after.channel(channel),
                    due(&after, channel),
                    "{about}, {call:?}, channel {channel}"
                );
            }
        }
    });
}
