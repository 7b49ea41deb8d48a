//! The archive's calls against the reference, on very many states.

use differential::{for_seeds, Calls, Sequence, Traffic};
use generate::standstills::{self, any_group, chain, clique, ring_beside_port, Foot};
use generate::{
    any_valid, cases, padded, procedures, profiled, table_of, File, Layout, Profile, Random, Words, FREE,
    LIVELY, READY, SMALLEST, STILL,
};
use interface::{
    Call, BRANCH, ENDED, LACKED_CHANNEL_ROW, NO_CHANNEL_ROW, NO_THREAD_ROW, RIGHTS, SEAT, SEATS, STATE,
    STATE_BYTES, WAITS,
};
use reference::Fault;

/// Files of each profile, and calls on each file.
const FILES: u64 = 300;
const CALLS: usize = 180;

/// The actions of a branch.
const EVERY_ACTION: [i32; 8] = [0, 1, 2, 3, 4, 5, 6, 7];
const SEND_AND_RECEIVE: [i32; 2] = [1, 2];

/// Calls on files of each of these profiles, or on random groups of threads where there is none; the first
/// call on each is a run.
fn played(first: u64, profiles: &[Option<&Profile>]) -> Traffic {
    let mut calls = Calls::new(archive::ENGINE);
    let mut traffic = Traffic::default();
    for (place, profile) in profiles.iter().enumerate() {
        for_seeds(first + 100_000 * place as u64, FILES, |random, about| {
            let (name, file) = match profile {
                Some(profile) => (profile.name, profiled(random, profile)),
                None => ("group", any_group(random)),
            };
            let about = format!("{about}, {name}");
            let mut sequence = Sequence::new(&mut calls, &mut traffic, &file, &about);
            sequence.call(Call::Run { n: random.pick(&[0, 30, 200, 2_000]) });
            sequence.play(random, CALLS);
        });
    }
    traffic.print();
    traffic
}

#[test]
fn lively_files() {
    let traffic = played(10_000_000, &LIVELY.each_ref().map(Some));
    assert!(traffic.calls() >= 300_000);
    expect_refusals(&traffic);
    expect_seats(&traffic);
    expect_moves(&traffic);
    expect_faults(&traffic);
    expect_collections(&traffic);
    traffic.expect("threads taken, at least", [8], 200);
    traffic.expect("threads in rows of taken ones, at least", [1, 2, 8], 130);
    traffic.expect("channels in rows of freed ones, at least", [1, 2], 50);
}

/// Each call came to each ground that it has.
fn expect_refusals(traffic: &Traffic) {
    traffic.expect("start", [0, 8, 9], 50);
    for name in ["step", "give", "take", "run"] {
        traffic.expect(name, [0, 8, 9, 10], 500);
    }
    traffic.expect("collect", [8, 9, 10], 140);
    traffic.expect("step", [11], 3_000);
    traffic.expect("give", [12], 1_000);
    traffic.expect("take", [12], 1_000);
    traffic.expect("step", [NO_THREAD_ROW], 1_000);
    traffic.expect("step", [NO_CHANNEL_ROW], 50);
}

/// Every seat made many calls, and each ground of the lists and seats came to each call.
fn expect_seats(traffic: &Traffic) {
    traffic.expect("done by seat", 0..SEATS as i32, 10_000);
    for name in ["step", "give", "take", "run"] {
        traffic.expect(name, [RIGHTS, SEAT], 1_000);
    }
    traffic.expect("collect", [RIGHTS, SEAT], 200);
    traffic.expect("19 for a seat above 7", [0, 1], 3_000);
    traffic.expect("19 for a port above 7", [0, 1], 2_000);
}

/// Each act, each action and each reason came.
fn expect_moves(traffic: &Traffic) {
    traffic.expect("act", ENDED..=BRANCH, 300);
    traffic.expect("action", EVERY_ACTION, 500);
    traffic.expect("action", SEND_AND_RECEIVE, 1_000);
    traffic.expect("exchange of a channel", [0, 1], 500);
    traffic.expect("exchange with a thread above", [0, 1], 1_000);
    traffic.expect("another like the partner", [1], 150);
    traffic.expect("guard", 0..=4, 50);
    traffic.expect("branch", 0..=7, 5);
    traffic.expect("sum passed over for a branch", [1], 20);
    traffic.expect("sum passed over for a wait", [1], 20);
    traffic.expect("call of itself", [0, 1], 2_000);
    traffic.expect("call that swaps", [1], 2_000);
    traffic.expect("given to somebody", [0, 1], 1_000);
    traffic.expect("taken from somebody", [0, 1], 1_000);
    traffic.expect("reason", 0..LACKED_CHANNEL_ROW, 1_000);
    traffic.expect("reason", [LACKED_CHANNEL_ROW], 50);
    traffic.expect("run of hundreds of steps", [1], 1_000);
    traffic.expect("run of 0 steps, reason", [0], 1_000);
}

/// Collections took one thread, several or nobody, with and without others that wait, and the calls went on
/// after them.
fn expect_collections(traffic: &Traffic) {
    traffic.expect("collect", [0], 7_000);
    traffic.expect("threads taken, at least", [0], 5_000);
    traffic.expect("threads taken, at least", [1, 2], 500);
    traffic.expect("nobody taken, some left waiting", [0, 1], 2_500);
    traffic.expect("some taken, some left waiting", [0, 1], 700);
    traffic.expect("some taken, a channel freed", [0, 1], 300);
    for name in ["step after a taking", "run after a taking"] {
        traffic.expect(name, [1], 4_500);
    }
    for name in ["give after a taking", "take after a taking"] {
        traffic.expect(name, [0, 1], 400);
    }
    traffic.expect("collect after a taking", [0, 1], 280);
}

/// Each thing that can be wrong with a state came, and changes that left it sound.
fn expect_faults(traffic: &Traffic) {
    traffic.expect("changed state is sound", [0, 1], 10_000);
    traffic.expect("fault", Fault::Mark as i32..Fault::Meets as i32, 500);
    traffic.expect("fault", [Fault::Meets as i32], 150);
}

#[test]
fn still_files() {
    let profiles = [&STILL.each_ref().map(Some)[..], &[None; 2]].concat();
    let traffic = played(15_000_000, &profiles);
    assert!(traffic.calls() >= 300_000);
    traffic.expect("collect", [8, 9, 10], 180);
    expect_seats(&traffic);
    expect_faults(&traffic);
    expect_collections(&traffic);
}

#[test]
fn files_of_any_size() {
    let mut calls = Calls::new(archive::ENGINE);
    let mut traffic = Traffic::default();
    for_seeds(11_000_000, 1_000, |random, about| {
        let file = any_valid(random);
        Sequence::new(&mut calls, &mut traffic, &file, about).play(random, 20);
    });
    assert!(traffic.calls() >= 20_000);
    traffic.expect("act", ENDED..=BRANCH, 100);
}

/// The files written by hand, with their names.
fn hand_made() -> Vec<(&'static str, File)> {
    let mut files = vec![
        ("listing", File::new(cases::LISTING.map(padded).to_vec())),
        ("pair", File::new(cases::PAIR.map(padded).to_vec())),
        ("ping-pong", procedures::ping_pong()),
        ("crowd", procedures::crowd(60)),
        ("crowd of 64", procedures::crowd(64)),
        ("both ways", procedures::both_ways()),
        ("reckoner", procedures::reckoner()),
        ("creators", procedures::creators()),
        ("spawners", procedures::spawners()),
        ("ports", procedures::ports()),
        ("selecting", procedures::selecting()),
        ("64 in a chain to a port", chain(64, Foot::Port)),
        ("64 in a chain to a ready thread", chain(64, Foot::Ready)),
        ("64 in a chain to a lone thread", chain(64, Foot::Lone)),
        ("64 in a ring", chain(64, Foot::First)),
        ("64 in a clique", clique(1)),
        ("64 in a clique at a port", clique(0)),
    ];
    files.extend(standstills::all());
    files.push(("rally", procedures::rally()));
    files.push(("smallest", File::new(SMALLEST.map(padded).to_vec())));
    files
}

/// Calls from far within long runs.
#[test]
fn files_written_by_hand() {
    let mut calls = Calls::new(archive::ENGINE);
    let mut traffic = Traffic::default();
    for (place, (name, file)) in hand_made().iter().enumerate() {
        for_seeds(12_000_000 + 1_000 * place as u64, 20, |random, about| {
            let about = format!("{about}, {name}");
            let mut sequence = Sequence::new(&mut calls, &mut traffic, file, &about);
            for _ in 0..random.below(20) {
                sequence.call(Call::Run { n: random.below(4_000) as u16 });
            }
            if random.below(3) == 0 {
                sequence.call(Call::Collect);
            }
            sequence.play(random, 100);
        });
    }
    traffic.print();
    traffic.expect("step", [NO_CHANNEL_ROW], 100);
    traffic.expect("reason", [LACKED_CHANNEL_ROW], 100);
    traffic.expect("another like the partner", [1], 50);
    traffic.expect("threads taken, at least", [1, 2, 8], 40);
    traffic.expect("threads taken, at least", [64], 8);
    traffic.expect("threads in rows of taken ones, at least", [1, 2, 8], 40);
    traffic.expect("channels in rows of freed ones, at least", [1, 2, 8], 12);
}

/// The state of a file after so many steps.
fn state_after(calls: &mut Calls, table: &[u8], n: u16) -> Vec<u8> {
    calls.compare(Call::Start, table, &[3; STATE_BYTES], "start");
    let state = calls.state().to_vec();
    calls.compare(Call::Run { n }, table, &state, "run");
    calls.state().to_vec()
}

/// Every word of some states, set to each of many numbers.
#[test]
fn each_word_of_a_state() {
    let mut calls = Calls::new(archive::ENGINE);
    let mut traffic = Traffic::default();
    let bases = [
        (procedures::crowd(4), 40),
        (procedures::ports(), 9),
        (procedures::creators(), 50),
        (ring_beside_port(), 200),
    ];
    for (file, steps) in bases {
        let table = table_of(&file.rows);
        let mut state = state_after(&mut calls, &table, steps);
        for place in 0..STATE_BYTES / 4 {
            let kept: [u8; 4] = state[4 * place..4 * place + 4].try_into().expect("a word");
            let old = i32::from_le_bytes(kept);
            for number in [old - 1, old + 1, -1, 0, 1, 2, 3, 63, 64, 127, 128, old ^ 1 << 8, i32::MIN] {
                state[4 * place..4 * place + 4].copy_from_slice(&number.to_le_bytes());
                let about = format!("word {place} is {number}");
                for call in [Call::Run { n: 3 }, Call::Collect] {
                    calls.count(&mut traffic, call, &table, &state, &about);
                }
            }
            state[4 * place..4 * place + 4].copy_from_slice(&kept);
        }
    }
    traffic.print();
    for name in ["run", "collect"] {
        traffic.expect(name, [10], 50_000);
        traffic.expect(name, [0], 4_000);
    }
    traffic.expect("threads taken, at least", [0, 2], 1_000);
}

/// Two waiting threads and a ready one at a choice of eight branches, each with any one of the
/// branches open or none: who can meet whom at which place, who is taken, and what is no sound state.
#[test]
fn every_place_of_a_choice() {
    const CLOSED: i32 = 100;
    let mut calls = Calls::new(archive::ENGINE);
    let mut traffic = Traffic::default();
    for places in 0..8 {
        let file = procedures::wide(places);
        let (table, layout) = (table_of(&file.rows), Layout::new(&file));
        let waiting = Words::new(&state_after(&mut calls, &table, 20));
        for number in 0..9 * 9 * 9 {
            let open = [number / 81, number / 9 % 9, number % 9];
            let mut words = waiting.clone();
            for (thread, open) in open.into_iter().enumerate() {
                words.thread_mut(thread)[4] = if open < 8 { open } else { CLOSED };
            }
            words.thread_mut(1)[0] = READY;
            words.recount(&layout);
            let about = format!("{places} places on, open: {open:?}");
            for call in [Call::Step { thread: 1 }, Call::Collect] {
                calls.count(&mut traffic, call, &table, &words.to_bytes(), &about);
            }
        }
    }
    traffic.print();
    for name in ["step", "collect"] {
        traffic.expect(name, [0], 1_000);
        traffic.expect(name, [10], 3_000);
    }
    traffic.expect("act", [WAITS, BRANCH], 300);
    traffic.expect("threads taken, at least", [0, 1], 400);
    traffic.expect("threads taken, at least", [2], 50);
}

/// States that are no states at all.
#[test]
fn hostile_states() {
    let mut calls = Calls::new(archive::ENGINE);
    let mut random = Random::new(13_000_000);
    for (name, file) in hand_made() {
        let table = table_of(&file.rows);
        for byte in [0, 1, 2, 127, 128, 255] {
            for call in [Call::Run { n: 9 }, Call::Collect] {
                calls.compare(call, &table, &[byte; STATE_BYTES], name);
            }
        }
        for round in 0..200 {
            let few = random.pick(&[3, 64, 256]);
            let state: Vec<u8> = (0..STATE_BYTES).map(|_| random.below(few) as u8).collect();
            let about = format!("{name}, random bytes, round {round}");
            for call in [Call::Step { thread: 0 }, Call::Collect] {
                assert_eq!(calls.compare(call, &table, &state, &about).refusal(), STATE);
            }
        }
    }
}

/// The state of one file under the table of another.
#[test]
fn states_of_other_files() {
    let mut calls = Calls::new(archive::ENGINE);
    let mut traffic = Traffic::default();
    let profiles: Vec<&Profile> = LIVELY.iter().chain(&STILL).collect();
    for_seeds(14_000_000, 2_000, |random, about| {
        let [first, second] = [(); 2].map(|_| {
            let profile = random.pick(&profiles);
            table_of(&profiled(random, profile).rows)
        });
        let state = state_after(&mut calls, &first, random.below(60) as u16);
        if Words::new(&state).threads(FREE).len() < 64 {
            for call in [Call::Run { n: 2 }, Call::Collect] {
                calls.count(&mut traffic, call, &second, &state, about);
            }
        }
    });
    traffic.print();
    for name in ["run", "collect"] {
        traffic.expect(name, [10], 1_200);
    }
}
