//! Whole lists of calls, worked by the proved driver, against the reference.

use differential::{for_seeds, List, Lists, Traffic, WorkedFiles};
use generate::{
    any_call, any_caller, changed_state, damaged, damaged_table, profiled, table_of, Layout, Random, LIVELY,
    STILL, TABLE_BYTES,
};
use interface::{Call, RIGHTS, SEAT, STATE_BYTES};

/// Files of each profile, and the most calls of a list.
const FILES: u64 = 60;
const CALLS: usize = 120;

/// Some call, but no start. A state of a wrong length has no thread that a call could be chosen by.
fn any_listed(random: &mut Random, state: &[u8], ports: usize) -> Call {
    let empty = [0; STATE_BYTES];
    let state = if state.len() == STATE_BYTES { state } else { &empty };
    match any_call(random, state, ports) {
        Call::Start => Call::Collect,
        call => call,
    }
}

/// The state that a start leaves.
fn started(table: &[u8]) -> Vec<u8> {
    let mut state = vec![0x5a; STATE_BYTES];
    reference::ENGINE.answer(Call::Start, table, &mut state);
    state
}

/// A list of calls from this state, each of them chosen by the state to which the ones before have led, and each
/// by a seat and a list of rights of its own.
fn any_list(random: &mut Random, ports: usize, table: &[u8], state: &[u8], traffic: &mut Traffic) -> List {
    let mut list = List::new(state);
    for _ in 0..random.below(CALLS) {
        let call = any_listed(random, list.state(), ports);
        let caller = any_caller(random, call);
        let answer = list.push(random, caller.makes(call), table);
        traffic.add(caller.makes(call), &answer);
    }
    list
}

#[test]
fn lists_from_a_start() {
    let mut lists = Lists::new(driver::work_list);
    let mut traffic = Traffic::default();
    for (place, profile) in LIVELY.iter().chain(&STILL).enumerate() {
        for_seeds(17_000_000 + 100_000 * place as u64, FILES, |random, about| {
            let file = profiled(random, profile);
            let table = table_of(&file.rows);
            let state = started(&table);
            let ports = Layout::new(&file).ports();
            let list = any_list(random, ports, &table, &state, &mut traffic);
            let about = format!("{about}, {}", profile.name);
            lists.compare(&list, &table, &state, list.answer_bytes(), &about);
        });
    }
    traffic.print();
    for name in ["step", "give", "take", "run", "collect"] {
        traffic.expect(name, [0], 300);
    }
    traffic.expect("step", [11, 13], 50);
    traffic.expect("give", [12], 50);
    traffic.expect("take", [12], 50);
    for name in ["step", "give", "take", "run", "collect"] {
        traffic.expect(name, [8, RIGHTS, SEAT], 20);
    }
    traffic.expect("given to somebody", [0, 1], 100);
    traffic.expect("taken from somebody", [0, 1], 100);
}

/// Files, right ones and damaged ones, that the driver loads and starts before it works the list, in buffers of
/// the right lengths and of others.
#[test]
fn files_loaded_started_and_worked() {
    let mut works = WorkedFiles::new(driver::work_file);
    let mut traffic = Traffic::default();
    for_seeds(44_000_000, 900, |random, about| {
        let profile = random.pick(&LIVELY.each_ref());
        let file = profiled(random, profile);
        let text = if random.chance(60) { file.text() } else { damaged(random, &file) };
        let list = match reference::load(&text) {
            Ok(loaded) => {
                let table = loaded.to_bytes();
                any_list(random, Layout::new(&file).ports(), &table, &started(&table), &mut traffic)
            }
            Err(_) => List::new(&[]),
        };
        let mut lengths = [TABLE_BYTES, STATE_BYTES, random.below(list.answer_bytes() + 50)];
        if random.chance(20) {
            let place = random.below(2);
            lengths[place] = random.below(lengths[place] + 2);
        }
        let (refusal, line) = works.compare(&text, &list, lengths, about);
        traffic.note("file worked", refusal);
        traffic.note("line named", i32::from(line > 1));
    });
    traffic.print();
    traffic.expect("file worked", [0], 200);
    traffic.expect("file worked", [8], 50);
    traffic.expect("file worked", [2, 3, 4, 5, 6, 7], 2);
    traffic.expect("line named", [1], 100);
}

/// Buffers of any length, tables and states with a fault, a rest behind the last call.
#[test]
fn buffers_of_any_kind() {
    let mut lists = Lists::new(driver::work_list);
    let mut traffic = Traffic::default();
    for_seeds(18_000_000, 400, |random, about| {
        let profile = random.pick(&LIVELY.each_ref());
        let file = profiled(random, profile);
        let (mut table, layout) = (table_of(&file.rows), Layout::new(&file));
        let mut state = started(&table);
        match random.below(5) {
            0 => state = changed_state(random, &layout, &state),
            1 => table = damaged_table(random, &file),
            2 => state.truncate(random.below(STATE_BYTES)),
            3 => table.push(0),
            _ => {}
        }
        let mut list = any_list(random, layout.ports(), &table, &state, &mut traffic);
        for _ in 0..random.below(4) {
            let call = any_listed(random, list.state(), layout.ports());
            let answer = list.push_past_end(random, call, &table);
            traffic.note("list past the end", answer.refusal());
        }
        list.push_rest(random);
        let most = list.answer_bytes() + 50;
        lists.compare(&list, &table, &state, random.below(most), about);
    });
    traffic.print();
    for name in ["step", "run"] {
        traffic.expect(name, [0, 8, 9, 10], 100);
        traffic.expect(name, [RIGHTS, SEAT], 50);
    }
    traffic.expect("list past the end", [0, 8], 20);
}
