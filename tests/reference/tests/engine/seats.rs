//! Seats and rights: which number of a list says what, and which ground comes when.

use generate::procedures::{ports, spawners};
use generate::{rights_bytes, same_rights, RIGHTS_NUMBERS};
use interface::{Call, FULL_RIGHTS, LACKED_THREAD_ROW, RIGHTS_BYTES, STATE_BYTES};
use reference::{without_seats, ENGINE, TABLE_BYTES};

use crate::bench::Bench;
use crate::refusals::check;

/// The file has the ports 0 and 1, and its two threads wait at both: each would send on the first and receive from
/// the second.
fn bench() -> Bench {
    let mut bench = Bench::new(&ports());
    bench.run(100);
    bench
}

const STEP: Call = Call::Step { thread: 0 };
const RUN: Call = Call::Run { n: 1 };
const GIVE: Call = Call::Give { port: 1, number: 7 };
const TAKE: Call = Call::Take { port: 0 };

/// A list of zeros but for one number.
fn only(place: usize, number: i32) -> Vec<u8> {
    let mut numbers = same_rights(0);
    numbers[place] = number;
    rights_bytes(&numbers)
}

/// What the call comes to by the list and the seat: the ground, or 0. Refused, it changes nothing.
fn ground(bench: &Bench, call: Call, rights: &[u8], seat: u32) -> i32 {
    let mut state = bench.state.clone();
    let answer = ENGINE.answer(call.by(rights, seat), &bench.table, &mut state);
    if answer.refusal() == 0 {
        let mut other = bench.state.clone();
        assert_eq!(answer, without_seats(call, &bench.table, &mut other));
        assert!(state == other, "{call:?}: another state");
    } else {
        check(call.by(rights, seat), &bench.table, &bench.state, answer.refusal());
    }
    answer.refusal()
}

/// The grounds of a take at port 0, a give at port 1, a run and a collection.
fn grounds(bench: &Bench, rights: &[u8], seat: u32) -> [i32; 4] {
    [TAKE, GIVE, RUN, Call::Collect].map(|call| ground(bench, call, rights, seat))
}

#[test]
fn the_numbers_of_a_seat() {
    let bench = bench();
    assert_eq!(grounds(&bench, &only(0, 0), 0), [19, 19, 19, 19]);
    // Seat 0 has the numbers 0 to 8: the ports 0 and 1 are the first two, the bench as a whole is the last.
    assert_eq!(grounds(&bench, &only(0, 1), 0), [0, 19, 19, 19]);
    assert_eq!(grounds(&bench, &only(0, 2), 0), [19, 19, 19, 19]);
    assert_eq!(grounds(&bench, &only(1, 1), 0), [19, 19, 19, 19]);
    assert_eq!(grounds(&bench, &only(1, 2), 0), [19, 0, 19, 19]);
    assert_eq!(grounds(&bench, &only(1, 3), 0), [19, 0, 19, 19]);
    assert_eq!(grounds(&bench, &only(8, 1), 0), [19, 19, 0, 19]);
    assert_eq!(grounds(&bench, &only(8, 2), 0), [19, 19, 19, 0]);
    assert_eq!(grounds(&bench, &only(8, 3), 0), [19, 19, 0, 0]);
    // Seat 7 has 63 to 71.
    assert_eq!(grounds(&bench, &only(63, 3), 7), [0, 19, 19, 19]);
    assert_eq!(grounds(&bench, &only(64, 3), 7), [19, 0, 19, 19]);
    assert_eq!(grounds(&bench, &only(71, 3), 7), [19, 19, 0, 0]);
    assert_eq!(grounds(&bench, &only(62, 3), 7), [19, 19, 19, 19]);
    assert_eq!(grounds(&bench, &only(71, 3), 6), [19, 19, 19, 19]);
}

#[test]
fn there_are_eight_seats() {
    let bench = bench();
    for seat in 0..8 {
        assert_eq!(grounds(&bench, &FULL_RIGHTS, seat), [0; 4]);
    }
    for seat in [8, 9, 255, 256, 1 << 29, 1 << 30, 1 << 31, u32::MAX] {
        assert_eq!(grounds(&bench, &FULL_RIGHTS, seat), [19; 4]);
    }
}

#[test]
fn a_number_outside_0_to_3_is_refused_whoever_it_is_for() {
    let bench = bench();
    for place in 0..RIGHTS_NUMBERS {
        for number in [-1, 4, 256, 1 << 24, i32::MIN, i32::MAX] {
            assert_eq!(grounds(&bench, &only(place, number), 3), [18; 4], "number {place} is {number}");
            assert_eq!(ground(&bench, STEP, &only(place, number), 8), 18);
        }
    }
}

#[test]
fn a_list_of_another_length() {
    let bench = bench();
    for length in [0, 1, 36, RIGHTS_BYTES - 4, RIGHTS_BYTES - 1, RIGHTS_BYTES + 1, RIGHTS_BYTES + 4] {
        for byte in [0, 3, 255] {
            assert_eq!(grounds(&bench, &vec![byte; length], 9), [8; 4], "{length} bytes");
        }
    }
}

#[test]
fn a_start_names_no_seat() {
    let bench = Bench::new(&ports());
    for rights in [&[][..], &[255; RIGHTS_BYTES], &only(0, 0)] {
        let mut state = vec![0x5a; STATE_BYTES];
        let started = ENGINE.answer(Call::Start.by(rights, u32::MAX), &bench.table, &mut state);
        assert_eq!(started.refusal(), 0);
        assert!(state == bench.state);
    }
}

/// Without the right a port is as good as another, and with it the file says which there are.
#[test]
fn ports_that_there_are_not() {
    let bench = bench();
    for port in 2..8 {
        let calls = [(Call::Take { port }, 1), (Call::Give { port, number: 1 }, 2)];
        for (call, right) in calls {
            assert_eq!(ground(&bench, call, &only(5 * 9 + port as usize, right), 5), 12);
            assert_eq!(ground(&bench, call, &only(5 * 9 + port as usize, 3 - right), 5), 19);
        }
    }
    for port in [8, 9, 17, u32::MAX] {
        for call in [Call::Take { port }, Call::Give { port, number: 1 }] {
            assert_eq!(ground(&bench, call, &FULL_RIGHTS, 0), 19);
        }
    }
}

/// 8, 9, 18, 19, 10, and then the call's own grounds.
#[test]
fn rights_come_behind_the_table_and_before_the_state() {
    let bench = bench();
    let no_table = vec![7; TABLE_BYTES];
    let no_state = vec![7; STATE_BYTES];
    let (none, wrong) = (rights_bytes(&same_rights(0)), rights_bytes(&same_rights(4)));
    for call in [Call::Step { thread: 99 }, Call::Give { port: 7, number: 1 }, TAKE, RUN, Call::Collect] {
        check(call.by(&wrong[4..], 8), &no_table, &no_state, 8);
        check(call.by(&wrong, 8), &no_table, &no_state, 9);
        check(call.by(&wrong, 8), &bench.table, &no_state, 18);
        check(call.by(&none, 0), &bench.table, &no_state, 19);
        check(call.by(&none, 0), &bench.table, &bench.state, 19);
        check(call.by(&FULL_RIGHTS, 8), &bench.table, &no_state, 19);
        check(call.by(&FULL_RIGHTS, 7), &bench.table, &no_state, 10);
    }
    assert_eq!(ground(&bench, Call::Step { thread: 99 }, &FULL_RIGHTS, 7), 11);
}

/// The seat is not told that a row is lacking either.
#[test]
fn rights_come_before_the_rows() {
    let mut bench = Bench::new(&spawners());
    assert_eq!(bench.run(60_000).reason, LACKED_THREAD_ROW);
    assert_eq!(ground(&bench, STEP, &only(8, 1), 0), 13);
    assert_eq!(ground(&bench, STEP, &only(8, 2), 0), 19);
}
