//! The safe layer of the crate `pithread` says in types what the archive says in numbers, and does the same.

use differential::{for_seeds, Traffic};
use generate::{any_call, any_caller, profiled, table_of, LIVELY, STILL};
use interface::{
    Answer, Call, Collected, Given, Profiled, Ran, Seated, Stepped, Taken, ALL_STEPS, BRANCH, BUFFER_LENGTH,
    CALLED, ENDED, LACKED_CHANNEL_ROW, LACKED_THREAD_ROW, NOBODY, NONE_READY, RIGHTS, SEAT, STATE_BYTES,
    WAITS,
};
use pithread::{Act, AtSeat, Bench, Reason, Refusal, Rights, Seat, Table};

const CALLS: usize = 150;

fn thread_number(thread: Option<u32>) -> i32 {
    thread.map_or(NOBODY, |thread| thread as i32)
}

fn stepped_numbers(stepped: pithread::Stepped) -> Stepped {
    let (act, branch, partner) = match stepped.act {
        Act::Ended => (ENDED, 0, NOBODY),
        Act::Called => (CALLED, 0, NOBODY),
        Act::Waits => (WAITS, 0, NOBODY),
        Act::Branch { branch, partner } => (BRANCH, branch as i32, thread_number(partner)),
    };
    Stepped { refusal: 0, node: stepped.node as i32, act, branch, partner }
}

fn ran_numbers(ran: pithread::Ran) -> Ran {
    let (reason, thread) = match ran.reason {
        Reason::AllSteps => (ALL_STEPS, None),
        Reason::NoneReady => (NONE_READY, None),
        Reason::LackedThreadRow { thread } => (LACKED_THREAD_ROW, Some(thread)),
        Reason::LackedChannelRow { thread } => (LACKED_CHANNEL_ROW, Some(thread)),
    };
    Ran { refusal: 0, steps: ran.steps as i32, reason, thread: thread_number(thread) }
}

fn taken_numbers(taken: Option<pithread::Taken>) -> Taken {
    let (thread, number) = taken.map_or((None, 0), |taken| (Some(taken.thread), taken.number));
    Taken { refusal: 0, thread: thread_number(thread), number }
}

fn profiled_numbers(table: &Table) -> Profiled {
    match table.profile() {
        Ok(threads) => Profiled { refusal: 0, threads: threads as i32 },
        Err(refusal) => Profiled { refusal: refusal.number(), threads: 0 },
    }
}

/// Makes a call on a bench and writes its answer as numbers. A list that is wrong, or a seat that is not there, is
/// refused before the bench can be lent.
fn answer(bench: &mut Bench, seated: Seated) -> Answer {
    if seated.call == Call::Start {
        *bench = Bench::start(bench.table().clone()).expect("never refused");
        return Answer::Started(Default::default());
    }
    let caller = Rights::from_bytes(seated.rights)
        .and_then(|rights| Seat::new(seated.seat).map(|seat| (rights, seat)));
    let answered = caller.and_then(|(rights, seat)| answer_at(bench.at(&rights, seat), seated.call));
    answered.unwrap_or_else(|refusal| refused(seated.call, refusal))
}

fn answer_at(mut bench: AtSeat, call: Call) -> Result<Answer, Refusal> {
    match call {
        Call::Start => panic!("a start names no seat"),
        Call::Step { thread } => bench.step(thread).map(stepped_numbers).map(Answer::Stepped),
        Call::Give { port, number } => {
            let given = bench.give(port, number).map(thread_number);
            given.map(|thread| Answer::Given(Given { refusal: 0, thread }))
        }
        Call::Take { port } => bench.take(port).map(taken_numbers).map(Answer::Taken),
        Call::Run { n } => bench.run(n).map(ran_numbers).map(Answer::Ran),
        Call::Collect => {
            let collected = bench.collect();
            collected.map(|threads| Answer::Collected(Collected { refusal: 0, threads: threads as i32 }))
        }
    }
}

fn refused(call: Call, refusal: Refusal) -> Answer {
    let refusal = refusal.number();
    match call {
        Call::Start => panic!("a start is never refused, and was with {refusal}"),
        Call::Step { .. } => Answer::Stepped(Stepped { refusal, ..Stepped::default() }),
        Call::Give { .. } => Answer::Given(Given { refusal, ..Given::default() }),
        Call::Take { .. } => Answer::Taken(Taken { refusal, ..Taken::default() }),
        Call::Run { .. } => Answer::Ran(Ran { refusal, ..Ran::default() }),
        Call::Collect => Answer::Collected(Collected { refusal, ..Collected::default() }),
    }
}

#[test]
fn the_safe_layer_does_what_the_archive_does() {
    let mut traffic = Traffic::default();
    for (place, profile) in LIVELY.iter().chain(&STILL).enumerate() {
        for_seeds(30_000_000 + 100_000 * place as u64, 10, |random, about| {
            let file = profiled(random, profile);
            let (table, mut state) = (table_of(&file.rows), vec![0x5a; STATE_BYTES]);
            let loaded = Table::load(&file.text()).expect("the file is right");
            assert!(loaded.as_bytes()[..] == table[..], "{about}");
            assert_eq!(profiled_numbers(&loaded), archive::profile(&table), "{about}");
            let mut bench = Bench::start(loaded).expect("never refused");
            archive::ENGINE.answer(Call::Start, &table, &mut state);
            for _ in 0..CALLS {
                let call = any_call(random, &state, file.size.ports);
                let caller = any_caller(random, call);
                let expected = archive::ENGINE.answer(caller.makes(call), &table, &mut state);
                assert_eq!(answer(&mut bench, caller.makes(call)), expected, "{about}: {call:?}");
                assert!(bench.state().as_bytes()[..] == state[..], "{about}: {call:?} left another state");
                let kept = Bench::resume(bench.table().clone(), &state);
                assert!(kept == Ok(bench.clone()), "{about}: not to be resumed after {call:?}");
                traffic.add(caller.makes(call), &expected);
                traffic.note("refused", i32::from(expected.refusal() != 0));
            }
        });
    }
    traffic.print();
    traffic.expect("refused", [0], 10_000);
    traffic.expect("refused", [1], 1_000);
    for name in ["step", "give", "take", "run", "collect"] {
        traffic.expect(name, [BUFFER_LENGTH, RIGHTS, SEAT], 5);
    }
}
