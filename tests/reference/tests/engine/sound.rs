//! Ground 10: each thing that can be wrong with a state, and things that are not wrong.

use generate::compose::{
    choice, compose, definition, equal_to, go, new, one, receive, send, set, spawn, when, Node, TAU,
};
use generate::{File, Layout, Words, READY, WAITING};
use reference::Fault;

use crate::bench::Bench;

/// One port; slots: the port, two channels of type 2, a number. Thread 0 has made the first channel
/// and stands ready at node 3; thread 1 waits at node 4, where it offers to receive on the channel.
fn file() -> File {
    let nodes = vec![
        one(go(new(1), 1)),
        one(go(set(3, 4), 2)),
        one(spawn(3, 4)),
        choice(&[go(send(1, 0), 5), when(equal_to(3, 9), TAU, 5), go(new(2), 5)]),
        choice(&[go(receive(1, 0), 5), when(equal_to(3, 5), TAU, 6), when(equal_to(3, 6), send(1, 0), 6)]),
        Node::End,
        one(go(send(1, 0), 7)),
        Node::End,
    ];
    compose(&[0, 1], 1, &[definition(1, &[1, 2, 2, 0], nodes)])
}

fn bench() -> Bench {
    let mut bench = Bench::new(&file());
    bench.steps(0, 3);
    bench.steps(1, 1);
    assert_eq!((bench.place(0), bench.place(1)), ((READY, 3), (WAITING, 4)));
    assert_eq!((bench.slots(0), bench.slots(1)), ([0, 1, -1, 4], [0, 1, -1, 4]));
    assert_eq!((bench.channel(0), bench.channel(1)), ([1, 3, 1], [2, 2, 1]));
    bench
}

type Change = fn(&mut Words);

/// The state after the change has this fault, or none; with a fault every call is refused with 10.
fn check(name: &str, change: Change, fault: Option<Fault>) {
    let mut bench = bench();
    let mut words = bench.words();
    change(&mut words);
    bench.state = words.to_bytes();
    assert_eq!(reference::fault(&bench.table, &bench.state), fault, "{name}");
    let ground = if fault.is_some() { 10 } else { 0 };
    assert_eq!(bench.unchanged(|bench| bench.run(0)).refusal, ground, "{name}");
    if fault.is_some() {
        assert_eq!(bench.unchanged(|bench| bench.step(64)).refusal, 10, "{name}");
        assert_eq!(bench.unchanged(|bench| bench.give(7, 0)).refusal, 10, "{name}");
        assert_eq!(bench.unchanged(|bench| bench.take(0)).refusal, 10, "{name}");
        assert_eq!(bench.unchanged(|bench| bench.collect()).refusal, 10, "{name}");
    }
}

fn recount(words: &mut Words) {
    words.recount(&Layout::new(&file()));
}

#[test]
fn marks_and_turn() {
    let changes: [(Change, bool); 8] = [
        (|words| words.front()[0] = 63, true),
        (|words| words.front()[0] = 64, false),
        (|words| words.front()[0] = -1, false),
        (|words| words.front()[1] = 127, true),
        (|words| words.front()[1] = 128, false),
        (|words| words.front()[2] = 63, true),
        (|words| words.front()[2] = 64, false),
        (|words| words.front()[2] = i32::MIN, false),
    ];
    for (number, (change, sound)) in changes.into_iter().enumerate() {
        check(&format!("mark {number}"), change, (!sound).then_some(Fault::Mark));
    }
}

#[test]
fn rows_of_threads() {
    check("status 3", |words| words.thread_mut(0)[0] = 3, Some(Fault::Status));
    check("status -1", |words| words.thread_mut(9)[0] = -1, Some(Fault::Status));
    check("node 8", |words| words.thread_mut(0)[1] = 8, Some(Fault::Node));
    check("node -1", |words| words.thread_mut(0)[1] = -1, Some(Fault::Node));
    check("a free row's node", |words| words.thread_mut(2)[1] = 1, Some(Fault::FreeThread));
    check("a free row's last slot", |words| words.thread_mut(63)[17] = -1, Some(Fault::FreeThread));
    check("the first slot past", |words| words.thread_mut(0)[6] = -1, Some(Fault::PastSlots));
    check("the last slot past", |words| words.thread_mut(1)[17] = 1, Some(Fault::PastSlots));
    check("a number slot", |words| words.thread_mut(0)[5] = i32::MIN, None);
    let freed: Change = |words| {
        words.thread_mut(0).fill(0);
        recount(words);
    };
    check("one thread less", freed, None);
    let none: Change = |words| {
        words.thread_mut(0).fill(0);
        words.thread_mut(1).fill(0);
        recount(words);
    };
    check("no thread", none, None);
}

#[test]
fn channel_slots() {
    check("a free channel", |words| words.thread_mut(0)[4] = 2, Some(Fault::Slot));
    check("128", |words| words.thread_mut(0)[4] = 128, Some(Fault::Slot));
    check("-2", |words| words.thread_mut(0)[4] = -2, Some(Fault::Slot));
    check("of another type", |words| words.thread_mut(0)[4] = 0, Some(Fault::Slot));
    check("the same channel in a second slot", |words| words.thread_mut(0)[4] = 1, None);
    let unfilled: Change = |words| {
        words.thread_mut(0)[3] = -1;
        recount(words);
    };
    check("a written slot without a channel", unfilled, Some(Fault::Unfilled));
    let parameter: Change = |words| {
        words.thread_mut(0)[2] = -1;
        recount(words);
    };
    check("a parameter without a channel", parameter, Some(Fault::Unfilled));
    let filled: Change = |words| {
        words.channel_mut(7)[0] = 2;
        words.thread_mut(1)[4] = 7;
        recount(words);
    };
    check("a slot that need not be written", filled, None);
    let before: Change = |words| {
        (words.thread_mut(0)[1], words.thread_mut(0)[3]) = (0, -1);
        recount(words);
    };
    check("a node before the writing", before, None);
}

#[test]
fn rows_of_channels() {
    check("count above", |words| words.channel_mut(1)[1] = 3, Some(Fault::Count));
    check("count below", |words| words.channel_mut(0)[1] = 2, Some(Fault::Count));
    check("waiting above", |words| words.channel_mut(1)[2] = 2, Some(Fault::WaitingCount));
    check("waiting below", |words| words.channel_mut(0)[2] = 0, Some(Fault::WaitingCount));
    check("the bench as waiting", |words| words.channel_mut(0)[2] = 2, Some(Fault::WaitingCount));
    check("type 3", |words| words.channel_mut(1)[0] = 3, Some(Fault::ChannelType));
    check("type -1", |words| words.channel_mut(5)[0] = -1, Some(Fault::ChannelType));
    check("nobody holds it", |words| words.channel_mut(5)[0] = 1, Some(Fault::Unheld));
    check(
        "nobody, and a count",
        |words| words.channel_mut(127).copy_from_slice(&[1, 1, 0]),
        Some(Fault::Unheld),
    );
    check("a free row's count", |words| words.channel_mut(5)[1] = 1, Some(Fault::FreeChannel));
    check("a free row's second count", |words| words.channel_mut(127)[2] = -1, Some(Fault::FreeChannel));
    check("held and free", |words| words.channel_mut(1)[0] = 0, Some(Fault::Slot));
    check("a port of another type", |words| words.channel_mut(0)[0] = 2, Some(Fault::Port));
    check("a free port", |words| words.channel_mut(0).fill(0), Some(Fault::Port));
}

fn turn(words: &mut Words, thread: usize, status: i32, node: i32) {
    words.thread_mut(thread)[0] = status;
    words.thread_mut(thread)[1] = node;
    recount(words);
}

#[test]
fn waiting_threads() {
    check("at an end", |words| turn(words, 1, WAITING, 5), Some(Fault::WaitsElsewhere));
    check("ready instead", |words| turn(words, 1, READY, 4), None);
    check("a tau with a true guard", |words| words.thread_mut(1)[5] = 5, Some(Fault::GoesAlone));
    check("at a set", |words| turn(words, 1, WAITING, 1), Some(Fault::GoesAlone));
    check("at a spawn", |words| turn(words, 1, WAITING, 2), Some(Fault::GoesAlone));
    check("a send before a new", |words| turn(words, 0, WAITING, 3), Some(Fault::GoesAlone));
    check("both directions of one thread", |words| words.thread_mut(1)[5] = 6, None);
    check("two that meet", |words| turn(words, 0, WAITING, 6), Some(Fault::Meets));
    check("two that do the same", |words| turn(words, 0, WAITING, 4), None);
    let second: Change = |words| {
        words.thread_mut(0)[5] = 6;
        turn(words, 0, WAITING, 4);
    };
    check("a receiver and one with both", second, Some(Fault::Meets));
    let apart: Change = |words| {
        words.channel_mut(9)[0] = 2;
        words.thread_mut(0)[3] = 9;
        turn(words, 0, WAITING, 6);
    };
    check("opposite on two channels", apart, None);
    let third: Change = |words| {
        let row = words.thread(1).to_vec();
        words.thread_mut(63).copy_from_slice(&row);
        words.thread_mut(0).fill(0);
        turn(words, 63, WAITING, 6);
    };
    check("the first and the last thread meet", third, Some(Fault::Meets));
}
