//! Collections: who is taken, who is left, and what becomes of the channels.

use generate::compose::{
    call, choice, compose, definition, equal_to, go, new, one, receive, send, spawn, when, Node,
};
use generate::procedures::{crowd, ping_pong, spawners};
use generate::standstills::{
    all_closed, chain, clique, group, idle_knowledge, lone_receiver, member, port_waiter, receiver,
    ring_beside_port, through_a_waiter, two_apart, with_itself, Foot,
};
use generate::{File, Layout, FREE, READY, WAITING};
use interface::{Collected, LACKED_THREAD_ROW, NONE_READY};

use crate::bench::Bench;
use crate::listing::listing;

/// The bench after a run at the end of which all threads wait.
fn still(file: &File) -> Bench {
    let mut bench = Bench::new(file);
    assert_eq!(bench.run(10_000).reason, NONE_READY);
    bench
}

/// A collection takes nobody and leaves every byte.
fn takes_nobody(bench: &mut Bench) {
    assert_eq!(bench.unchanged(Bench::collect), Collected { refusal: 0, threads: 0 });
}

fn no_thread_is_left(bench: &Bench) {
    assert_eq!(bench.words().threads(FREE).len(), 64);
}

#[test]
fn a_lone_receiver_goes_with_its_channel() {
    let mut bench = still(&lone_receiver());
    assert_eq!((bench.place(0), bench.channel(0)), ((WAITING, 3), [1, 1, 1]));
    assert_eq!((bench.collected(), bench.channel(0)), (vec![0], [0, 0, 0]));
    no_thread_is_left(&bench);
    takes_nobody(&mut bench);
}

#[test]
fn two_on_channels_that_only_they_know() {
    let mut bench = still(&two_apart());
    assert_eq!((bench.place(0), bench.place(1)), ((WAITING, 6), (WAITING, 8)));
    assert_eq!((bench.channel(0), bench.channel(1)), ([1, 2, 2], [1, 2, 2]));
    assert_eq!(bench.collected(), [0, 1]);
    assert_eq!((bench.channel(0), bench.channel(1)), ([0, 0, 0], [0, 0, 0]));
}

/// Thread 1 offers nothing on the first channel yet, and will.
#[test]
fn a_waiter_that_may_wake_counts() {
    let mut bench = Bench::new(&through_a_waiter());
    bench.steps(0, 7);
    bench.steps(1, 2);
    bench.steps(2, 1);
    assert_eq!([0, 1, 2].map(|thread| bench.place(thread).0), [WAITING, WAITING, READY]);
    assert_eq!((bench.slots(0), bench.slots(1), bench.slots(2)), ([0, 5, 0], [0, 1, 5], [1, 5, 0]));
    takes_nobody(&mut bench);
    assert_eq!(bench.stepped(2), (3, 0, 1));
    takes_nobody(&mut bench);
    assert_eq!(bench.stepped(1), (3, 0, 0));
    assert_eq!(bench.place(0).0, READY);
}

/// Without the ready thread the same two are lost.
#[test]
fn a_waiter_that_cannot_wake_does_not() {
    let mut bench = Bench::new(&through_a_waiter());
    bench.steps(0, 7);
    bench.steps(1, 2);
    let mut words = bench.words();
    words.thread_mut(2).fill(0);
    words.recount(&Layout::new(&through_a_waiter()));
    bench.state = words.to_bytes();
    assert_eq!(bench.collected(), [0, 1]);
}

#[test]
fn a_waiter_on_a_port_stays() {
    let mut bench = still(&port_waiter());
    takes_nobody(&mut bench);
    assert_eq!(bench.give(0, 8).thread, 0);
    takes_nobody(&mut bench);
}

/// That it knows a port is of no help, since it offers nothing there.
#[test]
fn all_guards_false() {
    let mut bench = still(&all_closed());
    assert_eq!((bench.channel(0), bench.channel(1)), ([1, 2, 1], [1, 1, 1]));
    assert_eq!(bench.collected(), [0]);
    assert_eq!((bench.channel(0), bench.channel(1)), ([1, 1, 0], [0, 0, 0]));
}

#[test]
fn both_directions_in_one_choice_alone() {
    let mut bench = still(&with_itself());
    assert_eq!((bench.place(0), bench.channel(0)), ((WAITING, 3), [1, 1, 1]));
    assert_eq!((bench.collected(), bench.channel(0)), (vec![0], [0, 0, 0]));
}

#[test]
fn what_is_known_and_not_offered_wakes_nobody() {
    let mut bench = Bench::new(&idle_knowledge());
    bench.run(100);
    assert_eq!((bench.place(0).0, bench.place(1).0), (WAITING, READY));
    assert_eq!([0, 1, 2].map(|channel| bench.channel(channel)), [[1, 2, 1], [1, 1, 1], [1, 2, 1]]);
    assert_eq!(bench.collected(), [0]);
    assert_eq!([0, 1, 2].map(|channel| bench.channel(channel)), [[1, 1, 0], [0, 0, 0], [1, 1, 0]]);
}

#[test]
fn rings_are_taken_whole() {
    for threads in [2, 3, 4, 63, 64] {
        let mut bench = still(&chain(threads, Foot::First));
        assert_eq!(bench.words().threads(WAITING).len(), threads as usize);
        assert_eq!(bench.collected().len(), threads as usize);
        assert_eq!(bench.words().channels(1), [0], "only the port");
    }
}

#[test]
fn chains_that_end_at_a_port_stay() {
    for threads in [2, 3, 4, 64] {
        let mut bench = still(&chain(threads, Foot::Port));
        assert_eq!(bench.words().threads(WAITING).len(), threads as usize);
        takes_nobody(&mut bench);
        // All of them wake; the far end has nobody to send to and is lost then.
        assert_eq!(bench.give(0, 9).thread, 0);
        assert_eq!(bench.run(10_000).reason, NONE_READY);
        assert_eq!((bench.words().threads(WAITING), bench.slots::<3>(1)[2]), (vec![1], 9));
        assert_eq!(bench.collected(), [1]);
    }
}

#[test]
fn chains_that_end_at_a_ready_thread_stay() {
    for threads in [2, 3, 4, 64] {
        let mut bench = Bench::new(&chain(threads, Foot::Ready));
        bench.run(10_000);
        assert_eq!(bench.words().threads(READY), [0]);
        assert_eq!(bench.words().threads(WAITING).len(), threads as usize - 1);
        takes_nobody(&mut bench);
    }
}

#[test]
fn chains_that_end_at_a_lost_thread_are_lost() {
    for threads in [2, 3, 4, 64] {
        let mut bench = still(&chain(threads, Foot::Lone));
        assert_eq!(bench.collected().len(), threads as usize);
        assert_eq!((bench.words().channels(1), bench.channel(0)), (vec![0], [1, 1, 0]));
    }
}

#[test]
fn cliques_go_or_stay_whole() {
    let mut bench = still(&clique(1));
    assert_eq!((bench.words().threads(WAITING).len(), bench.channel(14)), (64, [1, 64, 64]));
    assert_eq!(bench.collected().len(), 64);
    assert_eq!((bench.words().channels(1), bench.channel(0)), (vec![0], [1, 1, 0]));
    let mut bench = still(&clique(0));
    assert_eq!((bench.words().threads(WAITING).len(), bench.channel(0)), (64, [1, 65, 64]));
    takes_nobody(&mut bench);
    // Without the last thread nobody waits on the port.
    assert_eq!(bench.give(0, 4).thread, 63);
    assert_eq!(bench.run(10).steps, 1);
    assert_eq!(bench.collected().len(), 63);
}

#[test]
fn some_are_taken_and_some_left() {
    let mut bench = still(&ring_beside_port());
    let before = bench.words();
    assert_eq!(before.threads(WAITING).len(), 6);
    assert_eq!(bench.collected(), [0, 1, 2, 5]);
    let after = bench.words();
    assert_eq!((after.thread(3), after.thread(4)), (before.thread(3), before.thread(4)));
    assert_eq!((bench.channel(0), bench.channel(4)), ([1, 2, 1], [1, 2, 2]));
    assert_eq!(after.channels(1), [0, 4]);
    takes_nobody(&mut bench);
    assert_eq!(bench.give(0, 6).thread, 4);
    assert_eq!(bench.stepped(4), (3, 0, 3));
}

/// Two offers, one of them on a channel that nobody else knows.
#[test]
fn one_offer_that_can_be_met_is_enough() {
    let two = vec![choice(&[go(receive(1, 2), 1), go(send(0, 2), 1)]), Node::End];
    let mut bench = still(&group(1, 1, &[member(&[0, 1], two)]));
    takes_nobody(&mut bench);
    let closed = vec![choice(&[go(receive(1, 2), 1), when(equal_to(2, 6), send(0, 2), 1)]), Node::End];
    let mut bench = still(&group(1, 1, &[member(&[0, 1], closed)]));
    assert_eq!(bench.collected(), [0]);
}

/// Two threads offer the same and know no more: neither can wake the other.
#[test]
fn the_same_offers_on_one_channel() {
    let mut bench = still(&group(0, 1, &[member(&[0], receiver(0, 1)), member(&[0], receiver(0, 1))]));
    assert_eq!((bench.channel(0), bench.collected()), ([1, 2, 2], vec![0, 1]));
}

/// The waiting thread's channel is in no slot of the ready one, but is on its way: the ready thread is
/// about to receive it from a third. It is that third who is known, and who knows the channel.
#[test]
fn a_channel_that_will_be_handed_over() {
    let nodes = vec![
        one(go(new(0), 1)),
        one(go(new(1), 2)),
        one(spawn(3, 5)),
        one(spawn(4, 6)),
        call(1, &[0]),
        one(go(receive(1, 2), 7)),
        one(go(send(0, 1), 7)),
        Node::End,
    ];
    let taker = definition(1, &[2, 1], vec![one(go(receive(0, 1), 1)), Node::End]);
    let mut bench = Bench::new(&compose(&[0, 1], 0, &[definition(0, &[2, 1, 0], nodes), taker]));
    bench.steps(0, 5);
    bench.steps(1, 1);
    bench.steps(2, 1);
    assert_eq!([0, 1, 2].map(|thread| bench.place(thread).0), [READY, WAITING, WAITING]);
    takes_nobody(&mut bench);
    assert_eq!((bench.stepped(0), bench.slots(0)), ((3, 0, 2), [0, 1]));
}

/// Thread 0 has the first channel made in two slots; thread 1, which waits on the port, in one.
#[test]
fn a_channel_goes_only_with_its_last_holder() {
    let members = [member(&[1, 1, 2], receiver(2, 3)), member(&[0, 1], receiver(0, 2))];
    let mut bench = still(&group(1, 2, &members));
    assert_eq!([0, 1, 2].map(|channel| bench.channel(channel)), [[1, 2, 1], [1, 2, 2], [1, 1, 1]]);
    assert_eq!(bench.collected(), [0]);
    assert_eq!([0, 1, 2].map(|channel| bench.channel(channel)), [[1, 2, 1], [1, 1, 1], [0, 0, 0]]);
}

#[test]
fn marks_and_turn_are_left() {
    let mut bench = Bench::new(&spawners());
    assert_eq!(bench.run(60_000).reason, LACKED_THREAD_ROW);
    let mut words = bench.words();
    words.front().copy_from_slice(&[17, 101, 40]);
    bench.state = words.to_bytes();
    assert_eq!(bench.collected().len(), 63);
    assert_eq!(bench.front(), [17, 101, 40]);
}

#[test]
fn rows_that_were_freed_are_used_again() {
    let mut bench = Bench::new(&spawners());
    for _ in 0..5 {
        assert_eq!(bench.run(60_000).reason, LACKED_THREAD_ROW);
        assert_eq!(bench.words().threads(READY).len(), 1);
        assert_eq!(bench.collected().len(), 63);
        assert_eq!((bench.words().threads(WAITING).len(), bench.words().channels(1).len()), (0, 1));
    }
}

#[test]
fn nobody_is_taken_while_all_go_on() {
    for file in [ping_pong(), crowd(60), listing()] {
        let mut bench = Bench::new(&file);
        for _ in 0..500 {
            takes_nobody(&mut bench);
            bench.run(1);
        }
    }
}
