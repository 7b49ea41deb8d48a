//! Who meets whom over a channel.

use generate::compose::{
    call, choice, compose, definition, equal_to, go, new, one, receive, send, set, spawn, when, Node, TAU,
};
use generate::{File, Row, READY, WAITING};

use crate::bench::Bench;

/// A channel in slot 0, a second one in slot 1, and the numbers 10, 20 and 0 in slots 2 to 4. The
/// first thread spawns one thread for each list of branches, and goes on with the last list itself.
/// The node behind all branches is an end, 50 in each list.
fn meeting(choices: &[&[Row]]) -> File {
    let spawned = choices.len() as i16 - 1;
    let mut nodes = vec![
        one(go(new(0), 1)),
        one(go(new(1), 2)),
        one(go(set(2, 10), 3)),
        one(go(set(3, 20), 4)),
        one(go(set(4, 0), 5)),
    ];
    let first = 5 + spawned;
    nodes.extend((0..spawned).map(|child| one(spawn(6 + child, first + 1 + child))));
    // The first thread's own list stands behind the chain, the children's behind it.
    let end = first + choices.len() as i16;
    let own = choices[choices.len() - 1];
    for list in std::iter::once(&own).chain(&choices[..choices.len() - 1]) {
        let branches: Vec<Row> = list.iter().map(|branch| ending(branch, end)).collect();
        nodes.push(choice(&branches));
    }
    nodes.push(Node::End);
    compose(&[0], 0, &[definition(0, &[1, 1, 0, 0, 0], nodes)])
}

fn ending(branch: &Row, end: i16) -> Row {
    let mut branch = *branch;
    branch[8] = end;
    branch
}

/// The bench after the children have come to wait, the lowest first, and thread 0 to its choice.
fn waiting(choices: &[&[Row]]) -> Bench {
    let mut bench = Bench::new(&meeting(choices));
    bench.steps(0, 5 + choices.len() - 1);
    for child in 1..choices.len() {
        assert_eq!(bench.stepped(child as u32), (2, 0, -1), "child {child}");
    }
    bench
}

fn sends(channel: i16, value: i16) -> Row {
    go(send(channel, value), 50)
}

fn receives(channel: i16, into: i16) -> Row {
    go(receive(channel, into), 50)
}

#[test]
fn a_send_meets_a_receiver() {
    let mut bench = waiting(&[&[receives(0, 4)], &[sends(0, 2)]]);
    assert_eq!(bench.channel(0), [1, 2, 1]);
    assert_eq!(bench.stepped(0), (3, 0, 1));
    assert_eq!((bench.slots::<5>(0)[4], bench.slots::<5>(1)[4]), (0, 10));
    assert_eq!((bench.place(0).0, bench.place(1).0, bench.channel(0)), (READY, READY, [1, 2, 0]));
}

#[test]
fn a_receive_meets_a_sender() {
    let mut bench = waiting(&[&[sends(0, 3)], &[receives(0, 4)]]);
    assert_eq!(bench.stepped(0), (3, 0, 1));
    assert_eq!((bench.slots::<5>(0)[4], bench.slots::<5>(1)[4]), (20, 0));
    assert_eq!((bench.place(0).0, bench.place(1).0, bench.channel(0)), (READY, READY, [1, 2, 0]));
}

#[test]
fn the_lowest_thread_wins_whatever_the_turn() {
    let offer: &[Row] = &[receives(0, 4)];
    for turn in [0, 2, 63] {
        let mut bench = waiting(&[offer, offer, offer, &[sends(0, 2)]]);
        let mut words = bench.words();
        words.front()[2] = turn;
        bench.state = words.to_bytes();
        assert_eq!(bench.stepped(0), (3, 0, 1));
        assert_eq!((bench.place(1).0, bench.place(2).0, bench.channel(0)), (READY, WAITING, [1, 4, 2]));
        assert_eq!(bench.front()[2], turn);
    }
}

#[test]
fn then_the_lowest_branch_of_the_partner_that_fits() {
    let offers = [
        sends(0, 2),
        receives(1, 2),
        when(equal_to(4, 1), receive(0, 2), 50),
        receives(0, 3),
        receives(0, 2),
    ];
    let mut bench = waiting(&[&offers, &[sends(0, 4)]]);
    assert_eq!(bench.stepped(0), (3, 0, 1));
    assert_eq!(bench.slots(1), [0, 1, 10, 0, 0]);
}

#[test]
fn the_own_branches_come_in_order() {
    let own = [when(equal_to(4, 1), TAU, 50), sends(1, 2), sends(0, 3), sends(0, 2), go(TAU, 50)];
    let mut bench = waiting(&[&[receives(0, 4)], &own]);
    assert_eq!(bench.stepped(0), (3, 2, 1));
    assert_eq!(bench.slots::<5>(1)[4], 20);
    let mut bench = waiting(&[&[sends(0, 4)], &own]);
    assert_eq!(bench.stepped(0), (3, 4, -1));
    assert_eq!(bench.place(1).0, WAITING);
}

#[test]
fn a_false_guard_offers_nothing() {
    let closed = when(equal_to(4, 1), receive(0, 4), 50);
    let mut bench = waiting(&[&[closed], &[receives(0, 4)], &[sends(0, 2)]]);
    assert_eq!(bench.stepped(0), (3, 0, 2));
}

#[test]
fn both_directions_in_one_choice_alone_wait() {
    let both: &[Row] = &[sends(0, 2), receives(0, 4)];
    let mut bench = waiting(&[both]);
    assert_eq!(bench.stepped(0), (2, 0, -1));
    assert_eq!((bench.place(0), bench.channel(0)), ((WAITING, 5), [1, 1, 1]));
    assert_eq!(bench.unchanged(|bench| bench.run(3)).reason, 1);
    // Of two such threads the second meets the first.
    let mut bench = waiting(&[both, both]);
    assert_eq!(bench.stepped(0), (3, 0, 1));
    assert_eq!(bench.slots(1), [0, 1, 10, 20, 10]);
}

#[test]
fn ready_threads_offer_nothing() {
    let mut bench = Bench::new(&meeting(&[&[receives(0, 4)], &[sends(0, 2)]]));
    bench.steps(0, 6);
    assert_eq!(bench.stepped(0), (2, 0, -1));
    assert_eq!(bench.stepped(1), (3, 0, 0));
    assert_eq!(bench.slots::<5>(1)[4], 10);
}

#[test]
fn each_partner_goes_on_behind_its_own_branch() {
    let nodes = vec![
        one(go(new(0), 1)),
        one(go(set(1, 1), 2)),
        one(spawn(3, 4)),
        choice(&[go(send(0, 1), 5)]),
        choice(&[when(equal_to(1, 2), TAU, 5), go(receive(0, 2), 6)]),
        Node::End,
        call(0, &[]),
    ];
    let mut bench = Bench::new(&compose(&[0], 0, &[definition(0, &[1, 0, 0], nodes)]));
    bench.steps(0, 3);
    bench.steps(1, 1);
    assert_eq!(bench.stepped(0), (3, 0, 1));
    assert_eq!((bench.place(0), bench.place(1)), ((READY, 5), (READY, 6)));
}

/// A channel of type 1 goes over one of type 2 into a slot that held the last of another.
#[test]
fn a_channel_received_frees_the_one_that_was_in_the_slot() {
    let nodes = vec![
        one(go(new(0), 1)),
        one(spawn(2, 4)),
        one(go(new(1), 3)),
        one(go(send(0, 1), 6)),
        one(go(new(1), 5)),
        one(go(receive(0, 1), 6)),
        Node::End,
    ];
    let mut bench = Bench::new(&compose(&[0, 1], 0, &[definition(0, &[2, 1], nodes)]));
    bench.steps(0, 3);
    bench.steps(1, 2);
    assert_eq!((bench.slots(0), bench.slots(1)), ([0, 1], [0, 2]));
    assert_eq!((bench.channel(0), bench.channel(1), bench.channel(2)), ([2, 2, 1], [1, 1, 0], [1, 1, 1]));
    assert_eq!(bench.stepped(0), (3, 0, 1));
    assert_eq!((bench.slots(0), bench.slots(1)), ([0, 1], [0, 1]));
    assert_eq!((bench.channel(0), bench.channel(1), bench.channel(2)), ([2, 2, 0], [1, 2, 0], [0, 0, 0]));
}
