//! Give and take.

use generate::compose::{
    choice, compose, definition, equal_to, go, one, receive, send, set, spawn, when, Node,
};
use generate::procedures::ports;
use generate::{File, READY, WAITING};
use interface::{Given, Taken};

use crate::bench::Bench;

#[test]
fn the_start_with_ports() {
    let bench = Bench::new(&ports());
    assert_eq!((bench.front(), bench.place(0), bench.slots(0)), ([1, 2, 0], (READY, 0), [0, 1, 0]));
    assert_eq!((bench.channel(0), bench.channel(1), bench.channel(2)), ([1, 2, 0], [1, 2, 0], [0, 0, 0]));
}

#[test]
fn ports_both_ways() {
    let mut bench = Bench::new(&ports());
    assert_eq!(bench.run(100).reason, 1);
    assert_eq!((bench.channel(0), bench.channel(1)), ([1, 3, 2], [1, 3, 2]));
    assert_eq!(bench.take(0), Taken { refusal: 0, thread: 0, number: 5 });
    assert_eq!(bench.give(1, -9), Given { refusal: 0, thread: 1 });
    assert_eq!((bench.slots(1), bench.channel(1)), ([0, 1, -9], [1, 3, 0]));
    assert_eq!(bench.unchanged(|bench| bench.give(1, 4)), Given { refusal: 0, thread: -1 });
    assert_eq!(bench.unchanged(|bench| bench.take(0)), Taken { refusal: 0, thread: -1, number: 0 });
    assert_eq!(bench.run(100).reason, 1);
    assert_eq!(bench.unchanged(|bench| bench.give(0, 4)), Given { refusal: 0, thread: -1 });
    assert_eq!(bench.take(0), Taken { refusal: 0, thread: 0, number: 5 });
    assert_eq!(bench.take(0), Taken { refusal: 0, thread: 1, number: -9 });
}

/// Two threads wait at the same choice, with several branches for each port.
fn two_waiting() -> File {
    let branches = [
        when(equal_to(2, 0), receive(0, 3), 3),
        go(receive(0, 4), 3),
        go(receive(0, 3), 3),
        when(equal_to(2, 0), send(1, 2), 3),
        go(send(1, 2), 4),
        go(send(1, 2), 3),
    ];
    let nodes = vec![one(go(set(2, 6), 1)), one(spawn(2, 2)), choice(&branches), Node::End, Node::End];
    compose(&[0], 2, &[definition(2, &[1, 1, 0, 0, 0], nodes)])
}

#[test]
fn the_lowest_thread_and_then_its_lowest_open_branch() {
    let mut bench = Bench::new(&two_waiting());
    assert_eq!(bench.run(4).steps, 4);
    assert_eq!((bench.place(0), bench.place(1)), ((WAITING, 2), (WAITING, 2)));
    let turn = bench.front()[2];
    assert_eq!(bench.give(0, 77).thread, 0);
    assert_eq!((bench.slots(0), bench.place(0), bench.channel(0)), ([0, 1, 6, 0, 77], (READY, 3), [1, 3, 1]));
    assert_eq!(bench.take(1), Taken { refusal: 0, thread: 1, number: 6 });
    assert_eq!((bench.place(1), bench.channel(0)), ((READY, 4), [1, 3, 0]));
    assert_eq!(bench.front()[2], turn);
}

#[test]
fn a_port_stays_in_use_when_no_thread_holds_it() {
    let file = compose(&[0], 2, &[definition(2, &[1, 1], vec![Node::End])]);
    let mut bench = Bench::new(&file);
    assert_eq!(bench.stepped(0), (0, 0, -1));
    assert_eq!((bench.channel(0), bench.channel(1), bench.channel(2)), ([1, 1, 0], [1, 1, 0], [0, 0, 0]));
    assert_eq!(bench.unchanged(|bench| bench.give(1, 3)), Given { refusal: 0, thread: -1 });
}
