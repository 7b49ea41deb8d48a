//! Files with a purpose, written by hand.

use crate::compose::{
    below, below_constant, call, choice, compose, definition, equal, equal_to, go, guarded, minus, new, one,
    plus, receive, send, set, spawn, when, Definition, Node, TAU,
};
use crate::file::{File, Row};

/// Two threads send a number to and fro over one channel, for ever.
pub fn ping_pong() -> File {
    let opening = definition(
        0,
        &[1, 0],
        vec![one(go(new(0), 1)), one(go(set(1, 7), 2)), one(spawn(3, 4)), call(1, &[0, 1]), call(2, &[0, 1])],
    );
    let first =
        definition(2, &[1, 0], vec![one(go(send(0, 1), 1)), one(go(receive(0, 1), 2)), call(1, &[0, 1])]);
    let second =
        definition(2, &[1, 0], vec![one(go(receive(0, 1), 1)), one(go(send(0, 1), 2)), call(2, &[0, 1])]);
    compose(&[0], 0, &[opening, first, second])
}

/// The same, forty times to and fro between one call and the next.
pub fn rally() -> File {
    let opening = definition(
        0,
        &[1, 0],
        vec![one(go(new(0), 1)), one(go(set(1, 7), 2)), one(spawn(3, 4)), call(1, &[0, 1]), call(2, &[0, 1])],
    );
    let side = |own: i16, begins: bool| {
        let turn = |place: i16| if (place % 2 == 0) == begins { send(0, 1) } else { receive(0, 1) };
        let mut nodes: Vec<_> = (0..80).map(|place| one(go(turn(place), place + 1))).collect();
        nodes.push(call(own, &[0, 1]));
        definition(2, &[1, 0], nodes)
    };
    compose(&[0], 0, &[opening, side(1, true), side(2, false)])
}

/// One thread sends on two channels in turn, the other receives from whichever it can, for ever.
pub fn selecting() -> File {
    let nodes = vec![
        one(go(new(0), 1)),
        one(go(new(1), 2)),
        one(go(set(2, 7), 3)),
        one(spawn(4, 5)),
        call(1, &[0, 1, 2]),
        call(2, &[0, 1, 2]),
    ];
    let sender = vec![one(go(send(0, 2), 1)), one(go(send(1, 2), 2)), call(1, &[0, 1, 2])];
    let receiver = vec![choice(&[go(receive(0, 2), 1), go(receive(1, 2), 1)]), call(2, &[0, 1, 2])];
    let definitions = [
        definition(0, &[1, 1, 0], nodes),
        definition(3, &[1, 1, 0], sender),
        definition(3, &[1, 1, 0], receiver),
    ];
    compose(&[0], 0, &definitions)
}

/// An even number of threads on one channel, for ever: the first half send, the others receive, so
/// that in each round one half waits for the other.
pub fn crowd(threads: i16) -> File {
    let opening = definition(
        0,
        &[1, 0, 0],
        vec![one(go(new(0), 1)), one(go(set(1, 1), 2)), one(go(set(2, threads / 2), 3)), call(1, &[0, 1, 2])],
    );
    let receivers = threads / 2 - 1;
    let definitions = [
        opening,
        spawner(1, when(equal_to(2, 0), set(2, receivers), 3), call(2, &[0, 1, 2]), 3),
        spawner(2, when(equal_to(2, 0), TAU, 3), call(4, &[0, 1]), 4),
        definition(2, &[1, 0], vec![one(go(send(0, 1), 1)), call(3, &[0, 1])]),
        definition(2, &[1, 0], vec![one(go(receive(0, 1), 1)), call(4, &[0, 1])]),
    ];
    compose(&[0], 0, &definitions)
}

/// A definition of this number that counts slot 2 down by slot 1: each time it spawns a thread that
/// calls the definition of the member; at 0 it takes the last branch and goes on with what is then.
fn spawner(number: i16, last: Row, then: Node, member: i16) -> Definition {
    let nodes = vec![
        choice(&[last, spawn(1, 4)]),
        one(go(minus(2, 2, 1), 2)),
        call(number, &[0, 1, 2]),
        then,
        call(member, &[0, 1]),
    ];
    definition(3, &[1, 0, 0], nodes)
}

/// Eight threads on one channel, for ever: each sends or receives, whichever can be done.
pub fn both_ways() -> File {
    let mut nodes = vec![one(go(new(0), 1)), one(go(set(1, 1), 2))];
    nodes.extend((2..9).map(|node| one(spawn(node + 1, 9))));
    nodes.push(call(1, &[0, 1]));
    let opening = definition(0, &[1, 0], nodes);
    let branches = [go(send(0, 1), 1), go(receive(0, 2), 2)];
    let member = definition(
        2,
        &[1, 0, 0],
        vec![choice(&branches), call(1, &[0, 1]), one(go(plus(2, 2, 1), 3)), call(1, &[0, 2])],
    );
    compose(&[0], 0, &[opening, member])
}

/// Three threads come to wait at one choice of eight branches, over a channel in slot 0. The branch at
/// each place is open if slot 2 has the number of the place; it is 100 at first. The branches send,
/// receive and go ahead alone, and stand as many places further on as is asked for.
pub fn wide(places: usize) -> File {
    let mut branches = [
        go(send(0, 3), 6),
        go(receive(0, 3), 6),
        go(TAU, 6),
        go(new(1), 6),
        spawn(6, 6),
        go(set(3, 1), 6),
        go(receive(0, 3), 7),
        go(send(0, 3), 7),
    ];
    branches.rotate_right(places);
    let open = branches.into_iter().zip(0..).map(|(branch, place)| guarded(equal_to(2, place), branch));
    let branches: Vec<Row> = open.collect();
    let nodes = vec![
        one(go(new(0), 1)),
        one(go(set(2, 100), 2)),
        one(go(set(3, 5), 3)),
        one(spawn(4, 5)),
        one(spawn(5, 5)),
        choice(&branches),
        Node::End,
        Node::End,
    ];
    compose(&[0], 0, &[definition(0, &[1, 1, 0, 0], nodes)])
}

/// One thread that only reckons: guards, sums, differences and calls, for ever. Its number goes from -20,000 up
/// to 20,000 and begins again.
pub fn reckoner() -> File {
    let opening = definition(
        0,
        &[0, 0, 0],
        vec![one(go(set(0, -20_000), 1)), one(go(set(1, 1), 2)), one(go(set(2, 0), 3)), call(1, &[0, 1, 2])],
    );
    let body = definition(
        3,
        &[0, 0, 0, 0],
        vec![
            one(go(plus(3, 0, 1), 1)),
            choice(&[
                when(below_constant(3, 0), minus(3, 3, 2), 2),
                when(equal_to(2, 1_000), set(2, 0), 2),
                when(equal(0, 3), TAU, 2),
                go(plus(2, 2, 1), 2),
            ]),
            choice(&[when(below(0, 1), minus(0, 1, 0), 3), go(set(1, 1), 3)]),
            choice(&[when(below_constant(3, 20_000), plus(0, 3, 2), 4), go(set(0, -20_000), 4)]),
            call(1, &[0, 1, 2]),
        ],
    );
    compose(&[], 0, &[opening, body])
}

/// Threads that fill their sixteen slots with channels until none is left.
pub fn creators() -> File {
    let slots = [1; 16];
    let mut nodes: Vec<Node> = (0..16).map(|slot| one(go(new(slot), slot + 1))).collect();
    nodes.extend([one(spawn(17, 18)), one(go(new(3), 19)), call(0, &[]), call(1, &[0, 3])]);
    let filler = definition(0, &slots, nodes);
    let keeper = definition(
        2,
        &[1, 1, 1],
        vec![one(go(new(2), 1)), one(go(new(0), 2)), one(go(new(1), 3)), call(1, &[2, 0])],
    );
    compose(&[1], 0, &[filler, keeper])
}

/// One thread makes sixteen channels, leaves them to a child that waits on one of them for ever, and
/// begins again, until no channel is left.
pub fn hoarders() -> File {
    let mut nodes: Vec<Node> = (0..16).map(|slot| one(go(new(slot), slot + 1))).collect();
    nodes.extend([one(spawn(17, 18)), call(0, &[]), one(go(receive(0, 0), 19)), Node::End]);
    compose(&[1], 0, &[definition(0, &[1; 16], nodes)])
}

/// One thread spawns for ever; each child makes a channel and waits on it, so that all rows fill.
pub fn spawners() -> File {
    let opening = definition(0, &[1, 0], vec![one(go(new(0), 1)), one(go(set(1, 3), 2)), call(1, &[0, 1])]);
    let parent = definition(
        2,
        &[1, 0, 1],
        vec![one(spawn(1, 2)), call(1, &[0, 1]), one(go(new(2), 3)), one(go(receive(2, 1), 4)), Node::End],
    );
    compose(&[0], 0, &[opening, parent])
}

/// Two threads: each sends its number on the first port or receives another from the second,
/// whichever the bench wants, for ever.
pub fn ports() -> File {
    let opening =
        definition(2, &[1, 1, 0], vec![one(go(set(2, 5), 1)), one(spawn(2, 2)), call(1, &[0, 1, 2])]);
    let worker = definition(
        3,
        &[1, 1, 0],
        vec![choice(&[go(send(0, 2), 1), go(receive(1, 2), 1)]), call(1, &[0, 1, 2])],
    );
    compose(&[0], 2, &[opening, worker])
}
