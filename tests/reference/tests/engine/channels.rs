//! New channels: their rows, the mark, counts and the limit.

use generate::compose::{call, compose, definition, go, new, one, receive, send, spawn, Node};
use generate::procedures::creators;
use generate::{File, READY};
use interface::LACKED_CHANNEL_ROW;

use crate::bench::Bench;

/// Makes a channel in the same slot for ever.
fn remaker() -> File {
    let again = definition(1, &[1], vec![one(go(new(0), 1)), call(1, &[0])]);
    compose(&[1], 0, &[definition(0, &[1], vec![one(go(new(0), 1)), call(1, &[0])]), again])
}

#[test]
fn the_mark_goes_around() {
    let mut bench = Bench::new(&remaker());
    for round in 0..300 {
        let channel = round % 128;
        assert_eq!(bench.stepped(0), (3, 0, -1));
        assert_eq!((bench.slots(0), bench.front()[1]), ([channel], (channel + 1) % 128));
        assert_eq!(bench.words().channels(1), [channel as usize]);
        bench.steps(0, 1);
    }
}

/// Sixteen slots to each thread, and eight threads: all 128 channels. Each then makes one more.
fn full() -> File {
    let mut nodes: Vec<Node> = (0..16).map(|slot| one(go(new(slot), slot + 1))).collect();
    nodes.extend([one(go(new(5), 17)), Node::End]);
    let filler = definition(0, &[1; 16], nodes);
    let mut opening: Vec<Node> = (0..7).map(|node| one(spawn(node + 1, 7))).collect();
    opening.push(call(1, &[]));
    compose(&[1], 0, &[definition(0, &[], opening), filler])
}

#[test]
fn all_128_can_be_in_use_and_no_more() {
    let mut bench = Bench::new(&full());
    bench.steps(0, 8);
    for thread in 0..8 {
        if thread > 0 {
            bench.steps(thread, 1);
        }
        bench.steps(thread, 16);
    }
    assert_eq!(bench.words().channels(1).len(), 128);
    // The overwritten slot is the last holder of its channel, which is of no help.
    bench.refused(3, 14);
    assert_eq!((bench.held_up(), bench.front()), ((LACKED_CHANNEL_ROW, 0), [8, 0, 1]));
    assert_eq!((bench.held_up(), bench.front()), ((LACKED_CHANNEL_ROW, 1), [8, 0, 2]));
}

#[test]
fn a_row_is_looked_for_before_the_old_channel_is_freed() {
    let nodes = vec![one(go(new(0), 1)), one(go(new(0), 2)), one(go(new(0), 3)), Node::End];
    let mut bench = Bench::new(&compose(&[1], 0, &[definition(0, &[1], nodes)]));
    bench.steps(0, 1);
    let mut words = bench.words();
    words.front()[1] = 0;
    bench.state = words.to_bytes();
    bench.steps(0, 1);
    assert_eq!((bench.slots(0), bench.front(), bench.words().channels(1)), ([1], [1, 2, 0], vec![1]));
    bench.steps(0, 1);
    assert_eq!((bench.slots(0), bench.front(), bench.words().channels(1)), ([2], [1, 3, 0], vec![2]));
}

#[test]
fn creators_come_to_the_limit() {
    let mut bench = Bench::new(&creators());
    let mut lacked = 0;
    for _ in 0..60 {
        lacked += usize::from(bench.run(2_000).reason == LACKED_CHANNEL_ROW);
    }
    assert!(lacked > 10, "{lacked}");
}

/// A thread makes a channel, hands it to itself in a second slot and makes another in the first.
fn twice_held() -> File {
    let opening = definition(0, &[1], vec![one(go(new(0), 1)), call(1, &[0, 0])]);
    let twice = definition(
        2,
        &[1, 1],
        vec![one(go(new(0), 1)), one(spawn(2, 3)), Node::End, one(go(new(1), 4)), Node::End],
    );
    compose(&[1], 0, &[opening, twice])
}

#[test]
fn one_channel_in_two_slots_counts_once() {
    let mut bench = Bench::new(&twice_held());
    bench.steps(0, 2);
    assert_eq!((bench.slots(0), bench.channel(0)), ([0, 0], [1, 1, 0]));
    bench.steps(0, 1);
    assert_eq!((bench.slots(0), bench.channel(0), bench.channel(1)), ([1, 0], [1, 1, 0], [1, 1, 0]));
    assert_eq!(bench.stepped(0), (3, 0, 1));
    assert_eq!((bench.place(1), bench.slots(1)), ((READY, 5), [1, 0]));
    assert_eq!((bench.channel(0), bench.channel(1)), ([1, 2, 0], [1, 2, 0]));
    bench.steps(1, 1);
    assert_eq!((bench.slots(1), bench.channel(0), bench.channel(2)), ([1, 2], [1, 1, 0], [1, 1, 0]));
    bench.steps(0, 1);
    assert_eq!((bench.channel(0), bench.channel(1)), ([0, 0, 0], [1, 1, 0]));
}

#[test]
fn a_new_channel_has_the_type_of_its_slot() {
    let nodes = vec![one(go(new(1), 1)), one(go(new(0), 2)), one(go(new(2), 3)), Node::End];
    let mut bench = Bench::new(&compose(&[0, 1, 3], 0, &[definition(0, &[2, 1, 3], nodes)]));
    bench.steps(0, 3);
    assert_eq!((bench.slots(0), bench.front()), ([1, 0, 2], [1, 3, 0]));
    assert_eq!((bench.channel(0), bench.channel(1), bench.channel(2)), ([1, 1, 0], [2, 1, 0], [3, 1, 0]));
}

/// The first thread sends the channel over itself; the second receives into slot 0 or slot 1.
fn over_itself(into: i16) -> File {
    let nodes = vec![
        one(go(new(1), 1)),
        one(go(new(0), 2)),
        one(spawn(3, 4)),
        one(go(send(1, 1), 5)),
        one(go(receive(1, into), 5)),
        Node::End,
    ];
    compose(&[1], 0, &[definition(0, &[1, 1], nodes)])
}

#[test]
fn a_channel_may_be_sent_over_itself() {
    for (into, slots, first, second) in [(0, [0, 0], [1, 2, 0], [1, 1, 0]), (1, [1, 0], [1, 2, 0], [1, 2, 0])]
    {
        let mut bench = Bench::new(&over_itself(into));
        bench.steps(0, 3);
        bench.steps(1, 1);
        assert_eq!(bench.stepped(0), (3, 0, 1));
        assert_eq!((bench.slots(0), bench.slots(1)), ([1, 0], slots));
        assert_eq!((bench.channel(0), bench.channel(1)), (first, second));
    }
}
