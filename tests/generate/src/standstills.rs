//! Files whose threads come to wait in vain, or nearly: single shapes, and random groups of threads.

use crate::compose::{
    below_constant, call, choice, compose, definition, equal_to, go, minus, new, one, receive, send, set,
    spawn, when, Definition, Node, ALWAYS, TAU,
};
use crate::file::{File, Row};
use crate::random::Random;

/// A thread of a group: the channels that it keeps, and what it does. Its slots are the channels in this
/// order and then a number, which is 5.
pub struct Member {
    channels: Vec<i16>,
    nodes: Vec<Node>,
}

pub fn member(channels: &[i16], nodes: Vec<Node>) -> Member {
    Member { channels: channels.to_vec(), nodes }
}

/// Each member is a thread, numbered as they stand here. The channels are the ports and then so many
/// that thread 0 makes before it spawns the others and goes on as the first member. All carry numbers.
pub fn group(ports: i16, made: i16, members: &[Member]) -> File {
    let channels = ports + made;
    let others = members.len() as i16 - 1;
    let mut nodes: Vec<Node> = (0..made).map(|place| one(go(new(ports + place), place + 1))).collect();
    nodes.push(one(go(set(channels, 5), made + 1)));
    let calls = made + 1 + others;
    nodes.extend((1..=others).map(|child| one(spawn(made + 1 + child, calls + child))));
    nodes.extend((1..).zip(members).map(|(number, member)| {
        let kept: Vec<i16> = member.channels.iter().copied().chain([channels]).collect();
        call(number, &kept)
    }));
    let mut definitions = vec![definition(ports, &channel_slots(channels), nodes)];
    definitions.extend(members.iter().map(member_definition));
    compose(&[0], ports, &definitions)
}

/// So many slots for channels, and one for a number.
fn channel_slots(channels: i16) -> Vec<i16> {
    (0..channels).map(|_| 1).chain([0]).collect()
}

fn member_definition(member: &Member) -> Definition {
    let slots = channel_slots(member.channels.len() as i16);
    let nodes = member.nodes.clone();
    Definition { parameters: slots.len() as i16, slots, nodes }
}

/// Receives a number on a channel, and ends.
pub fn receiver(channel: i16, into: i16) -> Vec<Node> {
    vec![one(go(receive(channel, into), 1)), Node::End]
}

/// Receives a number on one channel, sends it on another, and ends.
pub fn passer(from: i16, to: i16, number: i16) -> Vec<Node> {
    vec![one(go(receive(from, number), 1)), one(go(send(to, number), 2)), Node::End]
}

/// One thread waits to receive on a channel that only it knows.
pub fn lone_receiver() -> File {
    group(0, 1, &[member(&[0], receiver(0, 1))])
}

/// Two threads know the same two channels, and each waits on one of them.
pub fn two_apart() -> File {
    group(0, 2, &[member(&[0, 1], receiver(0, 2)), member(&[0, 1], receiver(1, 2))])
}

/// Thread 0 waits on the first channel. Thread 1 knows it and waits on the second. Thread 2 knows that
/// one and is about to send on it, whereupon thread 1 sends to thread 0.
pub fn through_a_waiter() -> File {
    let sender = vec![one(go(send(0, 1), 1)), Node::End];
    group(0, 2, &[member(&[0], receiver(0, 1)), member(&[0, 1], passer(1, 0, 2)), member(&[1], sender)])
}

/// One thread waits to receive on a port.
pub fn port_waiter() -> File {
    group(1, 0, &[member(&[0], receiver(0, 1))])
}

/// One thread knows a port and a channel of its own, at a choice where no guard is true.
pub fn all_closed() -> File {
    let branches = [
        when(equal_to(2, 4), receive(0, 2), 1),
        when(below_constant(2, 5), send(1, 2), 1),
        when(equal_to(2, 0), TAU, 1),
    ];
    group(1, 1, &[member(&[0, 1], vec![choice(&branches), Node::End])])
}

/// One thread offers both to send and to receive on a channel that only it knows.
pub fn with_itself() -> File {
    let branches = [go(send(0, 1), 1), go(receive(0, 1), 1)];
    group(0, 1, &[member(&[0], vec![choice(&branches), Node::End])])
}

/// Thread 0 waits on a channel of its own. It also knows a port, on which it offers nothing, and a
/// channel that thread 1 knows, which goes on for ever.
pub fn idle_knowledge() -> File {
    group(1, 2, &[member(&[0, 1, 2], receiver(1, 3)), member(&[2], idler(2, 2))])
}

/// Goes on for ever with so many slots, as the definition of this number.
fn idler(number: i16, slots: i16) -> Vec<Node> {
    let all: Vec<i16> = (0..slots).collect();
    vec![one(go(TAU, 1)), call(number, &all)]
}

/// Where a chain ends.
#[derive(Clone, Copy, Debug, PartialEq, Eq)]
pub enum Foot {
    /// The last thread waits on a port.
    Port,
    /// The last thread does not wait: it goes on for ever.
    Ready,
    /// The last thread waits on a channel that only it knows.
    Lone,
    /// The last thread waits on a channel that the first knows.
    First,
}

/// So many threads, two at least. Each waits on a channel of its own that the next one knows; when it
/// receives a number there, it sends it to the one before. Thread 0 is the foot, thread 1 the far end,
/// and the others follow in order.
pub fn chain(threads: i16, foot: Foot) -> File {
    // A port, the channel that the far end knows, its own, 1, and how many threads are still to come.
    let opening = vec![
        one(go(new(1), 1)),
        one(go(new(2), 2)),
        one(go(set(3, 1), 3)),
        one(go(set(4, threads - 2), 4)),
        one(spawn(5, 6)),
        call(1, &[0, 1, 2, 3, 4]),
        call(2, &[1, 2, 3]),
    ];
    let waiter = vec![one(go(receive(1, 2), 1)), one(go(send(0, 2), 2)), Node::End];
    let definitions = [
        definition(1, &[1, 1, 1, 0, 0], opening),
        definition(5, &[1, 1, 1, 0, 0, 1], links(foot)),
        definition(3, &[1, 1, 0], waiter),
        definition(2, &[1, 0], idler(3, 2)),
    ];
    compose(&[0], 1, &definitions)
}

/// Spawns the threads between the ends, and then becomes the foot. Slot 2 has the channel of the thread
/// before, slot 5 the next one.
fn links(foot: Foot) -> Vec<Node> {
    let mut nodes = vec![
        choice(&[when(equal_to(4, 0), TAU, 5), go(new(5), 1)]),
        one(spawn(2, 4)),
        one(go(minus(4, 4, 3), 3)),
        call(1, &[0, 1, 5, 3, 4]),
        call(2, &[2, 5, 3]),
    ];
    match foot {
        Foot::Port => nodes.push(call(2, &[2, 0, 3])),
        Foot::First => nodes.push(call(2, &[2, 1, 3])),
        Foot::Ready => nodes.push(call(3, &[2, 3])),
        Foot::Lone => nodes.extend([one(go(new(5), 6)), call(2, &[2, 5, 3])]),
    }
    nodes
}

/// All 64 threads know the same channels, as many as a thread can know beside a number: a port, which is
/// channel 0, and fourteen others. Each waits with as many offers as a choice can have, on the channels
/// from 1 on. Only the last thread waits on one channel, which is given.
pub fn clique(of_the_last: i16) -> File {
    const MADE: i16 = 14;
    const SPAWNS: i16 = 63;
    const NUMBER: i16 = MADE + 1;
    let waits = MADE + SPAWNS;
    let mut nodes: Vec<Node> = (0..MADE).map(|place| one(go(new(place + 1), place + 1))).collect();
    nodes.extend((MADE + 1..waits).map(|next| one(spawn(next, waits))));
    nodes.push(one(spawn(waits, waits + 1)));
    let offers: Vec<Row> = (1..=8).map(|channel| go(receive(channel, NUMBER), waits + 2)).collect();
    nodes.extend([choice(&offers), one(go(receive(of_the_last, NUMBER), waits + 2)), Node::End]);
    compose(&[0], 1, &[definition(1, &channel_slots(MADE + 1), nodes)])
}

/// A ring of three threads, a chain of two that ends at a port, and one thread that knows a channel of
/// the ring and the port but waits on a channel of its own; in the order 0 to 2, 3 and 4, 5.
pub fn ring_beside_port() -> File {
    let members = [
        member(&[1, 2], passer(0, 1, 2)),
        member(&[2, 3], passer(0, 1, 2)),
        member(&[3, 1], passer(0, 1, 2)),
        member(&[4], receiver(0, 1)),
        member(&[0, 4], passer(0, 1, 2)),
        member(&[0, 1, 5], receiver(2, 3)),
    ];
    group(1, 5, &members)
}

/// A group of random members, many of which wait for others that wait. Each keeps a few of the channels
/// and uses now one and now another.
pub fn any_group(random: &mut Random) -> File {
    let (ports, made) = (random.below(3) as i16, random.within(2..=6) as i16);
    let count = random.within(3..=8) as i16;
    let members: Vec<Member> = (1..=count).map(|number| any_member(random, number, ports + made)).collect();
    group(ports, made, &members)
}

/// A member that becomes the definition of this number.
fn any_member(random: &mut Random, number: i16, channels: i16) -> Member {
    let mut kept: Vec<i16> = (0..channels).collect();
    random.shuffle(&mut kept);
    kept.truncate(random.within(1..=3));
    let slots = kept.len() as i16 + 1;
    if random.chance(8) {
        return member(&kept, idler(number, slots));
    }
    let choices = random.within(1..=3) as i16;
    let mut nodes: Vec<Node> = (1..=choices).map(|next| any_exchanges(random, slots - 1, next)).collect();
    let again: Vec<i16> = (0..slots).collect();
    nodes.push(if random.chance(40) { call(number, &again) } else { Node::End });
    member(&kept, nodes)
}

/// A choice of one exchange or some, over so many channels and the number behind them.
fn any_exchanges(random: &mut Random, channels: i16, next: i16) -> Node {
    let guards = [(ALWAYS, 8), (equal_to(channels, 5), 1), (equal_to(channels, 0), 1)];
    let count = random.pick(&[1, 1, 1, 1, 2, 3]);
    let mut branch = || {
        let channel = random.below(channels as usize) as i16;
        let action = random.pick(&[send(channel, channels), receive(channel, channels)]);
        when(random.weighted(&guards), action, next)
    };
    Node::Choice((0..count).map(|_| branch()).collect())
}

/// A file of each shape, with its name.
pub fn all() -> Vec<(&'static str, File)> {
    vec![
        ("lone receiver", lone_receiver()),
        ("two apart", two_apart()),
        ("through a waiter", through_a_waiter()),
        ("port waiter", port_waiter()),
        ("all closed", all_closed()),
        ("with itself", with_itself()),
        ("idle knowledge", idle_knowledge()),
        ("chain to a port", chain(4, Foot::Port)),
        ("chain to a ready thread", chain(4, Foot::Ready)),
        ("chain to a lone thread", chain(4, Foot::Lone)),
        ("ring", chain(4, Foot::First)),
        ("ring beside a port", ring_beside_port()),
    ]
}
