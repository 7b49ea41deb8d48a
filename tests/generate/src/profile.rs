//! What right files are like: how large, and what their branches do.

use std::ops::RangeInclusive;

use crate::random::Random;
use crate::size::Size;

/// Chances are out of a hundred.
pub struct Profile {
    pub name: &'static str,
    /// If definition 0 is an opening, the size of the rest.
    pub size: fn(&mut Random) -> Size,
    pub opening: Option<Opening>,
    /// How many calls in a file with an opening may call the opening again.
    pub restarts: usize,
    /// The actions to draw from; one that stands here more often comes more often.
    pub actions: &'static [i16],
    /// How many choices have nothing but sends and receives, where the slots allow it.
    pub exchanges: usize,
    /// How many exchanges are on the first channel that the thread has, and how many sums double.
    pub favoured: usize,
    /// How many branches have a guard, where the slots allow it.
    pub guarded: usize,
    /// How many nodes without branches end though they could call.
    pub ends: usize,
    /// How many tries are made to find a definition that can be called.
    pub tries: usize,
    /// How many slots are numbers, before the others get any type.
    pub numbers: usize,
    /// Constants, beside an arbitrary one that comes as often as each of these.
    pub constants: &'static [i16],
}

/// A definition 0 that writes some slots, spawns some threads and then only calls.
pub struct Opening {
    /// How many slots it has beside the ports.
    pub slots: RangeInclusive<usize>,
    pub children: RangeInclusive<usize>,
}

/// Sends and receives.
pub const EXCHANGES: [i16; 2] = [1, 2];

/// Files of every size, without an aim.
pub const ANY: Profile = Profile {
    name: "any",
    size: Size::random,
    opening: None,
    restarts: 0,
    actions: &[0, 1, 1, 1, 1, 2, 2, 2, 3, 3, 3, 4, 4, 5, 5, 5, 6, 6, 7, 7],
    exchanges: 0,
    favoured: 0,
    guarded: 80,
    ends: 25,
    tries: 1,
    numbers: 35,
    constants: &[0, 1, -1, 7, i16::MAX, i16::MIN],
};

/// Files whose runs go on for long, each kind with an aim of its own.
pub const LIVELY: [Profile; 7] = [DENSE, CARRIERS, SPAWNERS, CREATORS, PORTS, SUMS, LARGEST];

/// Some threads meet over few channels, all the time.
const DENSE: Profile = Profile {
    name: "dense",
    size: |random| small_size(random, 1..=2, 5..=8, 0..=1),
    opening: Some(Opening { slots: 2..=4, children: 2..=8 }),
    restarts: 1,
    actions: &[0, 1, 1, 1, 2, 2, 2, 3, 4, 5, 6],
    exchanges: 65,
    favoured: 60,
    guarded: 20,
    ends: 4,
    tries: 16,
    numbers: 20,
    constants: &[0, 0, 1, 1, -1, 2],
};

/// Channels go over channels.
const CARRIERS: Profile = Profile {
    name: "carriers",
    size: |random| small_size(random, 1..=3, 6..=12, 0..=1),
    opening: Some(Opening { slots: 2..=6, children: 2..=8 }),
    actions: &[0, 1, 1, 1, 2, 2, 2, 3, 3, 4],
    favoured: 45,
    guarded: 5,
    numbers: 3,
    ..DENSE
};

/// All rows of threads come into use.
const SPAWNERS: Profile = Profile {
    name: "spawners",
    size: |random| small_size(random, 1..=2, 4..=6, 0..=2),
    opening: Some(Opening { slots: 2..=4, children: 4..=10 }),
    restarts: 10,
    actions: &[0, 1, 2, 3, 4, 4, 4, 5, 6],
    exchanges: 35,
    ends: 35,
    ..DENSE
};

/// All rows of channels come into use.
const CREATORS: Profile = Profile {
    name: "creators",
    size: |random| small_size(random, 1..=3, 13..=16, 0..=2),
    opening: Some(Opening { slots: 10..=13, children: 9..=16 }),
    restarts: 5,
    actions: &[0, 1, 2, 3, 3, 3, 3, 3, 3, 3, 3, 4],
    exchanges: 15,
    favoured: 20,
    ..CARRIERS
};

/// The bench gives and takes much.
const PORTS: Profile = Profile {
    name: "ports",
    size: |random| small_size(random, 1..=1, 4..=8, 1..=4),
    opening: Some(Opening { slots: 2..=3, children: 1..=6 }),
    actions: &[1, 1, 2, 2, 4, 5, 6, 7],
    exchanges: 80,
    guarded: 35,
    numbers: 30,
    ..DENSE
};

/// Numbers and guards.
const SUMS: Profile = Profile {
    name: "sums",
    size: |random| small_size(random, 0..=1, 4..=10, 0..=1),
    opening: Some(Opening { slots: 4..=8, children: 1..=4 }),
    actions: &[0, 1, 2, 5, 6, 6, 6, 6, 7, 7, 7],
    exchanges: 10,
    favoured: 40,
    guarded: 60,
    numbers: 80,
    constants: &[0, 1, -1, i16::MAX, i16::MIN],
    ..DENSE
};

/// Every count at its limit.
const LARGEST: Profile = Profile {
    name: "largest",
    size: |_| Size { definitions: 15, slots: 240, nodes: 167, branches: 368, ..Size::LARGEST },
    opening: Some(Opening { slots: 8..=8, children: 8..=8 }),
    actions: &[0, 1, 1, 1, 2, 2, 2, 3, 3, 4, 5, 6, 7],
    exchanges: 40,
    ..DENSE
};

/// Small files whose threads soon wait in vain, each kind with an aim of its own.
pub const STILL: [Profile; 6] = [APART, CLOSED, BESIDE_PORTS, IN_LINE, HANDED_ON, LEFT_READY];

/// Threads with few of the channels that there are: some wait alone, some for each other.
const APART: Profile = Profile {
    name: "apart",
    size: |random| least_size(random, 1..=1, 2..=4, 0..=0),
    opening: Some(Opening { slots: 3..=6, children: 2..=4 }),
    restarts: 0,
    actions: &[0, 1, 1, 2, 2, 3, 5],
    exchanges: 75,
    favoured: 20,
    guarded: 15,
    ends: 70,
    tries: 4,
    numbers: 20,
    constants: &[0, 0, 1, 1],
};

/// Guards that are often false, so that a thread offers less than it knows, or nothing.
const CLOSED: Profile = Profile {
    name: "closed",
    size: |random| least_size(random, 1..=1, 3..=5, 0..=1),
    guarded: 75,
    numbers: 30,
    constants: &[0, 1, 2, -1],
    ..APART
};

/// Some wait on a port, some for these, some apart from both.
const BESIDE_PORTS: Profile = Profile {
    name: "beside ports",
    size: |random| least_size(random, 1..=1, 3..=5, 1..=2),
    ends: 50,
    ..APART
};

/// Threads with two or three channels use first the one and then the other, without a choice, so that
/// many wait for others that wait.
const IN_LINE: Profile = Profile {
    name: "in line",
    size: |random| {
        let size = least_size(random, 1..=1, 3..=4, 1..=1);
        Size { branches: size.nodes - size.definitions, ..size }
    },
    opening: Some(Opening { slots: 4..=6, children: 4..=6 }),
    exchanges: 95,
    favoured: 0,
    guarded: 0,
    ..APART
};

/// Channels go over channels, so that who knows what changes.
const HANDED_ON: Profile = Profile {
    name: "handed on",
    size: |random| least_size(random, 2..=3, 4..=6, 0..=1),
    opening: Some(Opening { slots: 4..=7, children: 2..=4 }),
    exchanges: 85,
    guarded: 5,
    numbers: 5,
    ..APART
};

/// Threads that go on for long beside those that wait, and wake some of them late.
const LEFT_READY: Profile = Profile {
    name: "left ready",
    size: |random| least_size(random, 1..=2, 3..=5, 0..=1),
    actions: &[0, 0, 1, 2, 3, 5, 6],
    exchanges: 50,
    ends: 10,
    ..APART
};

/// Some definitions of one or two choices, with so many slots in each.
fn least_size(
    random: &mut Random,
    types: RangeInclusive<usize>,
    slots: RangeInclusive<usize>,
    ports: RangeInclusive<usize>,
) -> Size {
    let definitions = random.within(2..=4);
    let choices = random.within(definitions..=definitions * 2);
    let types = random.within(types);
    Size {
        types,
        definitions,
        slots: definitions * random.within(slots).max(types + 1),
        nodes: definitions + choices,
        branches: random.within(choices..=choices * 2),
        ports: random.within(ports),
    }
}

/// A few definitions of some nodes, with so many slots in each.
fn small_size(
    random: &mut Random,
    types: RangeInclusive<usize>,
    slots: RangeInclusive<usize>,
    ports: RangeInclusive<usize>,
) -> Size {
    let definitions = random.within(1..=3);
    let choices = random.within(definitions..=definitions * 5);
    let most = random.pick(&[2, 3, 3, 7]);
    let types = random.within(types);
    let ports = if types == 0 { 0 } else { random.within(ports) };
    Size {
        types,
        definitions,
        slots: definitions * random.within(slots).max(types + 1),
        nodes: definitions + choices,
        branches: random.within(choices..=choices * most),
        ports,
    }
}
