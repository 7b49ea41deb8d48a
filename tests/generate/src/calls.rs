//! Calls with right and wrong numbers.

use interface::{Call, PORTS, THREADS};

use crate::random::Random;
use crate::words::{Words, READY};

/// Some call that fits the state, or nearly. Where no thread is ready, steps and runs are fewer.
pub fn any_call(random: &mut Random, state: &[u8], ports: usize) -> Call {
    let ready = Words::new(state).threads(READY);
    let (steps, runs, starts) = if ready.is_empty() { (4, 4, 8) } else { (50, 24, 1) };
    let exchanges = if ports == 0 { 2 } else { 20 };
    let kinds = [(0, steps), (1, runs), (2, exchanges), (3, exchanges), (4, starts), (5, 4)];
    match random.weighted(&kinds) {
        0 => Call::Step { thread: any_thread(random, &ready) },
        1 => Call::Run { n: any_count(random) },
        2 => Call::Give { port: any_port(random, ports), number: any_number(random) },
        3 => Call::Take { port: any_port(random, ports) },
        4 => Call::Start,
        _ => Call::Collect,
    }
}

/// A step of each ready thread, and at each port each of these numbers given and one taken.
pub fn each_call(state: &[u8], ports: usize, numbers: &[i32]) -> Vec<Call> {
    let ready = Words::new(state).threads(READY);
    let mut calls: Vec<Call> = ready.iter().map(|thread| Call::Step { thread: *thread as u32 }).collect();
    for port in 0..ports as u32 {
        calls.extend(numbers.iter().map(|number| Call::Give { port, number: *number }));
        calls.push(Call::Take { port });
    }
    calls
}

/// Mostly a ready thread, if there is one.
fn any_thread(random: &mut Random, ready: &[usize]) -> u32 {
    let any = random.below(THREADS);
    let ready = random.choose(ready).unwrap_or(any);
    near_or_far(random, ready, [any, any, 127, 128], THREADS)
}

/// Mostly a port that there is; nearly half of the others are below 8, where seats may have rights.
fn any_port(random: &mut Random, ports: usize) -> u32 {
    let right = random.below(ports.max(1));
    let last = ports.max(PORTS - 1);
    near_or_far(random, right, [ports, ports, last, last], PORTS)
}

/// Mostly the right number; else one of the others, one beyond the limit, or one that is right in its lower bits.
fn near_or_far(random: &mut Random, right: usize, others: [usize; 4], limit: usize) -> u32 {
    if random.chance(85) {
        return right as u32;
    }
    let [right, limit] = [right, limit].map(|number| number as u32);
    let [first, second, third, fourth] = others.map(|number| number as u32);
    let bit = 1 << random.within(6..=31);
    random.pick(&[first, second, limit, limit + 1, right | bit, right | bit, third, fourth, u32::MAX])
}

fn any_count(random: &mut Random) -> u16 {
    let few = random.below(12) as u16;
    let some = random.below(120) as u16;
    match random.below(200) {
        0 => random.pick(&[u16::MAX, u16::MAX - 1, 1 << 15]),
        1..20 => some * 8,
        20..80 => some,
        _ => few,
    }
}

fn any_number(random: &mut Random) -> i32 {
    let any = random.bits() as i32;
    let few = random.below(4) as i32 - 1;
    random.pick(&[few, few, few, any, i32::MAX, i32::MIN])
}
