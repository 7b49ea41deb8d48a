//! Files whose threads the bench can lead into any branch, so that the bound can be reached.

use crate::compose::{
    call, compose, definition, equal_to, go, guarded, one, receive, spawn, Definition, Node, TAU,
};
use crate::file::{File, Row};
use crate::random::Random;

/// The most branches that a choice has in such a file; they have the numbers from 0 on.
pub const LED_BRANCHES: usize = 4;

/// A way on from a choice, to places that are counted without the nodes at which threads ask.
#[derive(Clone, Copy)]
struct Way {
    next: usize,
    child: Option<usize>,
}

/// So many definitions with up to so many choices. Before a choice of several branches a thread asks at
/// port 0 for a number, and then takes the branch of that number. No thread needs another one. Calls go up,
/// or back to the beginning of a definition without a spawn.
pub fn led(random: &mut Random, definitions: usize, choices: usize) -> File {
    let made: Vec<Definition> = (0..definitions)
        .map(|own| {
            let ways = any_ways(random, choices);
            let spawns = ways.iter().flatten().any(|way| way.child.is_some());
            let callable: Vec<usize> = (own + usize::from(spawns)..definitions).collect();
            let mut nodes = choice_nodes(&ways);
            nodes.extend((0..1 + ways.len().min(1)).map(|_| any_last(random, &callable)));
            definition(1, &[1, 0], nodes)
        })
        .collect();
    compose(&[0], 1, &made)
}

/// The ways on from some choices, up to so many. Behind them there are two places without a way on, or one if
/// there is no choice; each place is led to.
fn any_ways(random: &mut Random, most: usize) -> Vec<Vec<Way>> {
    let choices = random.within(0..=most);
    let (last, calm) = (choices + 1, random.chance(25));
    let any_choice = |place: usize| {
        let mut nexts = vec![place + 1];
        if place + 1 == choices {
            nexts.push(last);
        }
        nexts.extend((0..random.below(LED_BRANCHES - 1)).map(|_| random.within(place + 1..=last)));
        random.shuffle(&mut nexts);
        let any_way = |next: usize| {
            let child = !calm && random.chance(45);
            Way { next, child: child.then(|| random.within(place + 1..=last)) }
        };
        nexts.into_iter().map(any_way).collect()
    };
    (0..choices).map(any_choice).collect()
}

/// An end or a call.
fn any_last(random: &mut Random, callable: &[usize]) -> Node {
    match random.choose(callable).filter(|_| random.chance(70)) {
        Some(called) => call(called as i16, &[0]),
        None => Node::End,
    }
}

/// The nodes of the choices, and before each of several branches one at which the thread asks.
fn choice_nodes(choices: &[Vec<Way>]) -> Vec<Node> {
    let mut node_at = vec![0];
    for ways in choices {
        node_at.push(node_at[node_at.len() - 1] + if ways.len() > 1 { 2 } else { 1 });
    }
    node_at.push(node_at[node_at.len() - 1] + 1);
    let branch = |way: &Way| match way.child {
        Some(child) => spawn(node_at[way.next], node_at[child]),
        None => go(TAU, node_at[way.next]),
    };
    let mut nodes = Vec::new();
    for (ways, node) in choices.iter().zip(&node_at) {
        let branches: Vec<Row> = ways.iter().map(branch).collect();
        if let [branch] = branches[..] {
            nodes.push(one(branch));
            continue;
        }
        let numbered = (0..).zip(branches).map(|(number, branch)| guarded(equal_to(1, number), branch));
        nodes.push(one(go(receive(0, 1), node + 1)));
        nodes.push(Node::Choice(numbered.collect()));
    }
    nodes
}
