//! Files whose calls go up, to themselves or down.

use super::bounds::row_of_spawns;
use super::{plain_file, Case};
use crate::compose::{
    call, choice, compose, definition, equal_to, go, guarded, new, one, receive, send, set, spawn, Node, TAU,
};
use crate::file::{File, Row};

const DEFINITIONS: i16 = 16;

/// A definition that comes to so many threads and then ends or goes on with this node, in all of them.
fn spawning(threads: i16, last: Node) -> Vec<Node> {
    let mut nodes = row_of_spawns(0, threads);
    nodes.pop();
    nodes.push(last);
    nodes
}

/// One spawn, after which both threads stand at this node.
fn doubled(last: Node) -> Vec<Node> {
    vec![one(spawn(1, 1)), last]
}

/// One spawn, after which the parent stands at this node and the child ends.
fn with_child(last: Node) -> Vec<Node> {
    vec![one(spawn(1, 2)), last, Node::End]
}

/// Sixteen definitions, each calling the next; how each goes there is said by its number.
fn through_all(definition: impl Fn(i16, Node) -> Vec<Node>) -> File {
    let last = |own: i16| if own + 1 < DEFINITIONS { call(own + 1, &[]) } else { Node::End };
    plain_file((0..DEFINITIONS).map(|own| definition(own, last(own))).collect())
}

/// Sixteen definitions that end, but for these.
fn among_sixteen(others: Vec<(usize, Vec<Node>)>) -> File {
    let mut definitions = vec![vec![Node::End]; DEFINITIONS as usize];
    for (number, nodes) in others {
        definitions[number] = nodes;
    }
    plain_file(definitions)
}

fn upward() -> Vec<Case> {
    let mut cases = vec![
        Case::passes("through all, a child in each", through_all(|_, last| with_child(last)), 17),
        Case::many("through all, all doubling", through_all(|_, last| doubled(last))),
    ];
    for doubling in 0..=8 {
        let file = through_all(|own, last| if own < doubling { doubled(last) } else { vec![last] });
        cases.push(Case::bounded(format!("through all, {doubling} doubling"), file, 1 << doubling));
        let and_one = through_all(|own, last| match own {
            own if own < doubling => doubled(last),
            15 => with_child(last),
            _ => vec![last],
        });
        let name = format!("through all, {doubling} doubling and a child");
        cases.push(Case::bounded(name, and_one, 2 << doubling));
    }
    for called in 1..DEFINITIONS {
        for threads in [1, 2, 63, 64, 65, 66] {
            let definitions =
                vec![(0, vec![call(called, &[])]), (called as usize, row_of_spawns(0, threads))];
            let name = format!("a call of {called} with {threads}");
            cases.push(Case::bounded(name, among_sixteen(definitions), threads as usize));
        }
    }
    cases.extend(together());
    cases
}

/// Calls of several definitions by one, and what their bounds come to.
fn together() -> Vec<Case> {
    // Children that call one definition, and the parent another.
    let parted = |of_parent: i16, of_child: i16| {
        plain_file(vec![
            vec![one(spawn(1, 2)), call(1, &[]), call(2, &[])],
            row_of_spawns(0, of_parent),
            row_of_spawns(0, of_child),
        ])
    };
    // Two branches, each to a call.
    let either = |one_bound: i16, other: i16| {
        plain_file(vec![
            vec![choice(&[go(TAU, 1), go(TAU, 2)]), call(1, &[]), call(2, &[])],
            row_of_spawns(0, one_bound),
            row_of_spawns(0, other),
        ])
    };
    let mut cases = Vec::new();
    for (first, second) in [(1, 1), (32, 31), (32, 32), (32, 33), (1, 63), (64, 1), (2, 64)] {
        let (least, most) = (first.min(second) as usize, first.max(second) as usize);
        cases.push(Case::bounded(format!("{first} and {second}"), parted(first, second), least + most));
        cases.push(Case::bounded(format!("{first} or {second}"), either(first, second), most));
    }
    cases
}

/// Definitions that call themselves.
fn repeating() -> Vec<Case> {
    let again = |own: i16| vec![one(go(TAU, 1)), call(own, &[])];
    // It comes to so many threads in another definition, or begins again.
    let leaving = |bound: i16| {
        plain_file(vec![
            vec![choice(&[go(TAU, 1), go(TAU, 2)]), call(0, &[]), call(1, &[])],
            row_of_spawns(0, bound),
        ])
    };
    let mut cases = vec![
        Case::passes("one node that calls itself", plain_file(vec![vec![call(0, &[])]]), 1),
        Case::passes("a definition that calls itself", plain_file(vec![again(0)]), 1),
        // The neighbours spawn, the one between them does not.
        Case::passes(
            "between definitions that spawn",
            plain_file(vec![doubled(call(1, &[])), again(1), row_of_spawns(0, 5)]),
            2,
        ),
        Case::forbidden(
            "between definitions that do not spawn",
            plain_file(vec![again(0), doubled(call(1, &[])), again(2)]),
        ),
        Case::passes("16 that call themselves", through_all(|own, _| again(own)), 1),
    ];
    for bound in [1, 2, 64, 65] {
        cases.push(Case::bounded(format!("again, or {bound} threads"), leaving(bound), bound as usize));
    }
    cases
}

/// A spawn stands somewhere in a definition that calls itself.
fn repeating_spawners() -> Vec<Case> {
    let itself = || call(0, &[]);
    let never = |branch: Row| guarded(equal_to(0, 1), branch);
    let closed = vec![one(go(set(0, 0), 1)), choice(&[never(spawn(2, 3)), go(TAU, 3)]), Node::End, itself()];
    let definitions = [
        ("the parent calls", with_child(itself())),
        ("the child calls", vec![one(spawn(2, 1)), itself(), Node::End]),
        ("both call", doubled(itself())),
        ("the call comes by another branch", vec![choice(&[spawn(1, 1), go(TAU, 2)]), Node::End, itself()]),
        ("the spawn is the last branch", {
            vec![choice(&[go(TAU, 1), go(TAU, 2), spawn(1, 1)]), itself(), Node::End]
        }),
        ("the spawn stands behind the call", {
            vec![choice(&[go(TAU, 1), go(TAU, 2)]), itself(), one(spawn(3, 3)), Node::End]
        }),
    ];
    let mut cases: Vec<Case> =
        definitions.into_iter().map(|(name, nodes)| Case::forbidden(name, plain_file(vec![nodes]))).collect();
    let closed = compose(&[], 0, &[definition(0, &[0], closed)]);
    cases.push(Case::forbidden("the spawn's guard is never true", closed));
    for own in 1..DEFINITIONS {
        let nodes = doubled(call(own, &[]));
        let reached = vec![(0, vec![call(own, &[])]), (own as usize, nodes.clone())];
        cases.push(Case::forbidden(format!("{own} spawns and calls itself"), among_sixteen(reached)));
        let apart = vec![(own as usize, nodes)];
        cases.push(Case::forbidden(format!("{own}, which nobody calls, does"), among_sixteen(apart)));
    }
    cases
}

fn downward() -> Vec<Case> {
    let mut cases = Vec::new();
    for own in 1..DEFINITIONS {
        for called in 0..own {
            let nodes = vec![call(called, &[])];
            let reached = vec![(0, vec![call(own, &[])]), (own as usize, nodes.clone())];
            cases.push(Case::forbidden(format!("{own} calls {called}"), among_sixteen(reached)));
            let apart = vec![(own as usize, nodes)];
            cases.push(Case::forbidden(
                format!("{own}, which nobody calls, calls {called}"),
                among_sixteen(apart),
            ));
        }
    }
    // The first call of its definition is right, the second is not.
    let second = vec![choice(&[go(TAU, 1), go(TAU, 2)]), call(2, &[]), call(0, &[])];
    cases.push(Case::forbidden(
        "the second call goes down",
        plain_file(vec![vec![call(1, &[])], second, vec![Node::End]]),
    ));
    let many = plain_file(vec![spawning(65, call(1, &[])), vec![call(0, &[])]]);
    cases.push(Case::forbidden("a call down, and too many threads", many));
    cases
}

/// Only the bound of definition 0 counts, whatever the others have.
fn apart() -> Vec<Case> {
    vec![
        Case::passes(
            "66 threads in a definition that nobody calls",
            among_sixteen(vec![(0, row_of_spawns(0, 3)), (9, row_of_spawns(0, 66))]),
            3,
        ),
        Case::passes(
            "66 threads beyond a definition that nobody calls",
            among_sixteen(vec![(3, doubled(call(9, &[]))), (9, row_of_spawns(0, 66))]),
            1,
        ),
        Case::many(
            "66 threads beyond two calls",
            among_sixteen(vec![(0, vec![call(3, &[])]), (3, vec![call(9, &[])]), (9, row_of_spawns(0, 66))]),
        ),
    ]
}

/// Calls with arguments, between definitions with types, slots and ports: the opening starts two workers, and
/// each of the three threads goes on in a definition that calls itself.
pub fn with_arguments() -> File {
    let opening = vec![
        one(go(new(1), 1)),
        one(go(set(2, 7), 2)),
        one(spawn(3, 5)),
        one(spawn(4, 5)),
        call(1, &[0, 1, 2]),
        call(2, &[2, 1]),
    ];
    let keeper = vec![one(go(receive(0, 2), 1)), one(go(send(1, 2), 2)), call(1, &[0, 1, 2])];
    let worker = vec![one(go(receive(1, 0), 1)), call(2, &[0, 1])];
    let definitions = [
        definition(1, &[1, 1, 0], opening),
        definition(3, &[1, 1, 0], keeper),
        definition(2, &[0, 1], worker),
    ];
    compose(&[0], 1, &definitions)
}

pub fn calls() -> Vec<Case> {
    let mut cases = vec![Case::passes("calls with arguments", with_arguments(), 3)];
    let groups = [upward(), repeating(), repeating_spawners(), downward(), apart()];
    cases.extend(groups.into_iter().flatten());
    cases
}
