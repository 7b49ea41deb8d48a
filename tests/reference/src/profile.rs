//! The rental-shop profile: which calls it allows, and how many threads a procedure can come to have.
//!
//! The bounds are told from the ends backwards. An end is known to have 1, and so is a call of a definition
//! by itself. Whatever becomes known is told to the ways that lead there; a way that has heard from all its
//! targets is known, and so is a node once all its ways are.

use interface::{Profiled, FORBIDDEN_CALL, MANY_THREADS, THREADS};

use crate::operands::{action, SPAWN};
use crate::program::Program;
use crate::sections::count;
use crate::{judge_table, no_rows, Row};

const MOST_DEFINITIONS: usize = 16;
const MOST_NODES: usize = 192;
/// A way on from each branch, and from each call.
const MOST_WAYS: usize = 384 + MOST_NODES;

/// How many threads there can be. The largest number stands for all from there on, as sums stop at it.
type Bound = u64;

/// Checks a table: the bound of definition 0 if it passes, else the ground.
pub fn profile(table: &[u8]) -> Profiled {
    match bound_of(table) {
        Ok(bound) => Profiled { refusal: 0, threads: bound as i32 },
        Err(refusal) => Profiled { refusal, threads: 0 },
    }
}

fn bound_of(table: &[u8]) -> Result<Bound, i32> {
    let mut rows = no_rows();
    let program = judge_table(table, &mut rows)?.program;
    if !calls_allowed(&program) {
        return Err(FORBIDDEN_CALL);
    }
    match Bounds::new(&program).told() {
        bound if bound > THREADS as Bound => Err(MANY_THREADS),
        bound => Ok(bound),
    }
}

/// The number of the definition that a node calls, if it is a call.
fn called(node: &Row) -> Option<usize> {
    (node[1] == 2).then(|| count(node[2]))
}

/// Every call goes to a later definition, or to its own if that never spawns.
fn calls_allowed(program: &Program) -> bool {
    let mut spawns = [false; MOST_NODES];
    for (node, branch) in program.branches() {
        spawns[node.definition.first_node] |= action(branch) == SPAWN;
    }
    program.definitions().iter().enumerate().all(|(own, definition)| {
        let repeats = !spawns[definition.first_node];
        definition.nodes.iter().filter_map(called).all(|to| to > own || to == own && repeats)
    })
}

/// A way on from a node: a branch of a choice, or a call of another definition.
struct Way {
    from: usize,
    /// Targets that it has not heard from.
    unheard: u8,
    /// The sum over those that it has.
    sum: Bound,
}

/// A way that leads to some node, and another such arrow of the same node.
#[derive(Clone, Copy)]
struct Arrow {
    way: usize,
    other: Option<usize>,
}

struct Bounds {
    ways: Vec<Way>,
    arrows: Vec<Arrow>,
    /// For each node one of the arrows that lead to it.
    led_by: [Option<usize>; MOST_NODES],
    /// For each node the ways from it that are not known, and the largest bound of those that are.
    unknown: [u8; MOST_NODES],
    largest: [Bound; MOST_NODES],
    /// Nodes that are known and have not told it.
    to_tell: Vec<usize>,
}

impl Bounds {
    /// With what is known from the beginning.
    fn new(program: &Program) -> Bounds {
        let mut bounds = Bounds {
            ways: Vec::with_capacity(MOST_WAYS),
            arrows: Vec::with_capacity(2 * MOST_WAYS),
            led_by: [None; MOST_NODES],
            unknown: [0; MOST_NODES],
            largest: [1; MOST_NODES],
            to_tell: Vec::with_capacity(MOST_NODES),
        };
        for (node, branch) in program.branches() {
            let place = |number: i16| node.definition.first_node + count(number);
            let child = (action(branch) == SPAWN).then(|| place(branch[9]));
            bounds.add_way(node.place(), place(branch[8]), child);
        }
        bounds.add_calls(program);
        bounds
    }

    /// Calls of other definitions lead to the first nodes of these. Nodes without a way on are known.
    fn add_calls(&mut self, program: &Program) {
        let mut firsts = [0; MOST_DEFINITIONS];
        for (first, definition) in firsts.iter_mut().zip(program.definitions()) {
            *first = definition.first_node;
        }
        for node in program.nodes() {
            let target = called(node.row).map(|definition| firsts[definition]);
            if let Some(target) = target.filter(|first| *first != node.definition.first_node) {
                self.add_way(node.place(), target, None);
            }
            if self.unknown[node.place()] == 0 {
                self.to_tell.push(node.place());
            }
        }
    }

    fn add_way(&mut self, from: usize, next: usize, child: Option<usize>) {
        let way = self.ways.len();
        self.ways.push(Way { from, unheard: 1 + u8::from(child.is_some()), sum: 0 });
        self.unknown[from] += 1;
        for target in [Some(next), child].into_iter().flatten() {
            let other = self.led_by[target].replace(self.arrows.len());
            self.arrows.push(Arrow { way, other });
        }
    }

    /// Tells until nobody has anything to tell. The bound of the first node, which is that of definition 0.
    fn told(mut self) -> Bound {
        while let Some(node) = self.to_tell.pop() {
            let mut arrow = self.led_by[node];
            while let Some(place) = arrow {
                let Arrow { way, other } = self.arrows[place];
                self.hear(way, self.largest[node]);
                arrow = other;
            }
        }
        self.largest[0]
    }

    /// A way hears the bound of one of its targets.
    fn hear(&mut self, way: usize, bound: Bound) {
        let Way { from, unheard, sum } = &mut self.ways[way];
        *sum = sum.saturating_add(bound);
        *unheard -= 1;
        if *unheard > 0 {
            return;
        }
        let (from, sum) = (*from, *sum);
        self.largest[from] = self.largest[from].max(sum);
        self.unknown[from] -= 1;
        if self.unknown[from] == 0 {
            self.to_tell.push(from);
        }
    }
}
