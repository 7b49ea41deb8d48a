//! Spawned threads: their rows, the mark and the limit.

use generate::compose::{
    call, choice, compose, definition, equal_to, go, new, one, set, spawn, when, Node, TAU,
};
use generate::{File, FREE, READY};
use interface::LACKED_THREAD_ROW;

use crate::bench::Bench;

/// Spawns for ever; a child ends at once.
fn parent() -> File {
    compose(&[], 0, &[definition(0, &[], vec![one(spawn(1, 2)), call(0, &[]), Node::End])])
}

#[test]
fn the_mark_goes_around_and_passes_rows_in_use() {
    let mut bench = Bench::new(&parent());
    let mut expected = 1;
    for _ in 0..200 {
        assert_eq!(bench.stepped(0), (3, 0, expected));
        assert_eq!(bench.place(expected as usize), (READY, 2));
        assert_eq!(bench.front(), [(expected + 1) % 64, 0, 0]);
        assert_eq!(bench.stepped(expected as u32), (0, 0, -1));
        assert_eq!(bench.place(expected as usize), (FREE, 0));
        bench.steps(0, 1);
        expected = if expected == 63 { 1 } else { expected + 1 };
    }
}

#[test]
fn with_63_threads_a_spawn_goes_ahead_and_with_64_it_is_refused() {
    let mut bench = Bench::new(&parent());
    for child in 1..=63 {
        assert_eq!(bench.stepped(0), (3, 0, child));
        bench.steps(0, 1);
    }
    assert_eq!((bench.words().threads(READY).len(), bench.front()), (64, [0, 0, 0]));
    bench.refused(0, 13);
    assert_eq!((bench.held_up(), bench.front()), ((LACKED_THREAD_ROW, 0), [0, 0, 1]));
    assert_eq!(bench.place(0), (READY, 0));
    // A row that becomes free in the middle is found from the mark on.
    bench.steps(40, 1);
    assert_eq!((bench.stepped(0), bench.front()), ((3, 0, 40), [41, 0, 1]));
    let ran = bench.run(2);
    assert_eq!((ran.steps, ran.reason, ran.thread, bench.front()), (2, 0, -1, [41, 0, 3]));
}

#[test]
fn a_lack_ends_the_step_though_later_branches_could_go_ahead() {
    let nodes = vec![
        one(go(set(0, 1), 1)),
        choice(&[when(equal_to(0, 2), TAU, 2), spawn(2, 3), go(TAU, 3)]),
        call(1, &[0]),
        Node::End,
    ];
    let again = definition(
        1,
        &[0],
        vec![choice(&[when(equal_to(0, 2), TAU, 1), spawn(1, 2), go(TAU, 2)]), call(1, &[0]), Node::End],
    );
    let mut bench = Bench::new(&compose(&[], 0, &[definition(0, &[0], nodes), again]));
    bench.steps(0, 1);
    for child in 1..=63 {
        assert_eq!(bench.stepped(0), (3, 1, child));
        bench.steps(0, 1);
    }
    bench.refused(0, 13);
}

#[test]
fn a_child_has_a_copy_of_the_slots_and_stands_at_its_own_node() {
    let nodes =
        vec![one(go(new(0), 1)), one(go(set(2, 6), 2)), one(spawn(3, 4)), one(go(set(2, 7), 4)), Node::End];
    let mut bench = Bench::new(&compose(&[1], 0, &[definition(0, &[1, 1, 0], nodes)]));
    bench.steps(0, 2);
    assert_eq!(bench.stepped(0), (3, 0, 1));
    assert_eq!((bench.place(0), bench.place(1)), ((READY, 3), (READY, 4)));
    assert_eq!((bench.slots(0), bench.slots(1), bench.channel(0)), ([0, -1, 6], [0, -1, 6], [1, 2, 0]));
    bench.steps(0, 1);
    assert_eq!((bench.slots(0), bench.slots(1)), ([0, -1, 7], [0, -1, 6]));
}
