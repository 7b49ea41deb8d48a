//! Numbers, guards, calls and ends.

use generate::compose::{
    below, below_constant, call, choice, compose, definition, equal, equal_to, go, minus, new, one, plus,
    receive, set, when, Action, Guard, Node, TAU,
};
use generate::{Row, READY, WAITING};

use crate::bench::Bench;

/// Two numbers come in over a port into slots 1 and 2, and then there is a choice of these branches.
fn with_two_numbers(branches: &[Row], numbers: [i32; 2]) -> Bench {
    let nodes = vec![one(go(receive(0, 1), 1)), one(go(receive(0, 2), 2)), choice(branches), Node::End];
    let mut bench = Bench::new(&compose(&[0], 1, &[definition(1, &[1, 0, 0, 0], nodes)]));
    for number in numbers {
        assert_eq!(bench.stepped(0), (2, 0, -1));
        assert_eq!(bench.give(0, number).thread, 0);
    }
    bench
}

/// What an action puts into slot 3. If the number does not fit, the branch is passed over for a tau, and with
/// nothing behind it the thread waits and is collected.
fn reckoned(action: Action, left: i32, right: i32) -> Option<i32> {
    let mut bench = with_two_numbers(&[go(action, 3), go(TAU, 3)], [left, right]);
    let (act, branch, partner) = bench.stepped(0);
    assert_eq!((act, partner), (3, -1));
    let [_, one_kept, other_kept, result] = bench.slots(0);
    assert_eq!((one_kept, other_kept), (left, right));
    let mut alone = with_two_numbers(&[go(action, 3)], [left, right]);
    if branch == 0 {
        assert_eq!(alone.stepped(0), (3, 0, -1));
        return Some(result);
    }
    assert_eq!((branch, result), (1, 0));
    assert_eq!(alone.stepped(0), (2, 0, -1));
    assert_eq!((alone.place(0), alone.slots(0)), ((WAITING, 2), [0, left, right, 0]));
    alone.refused(0, 11);
    assert_eq!(alone.unchanged(|bench| bench.run(5)).reason, 1);
    assert_eq!(alone.collect().threads, 1);
    None
}

#[test]
fn a_sum_fits_or_is_passed_over() {
    let sum = plus(3, 1, 2);
    assert_eq!(reckoned(sum, 40, 2), Some(42));
    assert_eq!(reckoned(sum, 2_147_483_646, 1), Some(2_147_483_647));
    assert_eq!(reckoned(sum, 2_147_483_647, 1), None);
    assert_eq!(reckoned(sum, -2_147_483_647, -1), Some(-2_147_483_648));
    assert_eq!(reckoned(sum, -2_147_483_648, -1), None);
    assert_eq!(reckoned(sum, -2_147_483_648, -2_147_483_648), None);
    assert_eq!(reckoned(sum, -2_147_483_648, 2_147_483_647), Some(-1));
}

#[test]
fn a_difference_fits_or_is_passed_over() {
    let difference = minus(3, 1, 2);
    assert_eq!(reckoned(difference, 40, 42), Some(-2));
    assert_eq!(reckoned(difference, -2_147_483_647, 1), Some(-2_147_483_648));
    assert_eq!(reckoned(difference, -2_147_483_648, 1), None);
    assert_eq!(reckoned(difference, 2_147_483_647, -1), None);
    // -(-2147483648) is no number of a slot, though -1 - (-2147483648) is one.
    assert_eq!(reckoned(difference, -1, -2_147_483_648), Some(2_147_483_647));
    assert_eq!(reckoned(difference, 0, -2_147_483_648), None);
    assert_eq!(reckoned(difference, -2_147_483_648, -2_147_483_648), Some(0));
}

/// A sum that does not fit keeps nobody from the offers beside it, and its own guard may be false too.
#[test]
fn beside_a_sum_that_does_not_fit() {
    let branches = [when(below(1, 2), plus(3, 1, 2), 3), go(plus(3, 1, 2), 3), go(receive(0, 3), 3)];
    let mut bench = with_two_numbers(&branches, [i32::MAX, 1]);
    assert_eq!(bench.stepped(0), (2, 0, -1));
    assert_eq!(bench.collect().threads, 0);
    assert_eq!(bench.give(0, 9).thread, 0);
    assert_eq!((bench.place(0), bench.slots(0)), ((READY, 3), [0, i32::MAX, 1, 9]));
}

#[test]
fn a_sum_may_write_what_it_reads() {
    let nodes = vec![
        one(go(set(0, 5), 1)),
        one(go(plus(0, 0, 0), 2)),
        one(go(minus(0, 0, 0), 3)),
        one(go(set(0, -32_768), 4)),
        Node::End,
    ];
    let mut bench = Bench::new(&compose(&[], 0, &[definition(0, &[0], nodes)]));
    for expected in [5, 10, 0, -32_768] {
        bench.steps(0, 1);
        assert_eq!(bench.slots(0), [expected]);
    }
}

/// Whether a guard over two numbers lets its branch go ahead.
fn holds(guard: Guard, one_number: i32, other: i32) -> bool {
    let nodes = vec![
        one(go(receive(0, 1), 1)),
        one(go(receive(0, 2), 2)),
        choice(&[when(guard, TAU, 3), go(set(1, 9), 3)]),
        Node::End,
    ];
    let mut bench = Bench::new(&compose(&[0], 1, &[definition(1, &[1, 0, 0], nodes)]));
    for number in [one_number, other] {
        bench.steps(0, 1);
        bench.give(0, number);
    }
    let (act, branch, partner) = bench.stepped(0);
    assert_eq!((act, partner), (3, -1));
    branch == 0
}

#[test]
fn guards_compare_signed_numbers() {
    assert!(holds(equal_to(1, -3), -3, 0) && !holds(equal_to(1, -3), 65_533, 0));
    assert!(holds(below_constant(1, -3), -4, 0) && !holds(below_constant(1, -3), -3, 0));
    assert!(holds(below_constant(1, 0), i32::MIN, 0) && !holds(below_constant(1, 32_767), i32::MAX, 0));
    assert!(holds(equal(1, 2), i32::MIN, i32::MIN) && !holds(equal(1, 2), 1, 65_537));
    assert!(holds(below(1, 2), i32::MIN, i32::MAX) && !holds(below(1, 2), i32::MAX, i32::MIN));
    assert!(holds(below(1, 2), -1, 0) && !holds(below(1, 2), 0, 0));
    assert!(holds(equal(1, 1), 4, 5) && !holds(below(1, 1), 4, 5));
}

#[test]
fn a_call_may_swap_two_slots() {
    let opening =
        definition(0, &[0, 0], vec![one(go(set(0, 3), 1)), one(go(set(1, 4), 2)), call(1, &[0, 1])]);
    let swapping = definition(2, &[0, 0, 0], vec![one(go(plus(2, 0, 1), 1)), call(1, &[1, 0])]);
    let mut bench = Bench::new(&compose(&[], 0, &[opening, swapping]));
    bench.steps(0, 2);
    assert_eq!(bench.stepped(0), (1, 0, -1));
    for expected in [[3, 4, 0], [4, 3, 0], [3, 4, 0]] {
        assert_eq!((bench.place(0), bench.slots(0)), ((READY, 3), expected));
        assert_eq!(bench.stepped(0), (3, 0, -1));
        assert_eq!(bench.slots::<3>(0)[2], 7);
        assert_eq!(bench.stepped(0), (1, 0, -1));
    }
}

#[test]
fn a_call_keeps_only_its_arguments() {
    let opening = definition(
        0,
        &[1, 1, 0, 0],
        vec![one(go(new(0), 1)), one(go(new(1), 2)), one(go(set(2, 8), 3)), call(1, &[1, 2])],
    );
    let called = definition(2, &[1, 0, 1, 0], vec![Node::End]);
    let mut bench = Bench::new(&compose(&[1], 0, &[opening, called]));
    bench.steps(0, 3);
    assert_eq!((bench.channel(0), bench.channel(1)), ([1, 1, 0], [1, 1, 0]));
    assert_eq!(bench.stepped(0), (1, 0, -1));
    assert_eq!((bench.place(0), bench.slots(0)), ((READY, 4), [1, 8, -1, 0, 0, 0]));
    assert_eq!((bench.channel(0), bench.channel(1)), ([0, 0, 0], [1, 1, 0]));
}

#[test]
fn a_call_of_itself_resets_what_is_no_parameter() {
    let nodes = vec![one(go(new(0), 1)), one(go(set(1, 8), 2)), call(0, &[])];
    let mut bench = Bench::new(&compose(&[1], 0, &[definition(0, &[1, 0], nodes)]));
    for channel in 0..3 {
        bench.steps(0, 2);
        assert_eq!(bench.slots(0), [channel, 8]);
        bench.steps(0, 1);
        assert_eq!((bench.place(0), bench.slots(0)), ((READY, 0), [-1, 0]));
        assert_eq!(bench.channel(channel as usize), [0, 0, 0]);
    }
}

#[test]
fn with_all_guards_false_a_thread_waits_for_good() {
    let nodes = vec![
        one(go(set(0, 1), 1)),
        choice(&[when(equal_to(0, 2), TAU, 2), when(below(0, 0), TAU, 2)]),
        Node::End,
    ];
    let mut bench = Bench::new(&compose(&[], 0, &[definition(0, &[0], nodes)]));
    bench.steps(0, 1);
    assert_eq!(bench.stepped(0), (2, 0, -1));
    assert_eq!(bench.place(0), (WAITING, 1));
    assert_eq!(bench.unchanged(|bench| bench.run(5)).reason, 1);
    bench.refused(0, 11);
}
