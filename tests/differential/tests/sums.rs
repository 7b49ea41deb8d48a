//! Sums and differences of all pairs of numbers at the ends and in the corners of a slot's range, by the archive,
//! by the reference and by the driver. What is expected is reckoned here, in 64 bits.

use differential::{Calls, List, Lists};
use generate::compose::{choice, compose, definition, go, minus, one, plus, receive, Action, Node, TAU};
use generate::{table_of, File, Layout, Random, Words, WAITING};
use interface::{Answer, Call, BRANCH, NOBODY, NONE_READY, STATE, STATE_BYTES, THREAD, WAITS};

const CORNERS: [i32; 15] = [
    i32::MIN,
    i32::MIN + 1,
    i32::MIN / 2 - 1,
    i32::MIN / 2,
    -32_769,
    -32_768,
    -1,
    0,
    1,
    32_767,
    32_768,
    i32::MAX / 2,
    i32::MAX / 2 + 1,
    i32::MAX - 1,
    i32::MAX,
];

/// The node of the sum, and the slots of the numbers.
const SUM: i32 = 2;
const NUMBERS: [usize; 2] = [1, 2];

/// A sum or difference of two numbers, which goes into a slot.
struct Case {
    one: i32,
    other: i32,
    subtract: bool,
    into: usize,
}

impl Case {
    /// The number, if it fits a slot.
    fn result(&self) -> Option<i32> {
        let (one, other) = (i64::from(self.one), i64::from(self.other));
        i32::try_from(if self.subtract { one - other } else { one + other }).ok()
    }

    /// Two numbers come in over the port; then there is the sum, and behind it perhaps a tau.
    fn file(&self, otherwise: bool) -> File {
        let [one_slot, other_slot] = NUMBERS.map(|slot| slot as i16);
        let make: fn(i16, i16, i16) -> Action = if self.subtract { minus } else { plus };
        let sum = go(make(self.into as i16, one_slot, other_slot), 3);
        let last = if otherwise { choice(&[sum, go(TAU, 3)]) } else { one(sum) };
        let nodes =
            vec![one(go(receive(0, one_slot), 1)), one(go(receive(0, other_slot), 2)), last, Node::End];
        compose(&[0], 1, &[definition(1, &[1, 0, 0, 0], nodes)])
    }

    /// The number slots before the sum, and after it.
    fn before(&self) -> [i32; 3] {
        [self.one, self.other, 0]
    }

    fn after(&self) -> [i32; 3] {
        let mut slots = self.before();
        if let Some(result) = self.result() {
            slots[self.into - 1] = result;
        }
        slots
    }
}

fn for_cases(mut test: impl FnMut(&Case, &str)) {
    for (one, other) in CORNERS.iter().flat_map(|one| CORNERS.map(|other| (*one, other))) {
        for (subtract, into) in [(false, 3), (false, 1), (true, 3), (true, 1), (true, 2)] {
            let case = Case { one, other, subtract, into };
            let sign = if subtract { '-' } else { '+' };
            test(&case, &format!("slot {into} becomes {one} {sign} {other}"));
        }
    }
}

/// The archive and the reference, on the state of one file.
struct Both<'a> {
    calls: &'a mut Calls,
    file: File,
    table: Vec<u8>,
    state: Vec<u8>,
    about: &'a str,
}

impl<'a> Both<'a> {
    /// Both numbers have come in, and the thread is ready to reckon.
    fn new(calls: &'a mut Calls, case: &Case, otherwise: bool, about: &'a str) -> Both<'a> {
        let file = case.file(otherwise);
        let table = table_of(&file.rows);
        let mut both = Both { calls, file, table, state: vec![0x5a; STATE_BYTES], about };
        both.call(Call::Start);
        for call in giving(case) {
            assert_eq!(both.call(call).refusal(), 0, "{about}");
        }
        assert_eq!(both.number_slots(), case.before(), "{about}");
        both
    }

    fn call(&mut self, call: Call) -> Answer {
        let answer = self.calls.compare(call, &self.table, &self.state, self.about);
        self.state.clone_from_slice(self.calls.state());
        answer
    }

    /// The act and the branch of a step.
    fn step(&mut self) -> (i32, i32) {
        match self.call(Call::Step { thread: 0 }) {
            Answer::Stepped(stepped) => {
                assert_eq!(
                    (stepped.refusal, stepped.node, stepped.partner),
                    (0, SUM, NOBODY),
                    "{}",
                    self.about
                );
                (stepped.act, stepped.branch)
            }
            answer => panic!("{}: {answer:?}", self.about),
        }
    }

    fn number_slots(&self) -> [i32; 3] {
        let words = Words::new(&self.state);
        std::array::from_fn(|slot| words.thread(0)[3 + slot])
    }

    /// Whether the state is sound in which the thread waits at the sum.
    fn may_wait(&mut self) -> bool {
        let mut words = Words::new(&self.state);
        words.thread_mut(0)[0] = WAITING;
        words.recount(&Layout::new(&self.file));
        let refusal =
            self.calls.compare(Call::Run { n: 0 }, &self.table, &words.to_bytes(), self.about).refusal();
        assert!([0, STATE].contains(&refusal), "{}: {refusal}", self.about);
        refusal == 0
    }
}

/// The calls that bring both numbers in.
fn giving(case: &Case) -> [Call; 4] {
    let step = Call::Step { thread: 0 };
    let give = |number| Call::Give { port: 0, number };
    [step, give(case.one), step, give(case.other)]
}

#[test]
fn a_sum_that_does_not_fit_is_passed_over() {
    let mut calls = Calls::new(archive::ENGINE);
    for_cases(|case, about| {
        let mut both = Both::new(&mut calls, case, true, about);
        assert!(!both.may_wait(), "{about}: the tau could go ahead");
        let branch = i32::from(case.result().is_none());
        assert_eq!(both.step(), (BRANCH, branch), "{about}");
        assert_eq!(both.number_slots(), case.after(), "{about}");
    });
}

#[test]
fn a_lone_sum_that_does_not_fit_waits_and_is_collected() {
    let mut calls = Calls::new(archive::ENGINE);
    let mut waited = 0;
    for_cases(|case, about| {
        let mut both = Both::new(&mut calls, case, false, about);
        assert_eq!(both.may_wait(), case.result().is_none(), "{about}");
        let act = if case.result().is_some() { BRANCH } else { WAITS };
        assert_eq!(both.step(), (act, 0), "{about}");
        assert_eq!(both.number_slots(), case.after(), "{about}");
        if act == WAITS {
            waited += 1;
            assert_eq!(both.call(Call::Step { thread: 0 }).refusal(), THREAD, "{about}");
            let ran = both.call(Call::Run { n: 5 });
            assert!(matches!(ran, Answer::Ran(ran) if ran.reason == NONE_READY && ran.steps == 0), "{about}");
            let collected = both.call(Call::Collect);
            assert!(matches!(collected, Answer::Collected(collected) if collected.threads == 1), "{about}");
        }
    });
    assert!(waited >= 200, "{waited}");
}

/// The same by runs, in whole lists of calls.
#[test]
fn lists_of_calls() {
    let mut lists = Lists::new(driver::work_list);
    let mut random = Random::new(19_000_000);
    for_cases(|case, about| {
        for otherwise in [false, true] {
            let table = table_of(&case.file(otherwise).rows);
            let mut state = vec![0x5a; STATE_BYTES];
            reference::ENGINE.answer(Call::Start, &table, &mut state);
            let mut list = List::new(&state);
            let rest = [Call::Run { n: 1 }, Call::Collect, Call::Run { n: 9 }, Call::Collect];
            for call in giving(case).into_iter().chain(rest) {
                list.push(&mut random, call, &table);
            }
            lists.compare(&list, &table, &state, list.answer_bytes(), about);
        }
    });
}
