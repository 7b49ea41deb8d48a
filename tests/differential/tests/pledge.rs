//! What the rental-shop profile pledges, of the archive alone: from the start of a file that passes no step
//! lacks a thread row, no run ends for want of one, and there are never more threads than the bound,
//! whatever is called.

use differential::for_seeds;
use generate::rental::{self, by_digits, doublings, led, spawns_in_a_row, tamed, Case};
use generate::standstills::any_group;
use generate::{
    any_call, profiled, table_of, File, Layout, Random, Words, FREE, LIVELY, READY, STILL, WAITING,
};
use interface::{Answer, Call, LACKED_THREAD_ROW, MANY_THREADS, NO_THREAD_ROW, STATE_BYTES, THREADS};

/// Calls of a list.
const CALLS: usize = 200;

/// Of a list of calls, how many let threads become more if they can, out of a hundred; the others are any
/// calls.
const CROWDING: [usize; 3] = [0, 60, 98];

/// A file at work.
struct Bench<'a> {
    random: &'a mut Random,
    table: Vec<u8>,
    layout: Layout<'a>,
    state: Vec<u8>,
    /// The most threads so far, and how many calls have lacked a thread row.
    most: usize,
    lacked: usize,
    about: &'a str,
}

impl<'a> Bench<'a> {
    fn start(random: &'a mut Random, file: &'a File, about: &'a str) -> Bench<'a> {
        let (table, layout, state) = (table_of(&file.rows), Layout::new(file), vec![0x5a; STATE_BYTES]);
        let mut bench = Bench { random, table, layout, state, most: 0, lacked: 0, about };
        bench.make(Call::Start);
        bench
    }

    /// Makes a call on the archive. It may be refused, but not for its buffers.
    fn make(&mut self, call: Call) {
        let answer = archive::ENGINE.answer(call, &self.table, &mut self.state);
        let refusal = answer.refusal();
        assert!(![8, 9, 10].contains(&refusal), "{}: {call:?} is refused with {refusal}", self.about);
        let run_lacked = matches!(answer, Answer::Ran(ran) if ran.reason == LACKED_THREAD_ROW);
        self.lacked += usize::from(refusal == NO_THREAD_ROW || run_lacked);
        self.most = self.most.max(THREADS - Words::new(&self.state).threads(FREE).len());
    }

    /// Makes a list of calls.
    fn play(&mut self, crowding: usize) {
        for _ in 0..CALLS {
            let call = match self.random.chance(crowding) {
                true => self.crowding_step().unwrap_or_else(|| self.any_exchange()),
                false => self.any_call(),
            };
            self.make(call);
        }
    }

    fn any_call(&mut self) -> Call {
        match any_call(self.random, &self.state, self.layout.ports()) {
            Call::Start => Call::Collect,
            call => call,
        }
    }

    fn any_exchange(&mut self) -> Call {
        let port = self.random.below(self.layout.ports().max(1)) as u32;
        let number = self.random.below(4) as i32;
        self.random.pick(&[Call::Give { port, number }, Call::Take { port }])
    }

    /// A step of a thread that neither ends nor begins its definition again.
    fn crowding_step(&mut self) -> Option<Call> {
        let words = Words::new(&self.state);
        let mut moving = words.threads(READY);
        moving.retain(|thread| self.goes_on(words.thread(*thread)[1]));
        self.random.choose(&moving).map(|thread| Call::Step { thread: thread as u32 })
    }

    fn goes_on(&self, node: i32) -> bool {
        let row = self.layout.node(node);
        match row[1] {
            0 => false,
            1 => true,
            _ => self.layout.definition_of(node) != Some(row[2] as usize),
        }
    }

    /// Leads every thread into the branches that come to the most threads and none to its end, until all
    /// stand still or a thread row is lacking.
    fn lead(&mut self) {
        let best = best_branches(&self.layout);
        while self.lacked == 0 {
            let Some(call) = self.crowding_step().or_else(|| self.lead_on(&best)) else { return };
            self.make(call);
        }
    }

    /// Gives the first thread that waits the number of its best branch. It stands right before its choice.
    fn lead_on(&self, best: &[usize]) -> Option<Call> {
        let words = Words::new(&self.state);
        let asking = *words.threads(WAITING).first()?;
        let choice = words.thread(asking)[1] as usize + 1;
        Some(Call::Give { port: 0, number: best[choice] as i32 })
    }
}

/// For each node of a file whose calls are allowed, the branch that comes to the most threads.
fn best_branches(layout: &Layout) -> Vec<usize> {
    let (mut threads, mut best) = (vec![1.0; layout.nodes()], vec![0; layout.nodes()]);
    for node in (0..layout.nodes()).rev() {
        let [_, kind, number, ..] = *layout.node(node as i32);
        let own = layout.definition_of(node as i32).expect("the node is there");
        let place = |definition: usize, node: i16| layout.nodes_of(definition).start + node as usize;
        if kind == 2 && number as usize != own {
            threads[node] = threads[place(number as usize, 0)];
        }
        for branch in 0..if kind == 1 { number } else { 0 } {
            let row = layout.branch(node as i32, i32::from(branch));
            let child = if row[4] == 4 { threads[place(own, row[9])] } else { 0.0 };
            let sum: f64 = threads[place(own, row[8])] + child;
            if sum > threads[node] {
                (threads[node], best[node]) = (sum, branch as usize);
            }
        }
    }
    best
}

/// What lists of calls have met.
#[derive(Debug, Default)]
struct Met {
    /// Files that pass with several threads: those that came to just as many, and the others.
    reached: usize,
    below: usize,
    /// Files that pass and came to as many threads as there are rows.
    full: usize,
    /// Files with too high a bound, and those of them with a call that lacked a thread row.
    many: usize,
    lacked: usize,
}

impl Met {
    /// Makes some lists of calls on a file. If it passes, none exceeds its bound.
    fn add(&mut self, random: &mut Random, file: &File, about: &str) {
        let profiled = archive::profile(&table_of(&file.rows));
        let (mut most, mut lacked) = (0, 0);
        for crowding in CROWDING {
            let mut bench = Bench::start(random, file, about);
            bench.play(crowding);
            most = most.max(bench.most);
            lacked += bench.lacked;
        }
        self.many += usize::from(profiled.refusal == MANY_THREADS);
        self.lacked += usize::from(profiled.refusal == MANY_THREADS && lacked > 0);
        if profiled.refusal == 0 {
            let bound = profiled.threads as usize;
            assert_eq!(lacked, 0, "{about}: a thread row was lacking");
            assert!(most <= bound, "{about}: {most} threads, the bound is {bound}");
            self.reached += usize::from(most == bound && bound > 1);
            self.below += usize::from(most < bound);
            self.full += usize::from(most == THREADS);
        }
    }

    /// Leads the threads of a file. They come to just the bound, or else to a row that is lacking.
    fn add_led(&mut self, random: &mut Random, file: &File, about: &str) {
        let profiled = archive::profile(&table_of(&file.rows));
        let mut bench = Bench::start(random, file, about);
        bench.lead();
        match profiled.refusal {
            0 => assert_eq!((bench.most, bench.lacked), (profiled.threads as usize, 0), "{about}"),
            refusal => assert_eq!((refusal, bench.most, bench.lacked), (MANY_THREADS, THREADS, 1), "{about}"),
        }
        self.reached += usize::from(profiled.threads > 1);
        self.full += usize::from(profiled.threads as usize == THREADS);
        self.many += usize::from(profiled.refusal != 0);
    }
}

/// Files whose runs go on for long, and such as come to a standstill.
#[test]
fn lively_and_still_files() {
    let mut met = Met::default();
    for (place, profile) in LIVELY.iter().chain(&STILL).enumerate() {
        for_seeds(70_000_000 + 100_000 * place as u64, 60, |random, about| {
            let file = profiled(random, profile);
            let file = tamed(random, file);
            met.add(random, &file, &format!("{about}, {}", profile.name));
        });
    }
    for_seeds(72_000_000, 200, |random, about| {
        let file = any_group(random);
        met.add(random, &file, &format!("{about}, group"));
    });
    println!("{met:?}");
    assert!(met.reached >= 600 && met.below >= 100);
}

#[test]
fn files_of_any_size() {
    let mut met = Met::default();
    for_seeds(73_000_000, 1_000, |random, about| {
        let file = rental::any(random);
        met.add(random, &file, about);
    });
    println!("{met:?}");
    assert!(met.reached >= 80 && met.below >= 150);
}

#[test]
fn files_with_a_known_bound() {
    let mut met = Met::default();
    let random = &mut Random::new(74_000_000);
    for Case { name, file, .. } in rental::cases() {
        met.add(random, &file, &name);
    }
    println!("{met:?}");
    assert!(met.reached >= 100 && met.full >= 5 && met.lacked >= 150);
}

/// A bound that is too low or too high would be found out.
#[test]
fn files_that_the_bench_leads() {
    let mut met = Met::default();
    for_seeds(75_000_000, 3_000, |random, about| {
        let (definitions, choices) = (random.within(1..=6), random.within(1..=7));
        let file = led(random, definitions, choices);
        met.add_led(random, &file, about);
    });
    println!("{met:?}");
    assert!(met.reached >= 1_500 && met.full >= 3 && met.many >= 50);
}

/// Spawns alone, up to as many threads as there are rows and beyond.
#[test]
fn one_thread_more_than_there_are_rows() {
    let mut met = Met::default();
    let random = &mut Random::new(76_000_000);
    for bound in 1..=140_i16 {
        let doublings = (bound & (bound - 1) == 0).then(|| doublings(bound.trailing_zeros() as i16));
        let files = [spawns_in_a_row(bound), by_digits(&format!("{bound:b}"))];
        for file in files.into_iter().chain(doublings) {
            met.add_led(random, &file, &format!("{bound} threads"));
        }
    }
    println!("{met:?}");
    assert_eq!((met.reached, met.full, met.many), (2 * 63 + 6, 3, 2 * 76 + 1));
}
