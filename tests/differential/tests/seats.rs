//! Seats and rights: who may make which call, in which order the grounds come, and that a seat without the right is
//! told nothing of the state. All calls are made on the archive and on the reference; what is due is reckoned here.

use differential::{for_seeds, Calls, List, Lists, Traffic};
use generate::compose::{call, choice, compose, definition, go, new, one, receive, send, set, spawn, Node};
use generate::procedures::{hoarders, spawners};
use generate::{
    any_call, changed_state, entitled_caller, lacking_caller, profiled, right_to, rights_bytes, same_rights,
    table_of, wrapped_seat, Caller, File, Layout, Profile, Random, LIVELY, RIGHTS_NUMBERS, STILL,
    TABLE_BYTES,
};
use interface::{
    Answer, Call, Collected, Given, Ran, Seated, Taken, ALL_STEPS, BOTH_RIGHTS, BUFFER_LENGTH, CALLED,
    FULL_RIGHTS, NOBODY, NO_CHANNEL_ROW, NO_THREAD_ROW, PORT, PORTS, RIGHTS, RIGHTS_BYTES, SEAT, SEATS,
    SEAT_NUMBERS, STATE, STATE_BYTES, TABLE, THREAD,
};

/// The thread of [`busy`] that is always ready.
const READY_THREAD: u32 = 2;

/// What the bench gives, and what the thread of [`busy`] sends.
const NUMBER: i32 = -77;
const SENT: i16 = 5;

/// A file of so many ports. One thread comes to wait at all of them: it would receive at the even ones and send at
/// the others. Another waits on a channel that nobody else has, and a third steps for ever.
fn busy(ports: usize) -> File {
    let count = ports as i16;
    let (number, channel) = (count, count + 1);
    let at_port = |port: i16| if port % 2 == 0 { receive(port, number) } else { send(port, number) };
    let branches: Vec<_> = (0..count).map(|port| go(at_port(port), 7)).collect();
    let nodes = vec![
        one(go(set(number, SENT), 1)),
        one(spawn(2, 4)),
        one(spawn(3, 6)),
        if ports == 0 { Node::End } else { choice(&branches) },
        one(go(new(channel), 5)),
        one(go(receive(channel, number), 7)),
        call(1, &[]),
        Node::End,
    ];
    let slots = [&vec![1; ports][..], &[0, 1]].concat();
    compose(&[0], count, &[definition(count, &slots, nodes), definition(0, &[], vec![call(1, &[])])])
}

/// A table and a state, and both engines.
struct Bench {
    calls: Calls,
    table: Vec<u8>,
    state: Vec<u8>,
}

impl Bench {
    /// The state of a file after so many steps.
    fn after(file: &File, steps: u16) -> Bench {
        let mut bench = Bench {
            calls: Calls::new(archive::ENGINE),
            table: table_of(&file.rows),
            state: vec![0x5a; STATE_BYTES],
        };
        for call in [Call::Start, Call::Run { n: steps }] {
            assert_eq!(bench.ground(call), 0);
            bench.state = bench.calls.state().to_vec();
        }
        bench
    }

    /// Two threads of a busy file wait, and the third is ready.
    fn busy(ports: usize) -> Bench {
        Bench::after(&busy(ports), 12)
    }

    /// The state with a mark out of range.
    fn unsound(&self) -> Vec<u8> {
        let mut state = self.state.clone();
        state[0] = 200;
        state
    }

    /// Makes the call, and answers its ground, or 0.
    fn ground<'a>(&mut self, call: impl Into<Seated<'a>>) -> i32 {
        let (table, state) = (self.table.clone(), self.state.clone());
        self.ground_on(call.into(), &table, &state)
    }

    /// The same on another table and state. Where the seat has the right, everything is as without seats.
    fn ground_on(&mut self, seated: Seated, table: &[u8], state: &[u8]) -> i32 {
        let about = format!("{:?} by seat {}", seated.call, seated.seat);
        let answer = self.calls.compare(seated, table, state, &about);
        if ![BUFFER_LENGTH, TABLE, RIGHTS, SEAT].contains(&answer.refusal()) {
            let mut plain = state.to_vec();
            assert_eq!(answer, reference::without_seats(seated.call, table, &mut plain), "{about}");
            assert!(self.calls.state() == plain, "{about}: another state");
        }
        answer.refusal()
    }

    /// Each of these callers comes to this ground.
    fn expect(&mut self, call: Call, callers: impl IntoIterator<Item = Caller>, ground: i32, about: &str) {
        for caller in callers {
            let met = self.ground(caller.makes(call));
            assert_eq!(met, ground, "{call:?} by seat {}, {about}", caller.seat);
        }
    }
}

/// All calls of a seat: those on the bench as a whole, and both on each port. On a busy file all are done.
fn all_calls() -> Vec<Call> {
    let mut calls = vec![Call::Step { thread: READY_THREAD }, Call::Run { n: 3 }, Call::Collect];
    for port in 0..PORTS as u32 {
        calls.extend([Call::Give { port, number: NUMBER }, Call::Take { port }]);
    }
    calls
}

fn all_calls_of_all_seats() -> Vec<(Call, u32)> {
    all_calls().into_iter().flat_map(|call| (0..SEATS as u32).map(move |seat| (call, seat))).collect()
}

/// One list with this number at the place that a call of the seat needs, and another number everywhere else.
fn with_entry(call: Call, seat: u32, number: i32, elsewhere: i32) -> Caller {
    let (place, _) = right_to(call).expect("there is such a right");
    let mut numbers = same_rights(elsewhere);
    numbers[seat as usize * SEAT_NUMBERS + place] = number;
    Caller::new(&numbers, seat)
}

fn full(seat: u32) -> Caller {
    Caller { rights: FULL_RIGHTS.to_vec(), seat }
}

/// The calls on a busy file do something: otherwise a right would be of little use in the tests below.
#[test]
fn a_busy_bench() {
    let Bench { mut calls, table, state } = Bench::busy(PORTS);
    let mut answer = |call: Call| calls.compare(call, &table, &state, "busy");
    for port in 0..PORTS as u32 {
        let thread = if port % 2 == 0 { 0 } else { NOBODY };
        let given = Given { refusal: 0, thread };
        assert_eq!(answer(Call::Give { port, number: NUMBER }), Answer::Given(given));
        let taken = match thread {
            0 => Taken { refusal: 0, thread: NOBODY, number: 0 },
            _ => Taken { refusal: 0, thread: 0, number: i32::from(SENT) },
        };
        assert_eq!(answer(Call::Take { port }), Answer::Taken(taken));
    }
    assert_eq!(answer(Call::Collect), Answer::Collected(Collected { refusal: 0, threads: 1 }));
    let ran = Ran { refusal: 0, steps: 3, reason: ALL_STEPS, thread: NOBODY };
    assert_eq!(answer(Call::Run { n: 3 }), Answer::Ran(ran));
    let step = answer(Call::Step { thread: READY_THREAD });
    assert!(matches!(step, Answer::Stepped(stepped) if stepped.act == CALLED && stepped.refusal == 0));
}

/// Every number that an entry can be, and some that it cannot, where all other entries are 0 and where all are 3.
#[test]
fn every_number_of_an_entry() {
    let mut bench = Bench::busy(PORTS);
    let wrong = [-1, 4, 5, 7, 256, 1 << 16, 1 << 24, 3 << 30, i32::MIN, i32::MIN + 1, i32::MAX];
    for (call, seat) in all_calls_of_all_seats() {
        let (_, right) = right_to(call).expect("there is such a right");
        for elsewhere in [0, BOTH_RIGHTS] {
            for number in 0..=BOTH_RIGHTS {
                let due = if number & right == 0 { SEAT } else { 0 };
                let about = format!("{number} among {elsewhere}");
                bench.expect(call, [with_entry(call, seat, number, elsewhere)], due, &about);
            }
            for number in wrong {
                let about = format!("{number} among {elsewhere}");
                bench.expect(call, [with_entry(call, seat, number, elsewhere)], RIGHTS, &about);
            }
        }
    }
}

/// The right of another seat, the next one too, on another port, or to the other of two calls is of no help; and a
/// wrong number is one wherever it stands.
#[test]
fn no_other_entry_helps() {
    let mut bench = Bench::busy(PORTS);
    for (call, seat) in all_calls_of_all_seats() {
        let (place, right) = right_to(call).expect("there is such a right");
        let own = seat as usize * SEAT_NUMBERS + place;
        for entry in 0..RIGHTS_NUMBERS {
            let mut numbers = same_rights(0);
            numbers[entry] = BOTH_RIGHTS;
            let due = if entry == own { 0 } else { SEAT };
            bench.expect(call, [Caller::new(&numbers, seat)], due, &format!("all of entry {entry}"));
            let mut numbers = same_rights(BOTH_RIGHTS);
            numbers[entry] = if entry == own { BOTH_RIGHTS - right } else { 0 };
            let due = if entry == own { SEAT } else { 0 };
            bench.expect(call, [Caller::new(&numbers, seat)], due, &format!("all but of entry {entry}"));
            numbers[entry] = 4;
            bench.expect(call, [Caller::new(&numbers, seat)], RIGHTS, &format!("4 at entry {entry}"));
        }
    }
}

/// Beyond seat 7 there is none, also where nine times the seat, or the place in bytes, comes round in 32 bits to one
/// inside the list.
#[test]
fn seats_that_there_are_not() {
    let mut bench = Bench::busy(PORTS);
    for call in all_calls() {
        let (place, _) = right_to(call).expect("there is such a right");
        bench.expect(call, (0..SEATS as u32).map(full), 0, "a seat that there is");
        let mut seats: Vec<u32> = vec![8, 9, 63, 64, 71, 72, 255, 256, 287, 288, u32::MAX];
        for bit in 3..32 {
            seats.extend((0..SEATS as u32).map(|seat| seat | 1 << bit));
        }
        for entry in 0..RIGHTS_NUMBERS {
            let round = wrapped_seat(entry.wrapping_sub(place));
            assert_eq!(round.wrapping_mul(9).wrapping_add(place as u32), entry as u32);
            seats.extend((0..4).map(|quarter: u32| round.wrapping_add(quarter << 30)));
        }
        seats.retain(|seat| *seat as usize >= SEATS);
        assert!(seats.len() > 500, "{}", seats.len());
        bench.expect(call, seats.into_iter().map(full), SEAT, "no such seat");
    }
}

#[test]
fn lists_of_another_length() {
    let mut bench = Bench::busy(PORTS);
    let lengths = [0, 1, 4, 36, 252, 284, 285, 287, 289, 291, 292, 576, STATE_BYTES, TABLE_BYTES];
    for call in all_calls() {
        for (seat, length) in [0, 7, 8].into_iter().flat_map(|seat| lengths.map(|length| (seat, length))) {
            for number in [0, BOTH_RIGHTS, -1] {
                let mut rights = rights_bytes(&vec![number; length / 4 + 1]);
                rights.truncate(length);
                bench.expect(call, [Caller { rights, seat }], BUFFER_LENGTH, &format!("{length} bytes"));
            }
        }
    }
}

/// A call on a port, with the right and without it, on a sound state and on another.
fn expect_port(bench: &mut Bench, call: Call, seat: u32, due: i32) {
    let (table, unsound) = (bench.table.clone(), bench.unsound());
    bench.expect(call, [full(seat)], due, "with all rights");
    let on_unsound = if due == SEAT { SEAT } else { STATE };
    assert_eq!(bench.ground_on(full(seat).makes(call), &table, &unsound), on_unsound, "{call:?}");
    if right_to(call).is_some() {
        let lacking = with_entry(call, seat, 0, BOTH_RIGHTS);
        assert_eq!(bench.ground_on(lacking.makes(call), &table, &unsound), SEAT, "{call:?}");
        bench.expect(call, [lacking], SEAT, "with all rights but this");
    }
}

/// Ports that the file has are done, others below 8 are told with the right, and above 7 there is no right,
/// whatever number of the list the port would come to.
#[test]
fn ports_of_every_number() {
    for ports in 0..=PORTS {
        let mut bench = Bench::busy(ports);
        for seat in 0..SEATS as u32 {
            let first = seat * SEAT_NUMBERS as u32;
            let others = (0..RIGHTS_NUMBERS as u32).map(|entry| entry.wrapping_sub(first));
            for port in others.chain([255, 256, 1 << 30, 1 << 31, u32::MAX]) {
                let due = match port as usize {
                    port if port < ports => 0,
                    port if port < PORTS => PORT,
                    _ => SEAT,
                };
                expect_port(&mut bench, Call::Give { port, number: NUMBER }, seat, due);
                expect_port(&mut bench, Call::Take { port }, seat, due);
            }
        }
    }
}

/// Everything that can be wrong with a call, in the order in which it is looked for.
const ORDER: [i32; 5] = [BUFFER_LENGTH, TABLE, RIGHTS, SEAT, STATE];

/// Ways for a ground to hold: which buffer has the wrong length, whose number is wrong, what the seat lacks.
#[derive(Clone, Copy)]
struct Ways {
    length: usize,
    number: usize,
    lacks: usize,
}

impl Ways {
    fn all() -> impl Iterator<Item = Ways> {
        (0..16).map(|way| Ways { length: way / 4, number: way / 2 % 2, lacks: way % 2 })
    }

    /// Makes the call with just these of the grounds of [`ORDER`] holding, one bit for each.
    fn ground(self, bench: &mut Bench, call: Call, holding: usize) -> i32 {
        let holds =
            |ground: i32| holding >> ORDER.iter().position(|other| *other == ground).unwrap() & 1 == 1;
        let mut table = bench.table.clone();
        let mut state = if holds(STATE) { bench.unsound() } else { bench.state.clone() };
        let (place, right) = right_to(call).expect("there is such a right");
        let (mut numbers, mut seat, own) = (same_rights(BOTH_RIGHTS), 4, 4 * SEAT_NUMBERS + place);
        if holds(TABLE) {
            table[TABLE_BYTES - 1] ^= 1;
        }
        if holds(SEAT) && self.lacks == 0 {
            numbers[own] -= right;
        } else if holds(SEAT) {
            seat = 8;
        }
        if holds(RIGHTS) {
            numbers[[own, (own + 9) % RIGHTS_NUMBERS][self.number]] = -1;
        }
        let mut caller = Caller::new(&numbers, seat);
        if holds(BUFFER_LENGTH) {
            match self.length {
                0 => table.push(0),
                1 => state.truncate(STATE_BYTES - 4),
                2 => caller.rights.truncate(RIGHTS_BYTES - 4),
                _ => caller.rights.extend([3, 0, 0, 0]),
            }
        }
        bench.ground_on(caller.makes(call), &table, &state)
    }
}

/// 8, 9, 18, 19, 10 and then the ground of the call's own: for every set of grounds that hold at once the first of
/// them is answered.
#[test]
fn the_order_of_the_grounds() {
    let step = |thread| Call::Step { thread };
    let give = |port| Call::Give { port, number: NUMBER };
    let cases = [
        (Bench::busy(2), vec![(step(READY_THREAD), 0), (step(99), THREAD), (step(0), THREAD)]),
        (Bench::busy(2), vec![(give(0), 0), (give(7), PORT), (Call::Take { port: 2 }, PORT)]),
        (Bench::busy(2), vec![(Call::Run { n: 0 }, 0), (Call::Run { n: 9 }, 0), (Call::Collect, 0)]),
        (Bench::after(&spawners(), 60_000), vec![(step(0), NO_THREAD_ROW)]),
        (Bench::after(&hoarders(), 60_000), vec![(step(0), NO_CHANNEL_ROW)]),
    ];
    for (mut bench, calls) in cases {
        for (call, own) in calls {
            for (holding, ways) in
                (0..1_usize << ORDER.len()).flat_map(|set| Ways::all().map(move |ways| (set, ways)))
            {
                let first = ORDER.get(holding.trailing_zeros() as usize).copied();
                let met = ways.ground(&mut bench, call, holding);
                assert_eq!(met, first.unwrap_or(own), "{call:?}, holding {holding:05b}");
            }
        }
    }
}

/// Some file, with a state that calls have led to.
fn begun(random: &mut Random) -> (File, Vec<u8>, Vec<u8>) {
    let profiles: Vec<&Profile> = LIVELY.iter().chain(&STILL).collect();
    let profile = random.pick(&profiles);
    let file = profiled(random, profile);
    let (table, mut state) = (table_of(&file.rows), vec![0x5a; STATE_BYTES]);
    reference::start(&table, &mut state);
    let most = random.pick(&[40, 300, 4_000]);
    reference::without_seats(Call::Run { n: random.below(most) as u16 }, &table, &mut state);
    (file, table, state)
}

/// Another state: one that a change has led to, sound or not, that of another file, or no state at all.
fn another(random: &mut Random, layout: &Layout, state: &[u8]) -> Vec<u8> {
    match random.below(4) {
        0 => begun(random).2,
        1 => vec![random.byte(); STATE_BYTES],
        _ => changed_state(random, layout, state),
    }
}

/// Some call other than a start.
fn any_seated_call(random: &mut Random, state: &[u8], ports: usize) -> Call {
    match any_call(random, state, ports) {
        Call::Start => Call::Collect,
        call => call,
    }
}

/// Two states under one table: a seat without the right is told the same of both, and nothing changes; with the
/// right they are told apart as without seats.
#[test]
fn a_seat_without_the_right_tells_no_states_apart() {
    let (mut calls, mut traffic) = (Calls::new(archive::ENGINE), Traffic::default());
    for_seeds(21_000_000, 6_000, |random, about| {
        let (file, table, state) = begun(random);
        let layout = Layout::new(&file);
        let states = [another(random, &layout, &state), state];
        let call = any_seated_call(random, &states[1], layout.ports());
        let lacking = lacking_caller(random, call);
        let [one, other] =
            states.each_ref().map(|state| calls.compare(lacking.makes(call), &table, state, about));
        assert_eq!((one, one.refusal()), (other, SEAT), "{about}: {call:?}");
        let entitled = entitled_caller(random, call);
        let [one, other] = states.each_ref().map(|state| {
            let mut plain = state.clone();
            let answer = calls.count(&mut traffic, entitled.makes(call), &table, state, about);
            if right_to(call).is_some() {
                assert_eq!(answer, reference::without_seats(call, &table, &mut plain), "{about}: {call:?}");
            }
            assert!(calls.state() == plain, "{about}: {call:?}");
            answer
        });
        traffic.note("told apart", i32::from(one != other));
    });
    traffic.print();
    traffic.expect("told apart", [0, 1], 1_000);
    for (name, own) in [("step", THREAD), ("give", PORT), ("take", PORT), ("run", STATE), ("collect", STATE)]
    {
        traffic.expect(name, [0, STATE, own], 100);
    }
    traffic.expect("step", [NO_THREAD_ROW], 20);
}

/// The states of a list of calls in which every call names another seat and another list are those of the calls
/// that had the right, made without seats; the driver comes to the same.
#[test]
fn calls_without_the_right_leave_no_trace() {
    let (mut lists, mut refused, mut done) = (Lists::new(driver::work_list), 0, 0);
    for_seeds(22_000_000, 400, |random, about| {
        let (file, table, state) = begun(random);
        let ports = file.size.ports;
        let (mut list, mut plain) = (List::new(&state), state.clone());
        for _ in 0..60 {
            let call = any_seated_call(random, &plain, ports);
            if random.chance(40) {
                let caller = lacking_caller(random, call);
                assert_eq!(
                    list.push(random, caller.makes(call), &table).refusal(),
                    SEAT,
                    "{about}: {call:?}"
                );
                refused += 1;
            } else if right_to(call).is_some() {
                let caller = entitled_caller(random, call);
                let answer = list.push(random, caller.makes(call), &table);
                assert_eq!(answer, reference::without_seats(call, &table, &mut plain), "{about}: {call:?}");
                done += usize::from(answer.refusal() == 0);
            }
            assert!(list.state() == plain, "{about}: {call:?}");
        }
        lists.compare(&list, &table, &state, list.answer_bytes(), about);
    });
    assert!(refused >= 8_000 && done >= 8_000, "{refused} without the right, {done} done");
}
