//! The calls on a table and a state, with the grounds from 8 on.
//!
//! Each call reads both buffers into structures of fixed size, works on these, and writes the state
//! once at its end: `code` is the table, `state` the state, `seats` says with grounds 18 and 19 who may do what,
//! `sound` reads the state with ground 10, `moves` and `meeting` are a step, `collect` is a collection.
//! `listing` is what the listing program prints.

mod code;
mod collect;
mod listing;
mod meeting;
mod moves;
mod seats;
mod sound;
mod state;

use interface::{
    Answer, Call, Collected, Engine, Given, Ran, Started, Stepped, Taken, ALL_STEPS, BUFFER_LENGTH,
    LACKED_CHANNEL_ROW, LACKED_THREAD_ROW, NOBODY, NONE_READY, NO_CHANNEL_ROW, NO_THREAD_ROW, PORT, STATE,
    STATE_BYTES, TABLE, THREAD, THREADS,
};

use crate::TABLE_BYTES;
use code::{Code, Direction};
pub use listing::listing;
use meeting::Offer;
use moves::Lack;
use seats::{Deed, Request};
pub use sound::Fault;
use state::State;

/// The reference's calls.
pub const ENGINE: Engine = Engine { start, step, give, take, run, collect };

/// The number of a ground.
type Ground = i32;

pub fn start(table: &[u8], state: &mut [u8]) -> Started {
    let started = with_table(table, state.len(), |code| {
        State::at_start(code).write(state);
        Ok(())
    });
    Started { refusal: started.err().unwrap_or(0) }
}

pub fn step(table: &[u8], state: &mut [u8], rights: &[u8], seat: u32, thread: u32) -> Stepped {
    make_step(table, state, Some(Request { rights, seat, deed: Deed::Step }), thread)
}

/// Gives a number to a thread that waits for one on a port.
pub fn give(table: &[u8], state: &mut [u8], rights: &[u8], seat: u32, port: u32, number: i32) -> Given {
    make_give(table, state, Some(Request { rights, seat, deed: Deed::Give { port } }), port, number)
}

/// Takes a number from a thread that waits to send one on a port.
pub fn take(table: &[u8], state: &mut [u8], rights: &[u8], seat: u32, port: u32) -> Taken {
    make_take(table, state, Some(Request { rights, seat, deed: Deed::Take { port } }), port)
}

pub fn run(table: &[u8], state: &mut [u8], rights: &[u8], seat: u32, n: u16) -> Ran {
    make_run(table, state, Some(Request { rights, seat, deed: Deed::Step }), n)
}

/// Frees the threads that nobody can wake, and the channels that only they held.
pub fn collect(table: &[u8], state: &mut [u8], rights: &[u8], seat: u32) -> Collected {
    make_collection(table, state, Some(Request { rights, seat, deed: Deed::Collect }))
}

/// The call without a look at seats.
pub fn without_seats(call: Call, table: &[u8], state: &mut [u8]) -> Answer {
    match call {
        Call::Start => Answer::Started(start(table, state)),
        Call::Step { thread } => Answer::Stepped(make_step(table, state, None, thread)),
        Call::Give { port, number } => Answer::Given(make_give(table, state, None, port, number)),
        Call::Take { port } => Answer::Taken(make_take(table, state, None, port)),
        Call::Run { n } => Answer::Ran(make_run(table, state, None, n)),
        Call::Collect => Answer::Collected(make_collection(table, state, None)),
    }
}

fn make_step(table: &[u8], state: &mut [u8], by: Option<Request>, thread: u32) -> Stepped {
    let stepped = with_both(table, state, by, |code, read, state| {
        let number = thread as usize;
        if number >= THREADS || read.ready >> number & 1 == 0 {
            return Err(THREAD);
        }
        let stepped = read.step(code, number).map_err(|lack| match lack {
            Lack::ThreadRow => NO_THREAD_ROW,
            Lack::ChannelRow => NO_CHANNEL_ROW,
        })?;
        read.write(state);
        Ok(stepped)
    });
    stepped.unwrap_or_else(|refusal| Stepped { refusal, ..Stepped::default() })
}

fn make_give(table: &[u8], state: &mut [u8], by: Option<Request>, port: u32, number: i32) -> Given {
    match meet_bench(table, state, by, (port, Direction::Receive), |slot| *slot = number) {
        Ok(met) => Given { refusal: 0, thread: thread_of(&met) },
        Err(refusal) => Given { refusal, ..Given::default() },
    }
}

fn make_take(table: &[u8], state: &mut [u8], by: Option<Request>, port: u32) -> Taken {
    let mut number = 0;
    match meet_bench(table, state, by, (port, Direction::Send), |slot| number = *slot) {
        Ok(met) => Taken { refusal: 0, thread: thread_of(&met), number },
        Err(refusal) => Taken { refusal, ..Taken::default() },
    }
}

fn make_run(table: &[u8], state: &mut [u8], by: Option<Request>, n: u16) -> Ran {
    let ran = with_both(table, state, by, |code, read, state| {
        let ran = run_steps(code, read, n, |_, _| {});
        read.write(state);
        Ok(ran)
    });
    ran.unwrap_or_else(|refusal| Ran { refusal, ..Ran::default() })
}

fn make_collection(table: &[u8], state: &mut [u8], by: Option<Request>) -> Collected {
    let collected = with_both(table, state, by, |code, read, state| {
        let threads = read.collect(code);
        read.write(state);
        Ok(Collected { refusal: 0, threads: threads as i32 })
    });
    collected.unwrap_or_else(|refusal| Collected { refusal, ..Collected::default() })
}

/// What is wrong with a state, if its table and both lengths are right.
pub fn fault(table: &[u8], state: &[u8]) -> Option<Fault> {
    let fault = with_table(table, state.len(), |code| Ok(State::new(code).read(code, state).err()));
    fault.ok().flatten()
}

/// Does the work on a table that, beside a state of so many bytes, passes grounds 8 and 9.
fn with_table<T>(
    table: &[u8],
    state_bytes: usize,
    work: impl FnOnce(&Code) -> Result<T, Ground>,
) -> Result<T, Ground> {
    if table.len() != TABLE_BYTES || state_bytes != STATE_BYTES {
        return Err(BUFFER_LENGTH);
    }
    let mut code = Code::new();
    code.read(table).ok_or(TABLE)?;
    work(&code)
}

/// Does the work on a table and a state that pass grounds 8 to 10, where the seat that asks for it, if one does,
/// has the right; whether it has comes before the state.
fn with_both<T>(
    table: &[u8],
    state: &mut [u8],
    by: Option<Request>,
    work: impl FnOnce(&Code, &mut State, &mut [u8]) -> Result<T, Ground>,
) -> Result<T, Ground> {
    if by.is_some_and(|request| !request.has_right_length()) {
        return Err(BUFFER_LENGTH);
    }
    with_table(table, state.len(), |code| {
        by.map_or(Ok(()), |request| request.judge())?;
        let mut read = State::new(code);
        read.read(code, state).map_err(|_| STATE)?;
        work(code, &mut read, state)
    })
}

/// The bench meets the first thread with an offer on a port in this direction; the exchange is made
/// on the thread's slot.
fn meet_bench(
    table: &[u8],
    state: &mut [u8],
    by: Option<Request>,
    (port, direction): (u32, Direction),
    exchange: impl FnOnce(&mut i32),
) -> Result<Option<Offer>, Ground> {
    with_both(table, state, by, |code, read, state| {
        let port = port as usize;
        if port >= code.ports {
            return Err(PORT);
        }
        let met = read.find_offer(code, port, direction, 0);
        if let Some(offer) = &met {
            exchange(&mut read.threads[offer.thread].slots[offer.value]);
            read.go_on(offer);
            read.write(state);
        }
        Ok(met)
    })
}

fn thread_of(met: &Option<Offer>) -> i32 {
    met.as_ref().map_or(NOBODY, |offer| offer.thread as i32)
}

/// Makes up to n steps, and hands on each one's thread and answer.
fn run_steps(code: &Code, state: &mut State, n: u16, mut stepped: impl FnMut(usize, &Stepped)) -> Ran {
    let stopped = |steps, reason, thread| Ran { refusal: 0, steps: i32::from(steps), reason, thread };
    for steps in 0..n {
        let Some(thread) = state.next_ready() else { return stopped(steps, NONE_READY, NOBODY) };
        state.turn = (thread + 1) % THREADS;
        match state.step(code, thread) {
            Ok(answer) => stepped(thread, &answer),
            Err(Lack::ThreadRow) => return stopped(steps, LACKED_THREAD_ROW, thread as i32),
            Err(Lack::ChannelRow) => return stopped(steps, LACKED_CHANNEL_ROW, thread as i32),
        }
    }
    stopped(n, ALL_STEPS, NOBODY)
}
