//! A procedure at work.

use pithread_header::{
    ALL_STEPS, BRANCH, CALLED, ENDED, LACKED_CHANNEL_ROW, LACKED_THREAD_ROW, NONE_READY, RIGHTS_BYTES,
    STATE_BYTES, WAITS,
};

use crate::{raw, Refusal, Rights, Seat, State, Table};

/// What a step did.
#[derive(Clone, Copy, Debug, PartialEq, Eq, Hash)]
pub enum Act {
    /// The thread came to its end, and its row is free.
    Ended,
    /// The thread went on at the first node of the definition that it calls.
    Called,
    /// No branch of the choice could go ahead: the thread waits.
    Waits,
    /// A branch of the choice was taken.
    Branch {
        /// Which one, counted from 0 in its choice.
        branch: u32,
        /// The thread that was met, or the one that was started.
        partner: Option<u32>,
    },
}

/// A step that was made.
#[derive(Clone, Copy, Debug, PartialEq, Eq, Hash)]
pub struct Stepped {
    /// Where the thread stood before, counted from 0 over the whole file.
    pub node: u32,
    /// What it did.
    pub act: Act,
}

/// A number that was taken.
#[derive(Clone, Copy, Debug, PartialEq, Eq, Hash)]
pub struct Taken {
    /// The thread that sent it.
    pub thread: u32,
    /// The number.
    pub number: i32,
}

/// Why a run came to its end.
#[derive(Clone, Copy, Debug, PartialEq, Eq, Hash)]
pub enum Reason {
    /// It made as many steps as it was asked for.
    AllSteps,
    /// No thread is ready: all have ended or wait.
    NoneReady,
    /// A thread would start another one, and all thread rows are taken.
    LackedThreadRow {
        /// That thread.
        thread: u32,
    },
    /// A thread would make a channel, and all channel rows are taken.
    LackedChannelRow {
        /// That thread.
        thread: u32,
    },
}

/// A run that was made.
#[derive(Clone, Copy, Debug, PartialEq, Eq, Hash)]
pub struct Ran {
    /// How many steps.
    pub steps: u32,
    /// Why there were no more.
    pub reason: Reason,
}

/// A table and the state that the calls so far have led to.
///
/// The state is sound from the beginning, and every call keeps it so. Calls that move it on are made from a seat:
/// [`Bench::at`] lends the bench to one.
#[derive(Clone, Debug, PartialEq, Eq)]
pub struct Bench {
    table: Table,
    state: State,
}

impl Bench {
    /// Loads a procedure file and starts it. The grounds of its refusal are 1 to 7.
    pub fn load(file: &[u8]) -> Result<Bench, Refusal> {
        Bench::start(Table::load(file)?)
    }

    /// Thread 0 stands ready at the first node, with the ports in its parameters. Never refused.
    pub fn start(table: Table) -> Result<Bench, Refusal> {
        let mut state = State { bytes: Box::new([0; STATE_BYTES]) };
        let started = raw::start(table.as_bytes(), &mut state.bytes[..]);
        Refusal::unless_done(started.refusal, 0)?;
        Ok(Bench { table, state })
    }

    /// Goes on from a state that was kept as bytes. It is checked: refused with ground 8 for another length
    /// and with ground 10 if the state is not a sound one for the table.
    ///
    /// ```
    /// use pithread::{Bench, Refusal, Rights, Seat};
    ///
    /// let mut bench = Bench::load(&std::fs::read("../../examples/doubler.txt")?)?;
    /// bench.at(&Rights::FULL, Seat::ALL[0]).run(10)?;
    /// let kept = bench.state().as_bytes().to_vec();
    ///
    /// let again = Bench::resume(bench.table().clone(), &kept)?;
    /// assert_eq!(again, bench);
    ///
    /// let damaged = vec![0xff; kept.len()];
    /// assert_eq!(Bench::resume(bench.table().clone(), &damaged), Err(Refusal::State));
    /// # Ok::<(), Box<dyn std::error::Error>>(())
    /// ```
    pub fn resume(table: Table, state: &[u8]) -> Result<Bench, Refusal> {
        let bytes = Box::new(state.try_into().map_err(|_| Refusal::BufferLength)?);
        let mut bench = Bench { table, state: State { bytes } };
        // A run of no steps changes nothing, and judges the state as every call of a seat with the right does.
        bench.at(&Rights::FULL, Seat::ALL[0]).run(0)?;
        Ok(bench)
    }

    /// The table.
    pub fn table(&self) -> &Table {
        &self.table
    }

    /// The state that the calls so far have led to.
    pub fn state(&self) -> &State {
        &self.state
    }

    /// The table and the state as the calls take them.
    fn buffers(&mut self) -> (&[u8], &mut [u8]) {
        (self.table.as_bytes(), &mut self.state.bytes[..])
    }

    /// Lends the bench to a seat, which may do what the rights say. The next call may name another seat and other
    /// rights.
    ///
    /// ```
    /// use pithread::{Bench, PortRight, Refusal, Rights, Seat, SeatRights};
    ///
    /// let [leader, trainee, ..] = Seat::ALL;
    /// let mut rights = Rights::NONE;
    /// rights[leader] = SeatRights::FULL;
    /// rights[trainee].ports[1] = PortRight::Take;
    ///
    /// let mut bench = Bench::load(&std::fs::read("../../examples/doubler.txt")?)?;
    /// bench.at(&rights, leader).run(10)?;
    /// assert_eq!(bench.at(&rights, trainee).give(0, 4), Err(Refusal::Seat));
    /// assert_eq!(bench.at(&rights, trainee).take(1), Ok(None));
    /// # Ok::<(), Box<dyn std::error::Error>>(())
    /// ```
    pub fn at(&mut self, rights: &Rights, seat: Seat) -> AtSeat<'_> {
        AtSeat { bench: self, rights: rights.to_bytes(), seat: seat.number() }
    }
}

/// A bench that is lent to a seat.
///
/// A call that the seat has no right to is refused with ground 19, whatever the state. No call is refused with 8,
/// 9, 10 or 18; with which others it may be is said at each.
#[derive(Debug)]
pub struct AtSeat<'a> {
    bench: &'a mut Bench,
    rights: [u8; RIGHTS_BYTES],
    seat: u32,
}

impl AtSeat<'_> {
    /// Lets one ready thread make one step. Refused with ground 19 if the seat may not step, with 11 if there is
    /// no such thread or it is not ready, with 13 or 14 if it lacks a row; it can be stepped again once a row is
    /// free.
    pub fn step(&mut self, thread: u32) -> Result<Stepped, Refusal> {
        let (table, state) = self.bench.buffers();
        let stepped = raw::step(table, state, &self.rights, self.seat, thread);
        Refusal::unless_done(stepped.refusal, 0)?;
        let act = match stepped.act {
            ENDED => Act::Ended,
            CALLED => Act::Called,
            WAITS => Act::Waits,
            BRANCH => Act::Branch { branch: count(stepped.branch), partner: somebody(stepped.partner) },
            _ => unreachable!("an act is a number from 0 to 3"),
        };
        Ok(Stepped { node: count(stepped.node), act })
    }

    /// Gives a number to the thread that waits to receive on a port, of several to the one with the lowest
    /// number, and answers which it is. Nothing changes if there is none. Refused with ground 19 if the seat may
    /// not give there, as no seat may above port 7, else with 12 if the file has no such port.
    pub fn give(&mut self, port: u32, number: i32) -> Result<Option<u32>, Refusal> {
        let (table, state) = self.bench.buffers();
        let given = raw::give(table, state, &self.rights, self.seat, port, number);
        Refusal::unless_done(given.refusal, 0)?;
        Ok(somebody(given.thread))
    }

    /// Takes a number from the thread that waits to send on a port, of several from the one with the lowest
    /// number. Nothing changes if there is none. Refused with ground 19 if the seat may not take there, as no
    /// seat may above port 7, else with 12 if the file has no such port.
    pub fn take(&mut self, port: u32) -> Result<Option<Taken>, Refusal> {
        let (table, state) = self.bench.buffers();
        let taken = raw::take(table, state, &self.rights, self.seat, port);
        Refusal::unless_done(taken.refusal, 0)?;
        Ok(somebody(taken.thread).map(|thread| Taken { thread, number: taken.number }))
    }

    /// Makes up to `n` steps of ready threads in turn. A thread that lacks a row ends the run, which is no
    /// refusal: the steps before it stay, and the next run begins with the others. Refused with ground 19 if the
    /// seat may not step, and on no other.
    pub fn run(&mut self, n: u16) -> Result<Ran, Refusal> {
        let (table, state) = self.bench.buffers();
        let ran = raw::run(table, state, &self.rights, self.seat, n);
        Refusal::unless_done(ran.refusal, 0)?;
        let reason = match (ran.reason, somebody(ran.thread)) {
            (ALL_STEPS, _) => Reason::AllSteps,
            (NONE_READY, _) => Reason::NoneReady,
            (LACKED_THREAD_ROW, Some(thread)) => Reason::LackedThreadRow { thread },
            (LACKED_CHANNEL_ROW, Some(thread)) => Reason::LackedChannelRow { thread },
            _ => unreachable!("a reason is a number from 0 to 3, the last two with a thread"),
        };
        Ok(Ran { steps: count(ran.steps), reason })
    }

    /// Takes away every thread that can never move again, whatever calls may follow, and the channels that
    /// only such threads have. Answers how many threads were taken. Refused with ground 19 if the seat may not
    /// collect, and on no other.
    pub fn collect(&mut self) -> Result<u32, Refusal> {
        let (table, state) = self.bench.buffers();
        let collected = raw::collect(table, state, &self.rights, self.seat);
        Refusal::unless_done(collected.refusal, 0)?;
        Ok(count(collected.threads))
    }
}

/// A number of an answer that is a count or a place.
fn count(number: i32) -> u32 {
    u32::try_from(number).expect("counts and places in an answer are not negative")
}

/// A thread's number in an answer, or nothing where it stands for nobody.
fn somebody(thread: i32) -> Option<u32> {
    u32::try_from(thread).ok()
}
