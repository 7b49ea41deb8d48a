//! The engine's calls and their answers, in one form for every engine that the tests know.
//!
//! The answers and numbers are those of `include/pithread.h`.

pub use pithread_header::{
    Collected, Given, Loaded, Profiled, Ran, Started, Stepped, Taken, Written, ALL_STEPS, BENCH_RIGHT,
    BOTH_RIGHTS, BRANCH, BUFFER_LENGTH, CALLED, CHANNELS, CHANNEL_ROWS as CHANNELS_START, CHANNEL_WORDS,
    ENDED, FORBIDDEN_CALL, LACKED_CHANNEL_ROW, LACKED_THREAD_ROW, MANY_THREADS, MAY_COLLECT, MAY_GIVE,
    MAY_STEP, MAY_TAKE, NOBODY, NONE_READY, NO_CHANNEL_ROW, NO_RIGHT, NO_THREAD_ROW, PORT, PORTS, RIGHTS,
    RIGHTS_BYTES, SEAT, SEATS, SEAT_NUMBERS, SHORT_BUFFER, SLOTS, STATE, STATE_BYTES, TABLE, THREAD, THREADS,
    THREAD_ROWS as FRONT_WORDS, THREAD_WORDS, WAITS,
};

/// A list of rights in which every seat may do everything.
pub const FULL_RIGHTS: [u8; RIGHTS_BYTES] = {
    let mut bytes = [0; RIGHTS_BYTES];
    let mut place = 0;
    while place < RIGHTS_BYTES {
        bytes[place] = BOTH_RIGHTS as u8;
        place += 4;
    }
    bytes
};

/// A write: the table, and the buffer for its file. It has no state and is no call of an [`Engine`].
pub type Write = fn(&[u8], &mut [u8]) -> Written;

/// A call with its numbers; the buffers come beside it.
#[derive(Clone, Copy, Debug, PartialEq, Eq)]
pub enum Call {
    Start,
    Step { thread: u32 },
    Give { port: u32, number: i32 },
    Take { port: u32 },
    Run { n: u16 },
    Collect,
}

impl Call {
    /// The call as a seat makes it, by this list of rights.
    pub fn by(self, rights: &[u8], seat: u32) -> Seated<'_> {
        Seated { call: self, rights, seat }
    }
}

/// A call with the list of rights, of any length, and the seat that it names. A start names none, and whatever
/// is here makes no difference to it.
#[derive(Clone, Copy)]
pub struct Seated<'a> {
    pub call: Call,
    pub rights: &'a [u8],
    pub seat: u32,
}

/// A call by itself is made by a seat that may do everything.
impl From<Call> for Seated<'static> {
    fn from(call: Call) -> Seated<'static> {
        call.by(&FULL_RIGHTS, 0)
    }
}

#[derive(Clone, Copy, Debug, PartialEq, Eq)]
pub enum Answer {
    Started(Started),
    Stepped(Stepped),
    Given(Given),
    Taken(Taken),
    Ran(Ran),
    Collected(Collected),
}

impl Answer {
    /// 0 if the call was done, else the ground.
    pub fn refusal(&self) -> i32 {
        match self {
            Answer::Started(answer) => answer.refusal,
            Answer::Stepped(answer) => answer.refusal,
            Answer::Given(answer) => answer.refusal,
            Answer::Taken(answer) => answer.refusal,
            Answer::Ran(answer) => answer.refusal,
            Answer::Collected(answer) => answer.refusal,
        }
    }
}

/// A call by a seat, with one number: the table, the state, the list of rights and the seat come before it.
pub type BySeat<Number, Answer> = fn(&[u8], &mut [u8], &[u8], u32, Number) -> Answer;

/// The same with a port and a number.
pub type Give = fn(&[u8], &mut [u8], &[u8], u32, u32, i32) -> Given;

/// The calls of one engine.
#[derive(Clone, Copy)]
pub struct Engine {
    pub start: fn(&[u8], &mut [u8]) -> Started,
    pub step: BySeat<u32, Stepped>,
    pub give: Give,
    pub take: BySeat<u32, Taken>,
    pub run: BySeat<u16, Ran>,
    pub collect: fn(&[u8], &mut [u8], &[u8], u32) -> Collected,
}

impl Engine {
    pub fn answer<'a>(&self, call: impl Into<Seated<'a>>, table: &[u8], state: &mut [u8]) -> Answer {
        let Seated { call, rights, seat } = call.into();
        match call {
            Call::Start => Answer::Started((self.start)(table, state)),
            Call::Step { thread } => Answer::Stepped((self.step)(table, state, rights, seat, thread)),
            Call::Give { port, number } => {
                Answer::Given((self.give)(table, state, rights, seat, port, number))
            }
            Call::Take { port } => Answer::Taken((self.take)(table, state, rights, seat, port)),
            Call::Run { n } => Answer::Ran((self.run)(table, state, rights, seat, n)),
            Call::Collect => Answer::Collected((self.collect)(table, state, rights, seat)),
        }
    }
}
