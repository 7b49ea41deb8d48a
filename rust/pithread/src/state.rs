//! The state of a procedure at work, for a program that shows or keeps it.

use std::fmt;

use pithread_header::{
    CHANNELS, CHANNEL_HOLDERS, CHANNEL_ROWS, CHANNEL_TYPE, CHANNEL_WAITING, CHANNEL_WORDS, NEXT_CHANNEL,
    NEXT_THREAD, READY, SLOTS, STATE_BYTES, THREADS, THREAD_NODE, THREAD_ROWS, THREAD_SLOTS, THREAD_STATUS,
    THREAD_WORDS, TURN, WAITING,
};

/// Whether a thread can be stepped.
#[derive(Clone, Copy, Debug, PartialEq, Eq, Hash)]
pub enum Status {
    /// It can.
    Ready,
    /// It waits for another thread or for the bench.
    Waiting,
}

/// A thread.
#[derive(Clone, Copy, Debug, PartialEq, Eq, Hash)]
pub struct Thread {
    /// The number of its row.
    pub number: u32,
    /// Whether it can be stepped.
    pub status: Status,
    /// Where it stands, counted from 0 over the whole file.
    pub node: u32,
    /// Its slots. A slot of a channel type has the number of a channel, or -1 before it is written; slots
    /// that the thread's definition does not have are 0.
    pub slots: [i32; SLOTS],
}

/// A channel in use.
#[derive(Clone, Copy, Debug, PartialEq, Eq, Hash)]
pub struct Channel {
    /// The number of its row. Ports are the first channels.
    pub number: u32,
    /// The number of its type, from 1.
    pub kind: u32,
    /// How many hold it: threads that have it in a slot, and the bench if it is a port.
    pub holders: u32,
    /// How many of these are waiting threads.
    pub waiting: u32,
}

/// The state of a [`Bench`](crate::Bench), which is always a sound one.
#[derive(Clone, PartialEq, Eq)]
pub struct State {
    pub(crate) bytes: Box<[u8; STATE_BYTES]>,
}

impl State {
    /// The bytes, to be kept: each word as four of them, the lowest first.
    pub fn as_bytes(&self) -> &[u8; STATE_BYTES] {
        &self.bytes
    }

    /// The threads that are ready or wait, lowest number first.
    pub fn threads(&self) -> impl Iterator<Item = Thread> + '_ {
        (0..THREADS).filter_map(|number| {
            let row = &self.words()[THREAD_ROWS + number * THREAD_WORDS..][..THREAD_WORDS];
            let status = match i32::from_le_bytes(row[THREAD_STATUS]) {
                READY => Status::Ready,
                WAITING => Status::Waiting,
                _ => return None,
            };
            let slots = std::array::from_fn(|slot| i32::from_le_bytes(row[THREAD_SLOTS + slot]));
            Some(Thread { number: number as u32, status, node: u32::from_le_bytes(row[THREAD_NODE]), slots })
        })
    }

    /// The channels in use, lowest number first.
    pub fn channels(&self) -> impl Iterator<Item = Channel> + '_ {
        let rows = (0..CHANNELS).map(|number| {
            let row = &self.words()[CHANNEL_ROWS + number * CHANNEL_WORDS..][..CHANNEL_WORDS];
            Channel {
                number: number as u32,
                kind: u32::from_le_bytes(row[CHANNEL_TYPE]),
                holders: u32::from_le_bytes(row[CHANNEL_HOLDERS]),
                waiting: u32::from_le_bytes(row[CHANNEL_WAITING]),
            }
        });
        rows.filter(|channel| channel.kind != 0)
    }

    /// The thread row at which the next run begins.
    pub fn turn(&self) -> u32 {
        u32::from_le_bytes(self.words()[TURN])
    }

    /// The thread row at which the search for a free one begins.
    pub fn next_thread(&self) -> u32 {
        u32::from_le_bytes(self.words()[NEXT_THREAD])
    }

    /// The channel row at which the search for a free one begins.
    pub fn next_channel(&self) -> u32 {
        u32::from_le_bytes(self.words()[NEXT_CHANNEL])
    }

    fn words(&self) -> &[[u8; 4]] {
        self.bytes.as_chunks().0
    }
}

impl fmt::Debug for State {
    fn fmt(&self, formatter: &mut fmt::Formatter) -> fmt::Result {
        let threads: Vec<Thread> = self.threads().collect();
        let channels: Vec<Channel> = self.channels().collect();
        let mut shown = formatter.debug_struct("State");
        shown.field("turn", &self.turn()).field("threads", &threads).field("channels", &channels);
        shown.finish_non_exhaustive()
    }
}
