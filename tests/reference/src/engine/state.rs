//! A state as the engine works on it: sets of threads, one bit for each, in place of counts.

use interface::{CHANNELS, CHANNEL_WORDS, FRONT_WORDS, SLOTS, THREADS, THREAD_WORDS};

use super::code::{Code, Slots, NO_CHANNEL};

/// A set of threads, one bit for each.
pub type Threads = u64;

pub struct Thread {
    pub node: usize,
    pub slots: Slots,
}

pub struct State {
    pub next_thread: usize,
    pub next_channel: usize,
    pub turn: usize,
    pub ready: Threads,
    pub waiting: Threads,
    /// What stands in the row of a thread in neither set means nothing.
    pub threads: [Thread; THREADS],
    /// For each channel its type, 0 if it is free.
    pub types: [i32; CHANNELS],
    /// The holders of each channel.
    pub holders: [Threads; CHANNELS],
    /// The channels in use.
    pub used: u128,
    /// The channels that the bench holds.
    pub ports: u128,
}

/// The set of this one thread.
pub fn only(thread: usize) -> Threads {
    1 << thread
}

/// The members of a set that has one bit for each, the lowest first.
pub fn members(mut set: u64) -> impl Iterator<Item = usize> {
    std::iter::from_fn(move || {
        let lowest = set.trailing_zeros();
        set &= set.wrapping_sub(1);
        (lowest < u64::BITS).then_some(lowest as usize)
    })
}

impl State {
    /// Without a thread, and with no channel but the ports.
    pub fn new(code: &Code) -> State {
        let mut state = State {
            next_thread: 0,
            next_channel: 0,
            turn: 0,
            ready: 0,
            waiting: 0,
            threads: [const { Thread { node: 0, slots: [0; SLOTS] } }; THREADS],
            types: [0; CHANNELS],
            holders: [0; CHANNELS],
            used: 0,
            ports: (1 << code.ports) - 1,
        };
        for port in 0..code.ports {
            state.take_channel(port, 1);
        }
        state
    }

    /// The state before anything is done.
    pub fn at_start(code: &Code) -> State {
        let mut state = State::new(code);
        let mut slots = code.definition(0).unwritten;
        for (port, slot) in slots.iter_mut().take(code.ports).enumerate() {
            *slot = port as i32;
            state.holders[port] = only(0);
        }
        state.threads[0] = Thread { node: 0, slots };
        state.ready = only(0);
        state.next_thread = 1;
        state.next_channel = code.ports;
        state
    }

    /// The first free thread row from the mark on, around the end.
    pub fn free_thread(&self) -> Option<usize> {
        let in_use = self.ready | self.waiting;
        let ahead = in_use.rotate_right(self.next_thread as u32).trailing_ones() as usize;
        (ahead < THREADS).then(|| (self.next_thread + ahead) % THREADS)
    }

    /// The first free channel row from the mark on, around the end.
    pub fn free_channel(&self) -> Option<usize> {
        let ahead = self.used.rotate_right(self.next_channel as u32).trailing_ones() as usize;
        (ahead < CHANNELS).then(|| (self.next_channel + ahead) % CHANNELS)
    }

    /// The first ready thread from the turn on, around the end.
    pub fn next_ready(&self) -> Option<usize> {
        let ahead = self.ready.rotate_right(self.turn as u32).trailing_zeros() as usize;
        (ahead < THREADS).then(|| (self.turn + ahead) % THREADS)
    }

    pub fn take_channel(&mut self, channel: usize, kind: i32) {
        self.types[channel] = kind;
        self.used |= 1 << channel;
    }

    /// The thread holds the channel no longer, which is freed if it was the last holder.
    pub fn let_go(&mut self, thread: usize, channel: usize) {
        self.holders[channel] &= !only(thread);
        if self.holders[channel] == 0 && self.ports >> channel & 1 == 0 {
            self.types[channel] = 0;
            self.used &= !(1 << channel);
        }
    }

    /// The thread is no more, and lets go of all its channels.
    pub fn remove_thread(&mut self, code: &Code, thread: usize) {
        self.ready &= !only(thread);
        self.waiting &= !only(thread);
        let Thread { node, slots } = self.threads[thread];
        for channel in held(&slots, code.definition_at(node).channels) {
            self.let_go(thread, channel);
        }
    }

    /// The thread is given the channel in one of its slots, and the one that was there is let go if
    /// no other slot has it.
    pub fn put_channel(&mut self, code: &Code, thread: usize, slot: usize, channel: i32) {
        let Thread { node, slots } = &mut self.threads[thread];
        let before = std::mem::replace(&mut slots[slot], channel);
        let still = held(slots, code.definition_at(*node).channels).any(|held| held as i32 == before);
        self.holders[channel as usize] |= only(thread);
        if before != NO_CHANNEL && !still {
            self.let_go(thread, before as usize);
        }
    }

    /// Writes every word.
    pub fn write(&self, bytes: &mut [u8]) {
        let (words, _) = bytes.as_chunks_mut::<4>();
        let (front, rows) = words.split_at_mut(FRONT_WORDS);
        let (threads, channels) = rows.split_at_mut(THREADS * THREAD_WORDS);
        for (word, number) in front.iter_mut().zip([self.next_thread, self.next_channel, self.turn]) {
            *word = (number as i32).to_le_bytes();
        }
        for (number, row) in threads.as_chunks_mut::<THREAD_WORDS>().0.iter_mut().enumerate() {
            self.write_thread(number, row);
        }
        for (number, row) in channels.as_chunks_mut::<CHANNEL_WORDS>().0.iter_mut().enumerate() {
            let [kind, count, waiting] = self.channel_row(number);
            *row = [kind.to_le_bytes(), count.to_le_bytes(), waiting.to_le_bytes()];
        }
    }

    fn write_thread(&self, number: usize, row: &mut [[u8; 4]; THREAD_WORDS]) {
        let status = (self.ready >> number & 1) + 2 * (self.waiting >> number & 1);
        if status == 0 {
            *row = [[0; 4]; THREAD_WORDS];
            return;
        }
        let Thread { node, slots } = &self.threads[number];
        row[0] = (status as i32).to_le_bytes();
        row[1] = (*node as i32).to_le_bytes();
        for (word, slot) in row[2..].iter_mut().zip(slots) {
            *word = slot.to_le_bytes();
        }
    }

    /// The type and the two counts that a channel's row has to have.
    pub fn channel_row(&self, channel: usize) -> [i32; CHANNEL_WORDS] {
        let holders = self.holders[channel];
        let bench = (self.ports >> channel & 1) as i32;
        let waiting = (holders & self.waiting).count_ones() as i32;
        [self.types[channel], holders.count_ones() as i32 + bench, waiting]
    }
}

/// The channels in those of the slots that are channel slots, a channel once for each slot.
pub fn held(slots: &Slots, channels: u16) -> impl Iterator<Item = usize> + '_ {
    members(u64::from(channels)).filter_map(|slot| usize::try_from(slots[slot]).ok())
}
