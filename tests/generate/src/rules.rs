//! Who is taken by a collection, by the right rule and by wrong ones.
//!
//! All is read off the words of a state, and each thread is judged by itself: from it a series is looked
//! for, from thread to thread, that ends with somebody who can move.

use interface::THREADS;

use crate::words::{Layout, Words, FREE, READY, WAITING};

#[derive(Clone, Copy, Debug, PartialEq, Eq)]
pub enum Rule {
    /// A waiting thread may be woken by whoever knows a channel on which it offers something.
    Right,
    /// The same, and the bench is forgotten.
    NoBench,
    /// A waiting thread is thought to wake others only over channels on which it offers something
    /// itself, as the collectors of the published papers have it.
    OffersOnly,
}

/// What each thread row has to do with channels.
pub struct View {
    ports: usize,
    status: Vec<i32>,
    held: Vec<Vec<usize>>,
    /// None for a thread that does not wait.
    offered: Vec<Vec<usize>>,
}

impl View {
    pub fn new(layout: &Layout, state: &[u8]) -> View {
        let words = Words::new(state);
        View {
            ports: layout.ports(),
            status: (0..THREADS).map(|thread| words.thread(thread)[0]).collect(),
            held: (0..THREADS).map(|thread| words.held(layout, thread)).collect(),
            offered: (0..THREADS).map(|thread| offered(layout, &words, thread)).collect(),
        }
    }

    pub fn threads(&self) -> Vec<usize> {
        (0..THREADS).filter(|thread| self.status[*thread] != FREE).collect()
    }

    pub fn waiting(&self) -> Vec<usize> {
        (0..THREADS).filter(|thread| self.status[*thread] == WAITING).collect()
    }

    pub fn status(&self, thread: usize) -> i32 {
        self.status[thread]
    }

    /// The channels on which a waiting thread offers something.
    pub fn offered(&self, thread: usize) -> &[usize] {
        &self.offered[thread]
    }

    pub fn offers_on_port(&self, thread: usize) -> bool {
        self.offered[thread].iter().any(|channel| *channel < self.ports)
    }

    pub fn knows_port(&self, thread: usize) -> bool {
        self.held[thread].iter().any(|channel| *channel < self.ports)
    }

    /// Whether two threads know the same channel.
    pub fn share(&self, one: usize, other: usize) -> bool {
        self.held[one].iter().any(|channel| self.held[other].contains(channel))
    }

    /// The other threads that know a channel on which this one offers something.
    pub fn wakers(&self, thread: usize) -> Vec<usize> {
        let knows =
            |other: &usize| self.offered[thread].iter().any(|channel| self.held[*other].contains(channel));
        (0..THREADS).filter(|other| *other != thread && knows(other)).collect()
    }

    /// The threads that are taken, lowest first.
    pub fn taken(&self, rule: Rule) -> Vec<usize> {
        let mut taken = self.waiting();
        taken.retain(|thread| !self.has_series(rule, *thread, &mut [false; THREADS]));
        taken
    }

    /// Whether a series leads from the thread to one that can move.
    pub fn is_linked(&self, thread: usize) -> bool {
        self.has_series(Rule::Right, thread, &mut [false; THREADS])
    }

    /// Whether a series leads from the thread, by way of threads that were not seen yet, to one that is
    /// ready or waits on a port.
    fn has_series(&self, rule: Rule, thread: usize, seen: &mut [bool; THREADS]) -> bool {
        seen[thread] = true;
        if self.status[thread] == READY {
            return true;
        }
        self.offered[thread].iter().any(|channel| {
            let on_port = rule != Rule::NoBench && *channel < self.ports;
            on_port
                || (0..THREADS).any(|other| {
                    !seen[other] && self.may_wake(rule, other, *channel) && self.has_series(rule, other, seen)
                })
        })
    }

    /// Whether a thread, if it can move, is thought to wake others over a channel.
    fn may_wake(&self, rule: Rule, thread: usize, channel: usize) -> bool {
        let channels = match (rule, self.status[thread]) {
            (Rule::OffersOnly, WAITING) => &self.offered[thread],
            _ => &self.held[thread],
        };
        channels.contains(&channel)
    }
}

/// The state after these threads were taken from it.
pub fn without(layout: &Layout, state: &[u8], taken: &[usize]) -> Vec<u8> {
    let mut words = Words::new(state);
    for thread in taken {
        words.thread_mut(*thread).fill(0);
    }
    words.recount(layout);
    words.to_bytes()
}

/// The channels on which a thread offers something.
fn offered(layout: &Layout, words: &Words, thread: usize) -> Vec<usize> {
    words.offers(layout, thread).iter().map(|offer| offer.channel).collect()
}
