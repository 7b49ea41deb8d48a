//! A thread that acts and a waiting one that offers the opposite.

use super::code::{Action, Code, Direction, Exchange};
use super::state::{members, only, State, Thread, Threads};

/// What a waiting thread offers: its slot for the value, and the node behind its branch.
pub struct Offer {
    pub thread: usize,
    pub value: usize,
    next: usize,
}

impl State {
    /// Exchanges a value with the first thread that waits with the opposite offer, if there is one, and
    /// answers that thread. The acting thread's own node is left as it is.
    pub fn meet(&mut self, code: &Code, thread: usize, own: Exchange) -> Option<usize> {
        let channel = self.threads[thread].slots[usize::from(own.channel)] as usize;
        let offer = self.find_offer(code, channel, own.direction.opposite(), only(thread))?;
        let here = (thread, usize::from(own.value));
        let there = (offer.thread, offer.value);
        let (from, to) = if own.direction == Direction::Send { (here, there) } else { (there, here) };
        let word = self.threads[from.0].slots[from.1];
        self.put_word(code, to.0, to.1, word);
        self.go_on(&offer);
        Some(offer.thread)
    }

    /// The first offer in this direction on a channel by a thread that is not left out.
    pub fn find_offer(
        &self,
        code: &Code,
        channel: usize,
        direction: Direction,
        left_out: Threads,
    ) -> Option<Offer> {
        // Who offers something on a channel holds it.
        members(self.waiting & self.holders[channel] & !left_out)
            .find_map(|thread| self.offer_of(code, thread, channel, direction))
    }

    fn offer_of(&self, code: &Code, thread: usize, channel: usize, direction: Direction) -> Option<Offer> {
        let Thread { node, slots } = &self.threads[thread];
        code.branches_at(*node).iter().find_map(|branch| {
            let Action::Exchange(offered) = branch.action else { return None };
            let fits = offered.direction == direction
                && slots[usize::from(offered.channel)] == channel as i32
                && branch.is_open(slots);
            let (value, next) = (usize::from(offered.value), usize::from(branch.next));
            fits.then_some(Offer { thread, value, next })
        })
    }

    /// The thread of an offer that was met is ready behind its branch.
    pub fn go_on(&mut self, offer: &Offer) {
        self.waiting &= !only(offer.thread);
        self.ready |= only(offer.thread);
        self.threads[offer.thread].node = offer.next;
    }

    /// Writes a slot, of whichever type it is.
    fn put_word(&mut self, code: &Code, thread: usize, slot: usize, word: i32) {
        let channels = code.definition_at(self.threads[thread].node).channels;
        if channels >> slot & 1 == 1 {
            self.put_channel(code, thread, slot, word);
        } else {
            self.threads[thread].slots[slot] = word;
        }
    }
}
