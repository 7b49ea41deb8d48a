//! A collection: threads are followed from those that can move to those that they could wake.

use interface::CHANNELS;

use super::code::{Action, Code};
use super::state::{held, members, only, State, Thread, Threads};

/// For each channel the waiting threads that an exchange on it would wake.
type Sleepers = [Threads; CHANNELS];

impl State {
    /// Frees every thread that is not reached, and answers how many there were.
    pub fn collect(&mut self, code: &Code) -> u32 {
        let lost = self.lost(code);
        for thread in members(lost) {
            self.remove_thread(code, thread);
        }
        lost.count_ones()
    }

    /// The threads that are not reached.
    pub fn lost(&self, code: &Code) -> Threads {
        self.waiting & !self.reached(code)
    }

    /// The threads to which a way leads. Ways begin at the ready threads and at the bench, which has the
    /// ports, and go from a holder of a channel to the sleepers on it. That a sleeper also holds its own
    /// channel leads to nobody new.
    fn reached(&self, code: &Code) -> Threads {
        let sleepers = self.sleepers(code);
        let mut reached = sleepers[..code.ports].iter().fold(self.ready, |all, woken| all | woken);
        let mut to_follow = reached;
        while let Some(thread) = members(to_follow).next() {
            let Thread { node, slots } = &self.threads[thread];
            let channels = held(slots, code.definition_at(*node).channels);
            let woken = channels.fold(0, |all, channel| all | sleepers[channel]) & !reached;
            reached |= woken;
            to_follow = to_follow & !only(thread) | woken;
        }
        reached
    }

    fn sleepers(&self, code: &Code) -> Sleepers {
        let mut sleepers = [0; CHANNELS];
        for thread in members(self.waiting) {
            let Thread { node, slots } = &self.threads[thread];
            for branch in code.branches_at(*node).iter().filter(|branch| branch.is_open(slots)) {
                // A waiting thread has no other open branches, and its channel is there.
                if let Action::Exchange(offered) = branch.action {
                    sleepers[slots[usize::from(offered.channel)] as usize] |= only(thread);
                }
            }
        }
        sleepers
    }
}
