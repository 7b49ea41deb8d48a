//! One step of a ready thread.

use interface::{Stepped, BRANCH, CALLED, CHANNELS, ENDED, NOBODY, THREADS, WAITS};

use super::code::{Action, Branch, Code, Guard, Kind, Slots};
use super::state::{held, only, State, Thread};

/// A row that a step needs and does not find.
#[derive(Clone, Copy, PartialEq, Eq)]
pub enum Lack {
    ThreadRow,
    ChannelRow,
}

impl Guard {
    pub fn holds(&self, slots: &Slots) -> bool {
        let slot = |number: u8| slots[usize::from(number)];
        match *self {
            Guard::Always => true,
            Guard::EqualTo { slot: one, constant } => slot(one) == constant,
            Guard::BelowConstant { slot: one, constant } => slot(one) < constant,
            Guard::Equal { one, other } => slot(one) == slot(other),
            Guard::Below { one, other } => slot(one) < slot(other),
        }
    }
}

impl Action {
    /// What a sum or a difference comes to, in more bits than a slot has. Other actions have none.
    fn sum(&self, slots: &Slots) -> Option<i64> {
        let number = |slot: u8| i64::from(slots[usize::from(slot)]);
        match *self {
            Action::Plus { one, other, .. } => Some(number(one) + number(other)),
            Action::Minus { one, other, .. } => Some(number(one) - number(other)),
            _ => None,
        }
    }
}

impl Branch {
    /// Whether its guard is true and its sum, if it has one, fits a slot; else the branch counts as one with
    /// a false guard.
    pub fn is_open(&self, slots: &Slots) -> bool {
        self.guard.holds(slots) && self.action.sum(slots).is_none_or(|sum| i32::try_from(sum).is_ok())
    }
}

impl State {
    /// Steps a ready thread. If it lacks a row nothing has changed.
    pub fn step(&mut self, code: &Code, thread: usize) -> Result<Stepped, Lack> {
        let node = self.threads[thread].node;
        let done = |act, branch, partner| Stepped { refusal: 0, node: node as i32, act, branch, partner };
        match code.node(node).kind {
            Kind::End => {
                self.remove_thread(code, thread);
                Ok(done(ENDED, 0, NOBODY))
            }
            Kind::Call { called, parameters, arguments } => {
                self.call(code, thread, called, &arguments[..usize::from(parameters)]);
                Ok(done(CALLED, 0, NOBODY))
            }
            Kind::Choice { first, end } => {
                for (number, branch) in code.branches(first, end).iter().enumerate() {
                    if let Some(partner) = self.try_branch(code, thread, branch)? {
                        return Ok(done(BRANCH, number as i32, partner));
                    }
                }
                self.ready &= !only(thread);
                self.waiting |= only(thread);
                Ok(done(WAITS, 0, NOBODY))
            }
        }
    }

    fn call(&mut self, code: &Code, thread: usize, called: u8, arguments: &[u8]) {
        let Thread { node, slots } = self.threads[thread];
        let definition = code.definition(called);
        let mut kept = definition.unwritten;
        for (slot, argument) in kept.iter_mut().zip(arguments) {
            *slot = slots[usize::from(*argument)];
        }
        for channel in held(&slots, code.definition_at(node).channels) {
            if !held(&kept, definition.channels).any(|other| other == channel) {
                self.let_go(thread, channel);
            }
        }
        self.threads[thread] = Thread { node: definition.first_node, slots: kept };
    }

    /// Takes a branch if it can go ahead. Answers the partner or the child, or else nobody.
    fn try_branch(&mut self, code: &Code, thread: usize, branch: &Branch) -> Result<Option<i32>, Lack> {
        let slots = &mut self.threads[thread].slots;
        if !branch.is_open(slots) {
            return Ok(None);
        }
        let read = |number: u8, slots: &Slots| slots[usize::from(number)];
        let mut partner = NOBODY;
        match branch.action {
            Action::Tau => {}
            Action::Set { slot, constant } => slots[usize::from(slot)] = constant,
            Action::Plus { slot, one, other } => {
                slots[usize::from(slot)] = read(one, slots) + read(other, slots)
            }
            Action::Minus { slot, one, other } => {
                slots[usize::from(slot)] = read(one, slots) - read(other, slots)
            }
            Action::New { slot } => self.make_channel(code, thread, usize::from(slot))?,
            Action::Spawn { child } => partner = self.spawn(code, thread, usize::from(child))? as i32,
            Action::Exchange(exchange) => match self.meet(code, thread, exchange) {
                Some(met) => partner = met as i32,
                None => return Ok(None),
            },
        }
        self.threads[thread].node = usize::from(branch.next);
        Ok(Some(partner))
    }

    fn make_channel(&mut self, code: &Code, thread: usize, slot: usize) -> Result<(), Lack> {
        let channel = self.free_channel().ok_or(Lack::ChannelRow)?;
        let kind = code.definition_at(self.threads[thread].node).types[slot];
        self.take_channel(channel, kind);
        self.put_channel(code, thread, slot, channel as i32);
        self.next_channel = (channel + 1) % CHANNELS;
        Ok(())
    }

    fn spawn(&mut self, code: &Code, thread: usize, node: usize) -> Result<usize, Lack> {
        let child = self.free_thread().ok_or(Lack::ThreadRow)?;
        let Thread { node: own, slots } = self.threads[thread];
        for channel in held(&slots, code.definition_at(own).channels) {
            self.holders[channel] |= only(child);
        }
        self.threads[child] = Thread { node, slots };
        self.ready |= only(child);
        self.next_thread = (child + 1) % THREADS;
        Ok(child)
    }
}
