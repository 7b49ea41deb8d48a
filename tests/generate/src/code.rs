//! The nodes and branches of a right file.

use crate::file::Row;
use crate::profile::EXCHANGES;
use crate::valid::{row, small, Definition, Maker};

/// What is known at a node while its branches are made.
pub struct Place<'a> {
    pub definition: &'a Definition,
    pub node: usize,
    /// Slots written on every path to here, one bit for each.
    pub written: u16,
    /// The actions that its branches may have.
    pub actions: &'static [i16],
}

impl Maker<'_> {
    /// The nodes and branches of one definition.
    pub fn make_code(
        &mut self,
        all: &[Definition],
        definition: &Definition,
        nodes: &mut Vec<Row>,
        branches: &mut Vec<Row>,
    ) {
        let counts = &definition.branches;
        let mut written = vec![u16::MAX; counts.len()];
        written[0] = (1 << definition.parameters) - 1;
        // Nodes before this one have a branch that leads to them.
        let mut unled = 1;
        for (node, count) in counts.iter().enumerate() {
            let actions =
                if self.random.chance(self.profile.exchanges) { &EXCHANGES } else { self.profile.actions };
            let place = Place { definition, node, written: written[node], actions };
            if *count == 0 {
                nodes.push(self.make_end_or_call(all, &place));
                continue;
            }
            nodes.push(row(&[5, 1, *count]));
            for target in self.make_targets(counts, node, &mut unled) {
                let branch = self.make_branch(&place, target);
                note_writes(&mut written, &place, &branch);
                branches.push(branch);
            }
        }
    }

    /// For each branch of a choice, a node that it has to lead to, or nothing if it is free.
    fn make_targets(&mut self, counts: &[usize], node: usize, unled: &mut usize) -> Vec<Option<usize>> {
        let last = counts.len() - 1;
        let count = counts[node];
        let least = must_lead(counts, node, *unled);
        let most = count.min(last + 1 - *unled);
        let led = self.random.within(least..=most);
        let mut targets = vec![None; count];
        for target in &mut targets[..led] {
            *target = Some(*unled);
            *unled += 1;
        }
        self.random.shuffle(&mut targets);
        targets
    }

    fn make_end_or_call(&mut self, all: &[Definition], place: &Place) -> Row {
        if self.random.chance(self.profile.ends) {
            return row(&[5, 0]);
        }
        let mut calls = (0..self.profile.tries).map(|_| self.make_call(all, place));
        calls.find_map(|call| call).unwrap_or_else(|| row(&[5, 0]))
    }

    /// A call of some definition, if there are written slots to hand over.
    pub fn make_call(&mut self, all: &[Definition], place: &Place) -> Option<Row> {
        let called = match self.profile.opening.is_some() && !self.random.chance(self.profile.restarts) {
            true => self.random.within(1..=all.len() - 1),
            false => self.random.below(all.len()),
        };
        let types = &all[called].slots[..all[called].parameters];
        let arguments: Option<Vec<usize>> =
            types.iter().map(|wanted| self.written_slot(place, *wanted)).collect();
        Some(row(&[&[5, 2, called], &arguments?[..]].concat()))
    }

    fn make_branch(&mut self, place: &Place, target: Option<usize>) -> Row {
        let mut branch = row(&[6]);
        self.make_guard(place, &mut branch);
        self.make_action(place, &mut branch);
        let last = place.definition.branches.len() - 1;
        let mut targets = [target, None];
        if branch[4] == 4 {
            self.random.shuffle(&mut targets);
        }
        let [next, child] =
            targets.map(|target| target.unwrap_or_else(|| self.random.within(place.node + 1..=last)));
        branch[8] = small(next);
        if branch[4] == 4 {
            branch[9] = small(child);
        }
        branch
    }

    fn make_guard(&mut self, place: &Place, branch: &mut Row) {
        let (first, second) = (self.written_slot(place, 0), self.written_slot(place, 0));
        let (Some(first), Some(second)) = (first, second) else { return };
        if self.random.chance(self.profile.guarded) {
            let guard = self.random.pick(&[1, 2, 3, 4]);
            let other = if guard < 3 { self.make_constant() } else { small(second) };
            branch[1..4].copy_from_slice(&[guard, small(first), other]);
        }
    }

    pub fn make_constant(&mut self) -> i16 {
        let constants = self.profile.constants;
        match self.random.below(constants.len() + 1) {
            0 => self.random.number(),
            place => constants[place - 1],
        }
    }

    /// Writes an action with its operands; leaves tau where the slots do not allow the first tries.
    fn make_action(&mut self, place: &Place, branch: &mut Row) {
        for _ in 0..4 {
            let action = self.random.pick(place.actions);
            if let Some(operands) = self.make_operands(place, action) {
                branch[4] = action;
                branch[5..8].copy_from_slice(&operands);
                return;
            }
        }
    }

    fn make_operands(&mut self, place: &Place, action: i16) -> Option<[i16; 3]> {
        let is_number = |slot: &usize| *slot == 0;
        match action {
            1 | 2 => self.make_exchange(place, action == 1),
            3 => Some([small(self.target_slot(place, |slot| *slot > 0)?), 0, 0]),
            5 => Some([small(self.target_slot(place, is_number)?), self.make_constant(), 0]),
            6 | 7 => {
                if self.random.chance(self.profile.favoured) {
                    return self.written_slot(place, 0).map(|slot| [small(slot); 3]);
                }
                let to = self.target_slot(place, is_number)?;
                let from = [self.written_slot(place, 0)?, self.written_slot(place, 0)?];
                Some([to, from[0], from[1]].map(small))
            }
            _ => Some([0; 3]),
        }
    }

    fn make_exchange(&mut self, place: &Place, send: bool) -> Option<[i16; 3]> {
        let slots = &place.definition.slots;
        let channels: Vec<usize> = written_slots(place).filter(|slot| slots[*slot] > 0).collect();
        let favoured = channels.first().filter(|_| self.random.chance(self.profile.favoured)).copied();
        let channel = favoured.or_else(|| self.random.choose(&channels))?;
        let carried = self.carried[slots[channel] - 1];
        let value = match send {
            true => self.written_slot(place, carried)?,
            false => self.target_slot(place, |slot| *slot == carried)?,
        };
        Some([channel, value, 0].map(small))
    }

    /// A slot of this type that is surely written.
    fn written_slot(&mut self, place: &Place, wanted: usize) -> Option<usize> {
        let slots = &place.definition.slots;
        let fitting: Vec<usize> = written_slots(place).filter(|slot| slots[*slot] == wanted).collect();
        self.random.choose(&fitting)
    }

    /// A slot of such a type to write to; rather one that is not written yet.
    fn target_slot(&mut self, place: &Place, fits: impl Fn(&usize) -> bool) -> Option<usize> {
        let slots = &place.definition.slots;
        let fitting: Vec<usize> = (0..slots.len()).filter(|slot| fits(&slots[*slot])).collect();
        let fresh: Vec<usize> =
            fitting.iter().copied().filter(|slot| place.written >> slot & 1 == 0).collect();
        let wanted = if fresh.is_empty() || self.random.chance(25) { &fitting } else { &fresh };
        self.random.choose(wanted)
    }
}

fn written_slots<'a>(place: &'a Place) -> impl Iterator<Item = usize> + 'a {
    (0..place.definition.slots.len()).filter(|slot| place.written >> slot & 1 == 1)
}

/// How many branches of this node must lead to nodes that no branch leads to yet, so that what the
/// later nodes have is enough for the rest.
fn must_lead(counts: &[usize], node: usize, unled: usize) -> usize {
    let mut later = 0;
    let mut least = 0;
    for (target, count) in counts.iter().enumerate().skip(node + 1) {
        least = least.max((target + 1).saturating_sub(unled + later));
        later += count;
    }
    least
}

/// Carries what a branch writes on to the nodes that it leads to.
fn note_writes(written: &mut [u16], place: &Place, branch: &Row) {
    let slot = match branch[4] {
        2 => Some(branch[6]),
        3 | 5 | 6 | 7 => Some(branch[5]),
        _ => None,
    };
    let after = place.written | slot.map_or(0, |slot| 1 << slot);
    // A child of 0 is no child, and no branch leads to node 0.
    for target in [branch[8], branch[9]] {
        if target > 0 {
            written[target as usize] &= after;
        }
    }
}
