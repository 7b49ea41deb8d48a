//! States after a change. Many are still sound, many have one thing wrong.

use interface::{CHANNELS, SLOTS, THREADS};

use crate::random::Random;
use crate::words::{Layout, Words, FREE, READY, WAITING};

type ChangeState = fn(&mut Change) -> Option<()>;

const CHANGES: [ChangeState; 31] = [
    any_word,
    mark,
    status,
    turned_status,
    turned_status,
    turned_status,
    all_waiting,
    same_definition,
    same_definition,
    waiting_elsewhere,
    any_node,
    past_slots,
    free_thread,
    free_channel,
    same_type,
    same_type,
    emptied_slot,
    emptied_slot,
    other_channel,
    number_slot,
    number_slot,
    number_slot,
    copied_thread,
    freed_thread,
    counts,
    counts,
    unheld,
    port,
    moved_channel,
    swapped_threads,
    swapped_channels,
];

struct Change<'a> {
    random: &'a mut Random,
    layout: &'a Layout<'a>,
    words: Words,
}

/// A state after a change or two, of a file that has this layout.
pub fn changed_state(random: &mut Random, layout: &Layout, state: &[u8]) -> Vec<u8> {
    let mut change = Change { random, layout, words: Words::new(state) };
    for _ in 0..change.random.pick(&[1, 1, 1, 1, 2, 3]) {
        change.apply_one();
    }
    change.words.to_bytes()
}

/// A sound state after some of its waiting threads have gone back to the first nodes of their
/// definitions, where only the parameters have to be filled.
pub fn woken_state(random: &mut Random, layout: &Layout, state: &[u8]) -> Vec<u8> {
    let mut words = Words::new(state);
    for thread in words.threads(WAITING) {
        let definition = layout.definition_of(words.thread(thread)[1]);
        if let Some(definition) = definition.filter(|_| random.chance(60)) {
            let row = words.thread_mut(thread);
            (row[0], row[1]) = (READY, layout.nodes_of(definition).start as i32);
        }
    }
    words.recount(layout);
    words.to_bytes()
}

impl Change<'_> {
    /// Makes one change; tries again where one finds nothing to change.
    fn apply_one(&mut self) {
        for _ in 0..6 {
            let apply = self.random.pick(&CHANGES);
            if apply(self).is_some() {
                return;
            }
        }
    }

    /// A row in use.
    fn thread(&mut self) -> Option<usize> {
        let mut rows = self.words.threads(READY);
        rows.extend(self.words.threads(WAITING));
        self.random.choose(&rows)
    }

    fn channel_in_use(&mut self) -> Option<usize> {
        let rows: Vec<usize> = (0..CHANNELS).filter(|channel| self.words.channel(*channel)[0] != 0).collect();
        self.random.choose(&rows)
    }

    fn free_channel(&mut self) -> Option<usize> {
        self.random.choose(&self.words.channels(FREE))
    }

    /// The types of the slots of the definition where a thread is.
    fn slot_types(&self, thread: usize) -> Option<Vec<i32>> {
        let definition = self.layout.definition_of(self.words.thread(thread)[1])?;
        Some(self.layout.slot_types(definition))
    }

    /// A slot of some thread: its type, and its word.
    fn slot(&mut self, fits: impl Fn(i32) -> bool) -> Option<(i32, &mut i32)> {
        let thread = self.thread()?;
        let types = self.slot_types(thread)?;
        let slots: Vec<usize> = (0..types.len()).filter(|slot| fits(types[*slot])).collect();
        let slot = self.random.choose(&slots)?;
        Some((types[slot], &mut self.words.thread_mut(thread)[2 + slot]))
    }

    fn number(&mut self) -> i32 {
        let any = self.random.bits() as i32;
        let near = self.random.below(5) as i32 - 2;
        let limits = [-2, 3, 16, 63, 64, 127, 128, 191, 192, 255, 256, 65_536];
        let limit = self.random.pick(&limits);
        self.random.pick(&[any, near, near, near, limit, limit, i32::MAX, i32::MIN])
    }

    /// Makes all counts true again, so many times in a hundred.
    fn recount(&mut self, percent: usize) -> Option<()> {
        if self.random.chance(percent) {
            self.words.recount(self.layout);
        }
        Some(())
    }
}

fn any_word(change: &mut Change) -> Option<()> {
    let number = change.number();
    let thread = change.thread().unwrap_or(0);
    let channel = change.channel_in_use().unwrap_or(0);
    let row = match change.random.below(3) {
        0 => change.words.front(),
        1 => change.words.thread_mut(thread),
        _ => change.words.channel_mut(channel),
    };
    let word = &mut row[change.random.below(row.len())];
    *word = if change.random.chance(40) { number } else { word.wrapping_add(change.random.pick(&[1, -1])) };
    change.recount(30)
}

fn mark(change: &mut Change) -> Option<()> {
    let (place, in_range) = (change.random.below(3), change.random.below(128) as i32);
    change.words.front()[place] =
        change.random.pick(&[in_range, in_range, 0, 63, 64, 127, 128, -1, i32::MIN, i32::MAX]);
    Some(())
}

fn status(change: &mut Change) -> Option<()> {
    let thread = change.random.below(THREADS);
    change.words.thread_mut(thread)[0] = change.random.pick(&[0, 1, 2, 3, 4, -1, 257, i32::MIN]);
    Some(())
}

/// A thread that was ready waits, or the other way about.
fn turned_status(change: &mut Change) -> Option<()> {
    let thread = change.thread()?;
    let status = &mut change.words.thread_mut(thread)[0];
    *status = READY + WAITING - *status;
    change.recount(85)
}

fn all_waiting(change: &mut Change) -> Option<()> {
    for thread in change.words.threads(READY) {
        change.words.thread_mut(thread)[0] = WAITING;
    }
    change.recount(100)
}

/// Another node of the thread's own definition.
fn same_definition(change: &mut Change) -> Option<()> {
    let thread = change.thread()?;
    let nodes = change.layout.nodes_of(change.layout.definition_of(change.words.thread(thread)[1])?);
    change.words.thread_mut(thread)[1] = change.random.within(nodes.start..=nodes.end - 1) as i32;
    Some(())
}

/// A thread waits at a node of its own definition that is no choice.
fn waiting_elsewhere(change: &mut Change) -> Option<()> {
    let thread = change.thread()?;
    let nodes = change.layout.nodes_of(change.layout.definition_of(change.words.thread(thread)[1])?);
    let last = nodes.end as i32 - 1;
    let row = change.words.thread_mut(thread);
    (row[0], row[1]) = (WAITING, last);
    change.recount(100)
}

fn any_node(change: &mut Change) -> Option<()> {
    let thread = change.thread()?;
    let nodes = change.layout.nodes() as i32;
    let any = change.random.below(change.layout.nodes()) as i32;
    change.words.thread_mut(thread)[1] =
        change.random.pick(&[any, any, nodes, nodes + 1, -1, 192, 256, i32::MIN, i32::MAX]);
    change.recount(50)
}

/// A slot that the thread's definition has not.
fn past_slots(change: &mut Change) -> Option<()> {
    let thread = change.thread()?;
    let slots = change.slot_types(thread)?.len();
    if slots == SLOTS {
        return None;
    }
    let slot = change.random.pick(&[slots, SLOTS - 1]);
    change.words.thread_mut(thread)[2 + slot] = change.random.pick(&[1, -1, -1, i32::MIN, 256, 65_536]);
    Some(())
}

fn free_thread(change: &mut Change) -> Option<()> {
    let thread = change.random.choose(&change.words.threads(FREE))?;
    let place = change.random.within(1..=SLOTS + 1);
    change.words.thread_mut(thread)[place] = change.random.pick(&[1, -1, i32::MIN, 256]);
    Some(())
}

fn free_channel(change: &mut Change) -> Option<()> {
    let channel = change.free_channel()?;
    let place = change.random.pick(&[1, 2]);
    change.words.channel_mut(channel)[place] = change.random.pick(&[1, -1, i32::MIN, 256]);
    Some(())
}

/// Another channel of the same type in a channel slot.
fn same_type(change: &mut Change) -> Option<()> {
    let (kind, _) = change.slot(|kind| kind != 0)?;
    let channel = change.random.choose(&change.words.channels(kind))?;
    let (_, word) = change.slot(|other| other == kind)?;
    *word = channel as i32;
    change.recount(85)
}

fn emptied_slot(change: &mut Change) -> Option<()> {
    let (_, word) = change.slot(|kind| kind != 0)?;
    *word = -1;
    change.recount(85)
}

/// Something in a channel slot that is seldom a channel of its type.
fn other_channel(change: &mut Change) -> Option<()> {
    let any = change.random.below(CHANNELS) as i32;
    let in_use = change.channel_in_use()? as i32;
    let word = change.random.pick(&[any, in_use, in_use, -2, 128, 256 + in_use, i32::MIN, i32::MAX]);
    *change.slot(|kind| kind != 0)?.1 = word;
    change.recount(75)
}

fn number_slot(change: &mut Change) -> Option<()> {
    let number = change.number();
    *change.slot(|kind| kind == 0)?.1 = number;
    Some(())
}

/// A thread stands in a second row too, as it is or with the other status.
fn copied_thread(change: &mut Change) -> Option<()> {
    let from = change.thread()?;
    let to = change.random.choose(&change.words.threads(FREE))?;
    let row = change.words.thread(from).to_vec();
    change.words.thread_mut(to).copy_from_slice(&row);
    if change.random.chance(30) {
        change.words.thread_mut(to)[0] = READY + WAITING - row[0];
    }
    change.recount(85)
}

fn freed_thread(change: &mut Change) -> Option<()> {
    let thread = change.thread()?;
    change.words.thread_mut(thread).fill(0);
    change.recount(70)
}

fn counts(change: &mut Change) -> Option<()> {
    let channel = change.channel_in_use()?;
    let more = change.random.pick(&[1, -1, 1, -1, 256, i32::MIN]);
    let row = change.words.channel_mut(channel);
    for place in change.random.pick(&[&[1][..], &[2], &[2], &[1, 2]]) {
        row[*place] = row[*place].wrapping_add(more);
    }
    Some(())
}

/// A channel is in use that nobody holds.
fn unheld(change: &mut Change) -> Option<()> {
    let channel = change.free_channel()?;
    let kind =
        change.random.pick(&[1, 1, change.layout.types() as i32, change.layout.types() as i32 + 1, -1]);
    let count = change.random.pick(&[0, 1]);
    change.words.channel_mut(channel).copy_from_slice(&[kind, count, 0]);
    Some(())
}

/// A port is free, or of another type.
fn port(change: &mut Change) -> Option<()> {
    if change.layout.ports() == 0 {
        return None;
    }
    let port = change.random.below(change.layout.ports());
    match change.random.below(3) {
        0 => change.words.channel_mut(port).fill(0),
        1 => change.words.channel_mut(port)[0] = change.random.pick(&[0, 2, 3, -1]),
        _ => return rename(change, port),
    }
    Some(())
}

/// A channel has another number, in its row and in the slots of all who hold it.
fn moved_channel(change: &mut Change) -> Option<()> {
    let ports = change.layout.ports();
    let channel = change.channel_in_use().filter(|channel| *channel >= ports)?;
    rename(change, channel)
}

fn rename(change: &mut Change, from: usize) -> Option<()> {
    let to = change.free_channel()?;
    for thread in 0..THREADS {
        let Some(types) = change.slot_types(thread) else { continue };
        for (slot, _) in types.iter().enumerate().filter(|(_, kind)| **kind != 0) {
            let word = &mut change.words.thread_mut(thread)[2 + slot];
            if *word == from as i32 {
                *word = to as i32;
            }
        }
    }
    let row = change.words.channel(from).to_vec();
    change.words.channel_mut(to).copy_from_slice(&row);
    change.words.channel_mut(from).fill(0);
    Some(())
}

fn swapped_threads(change: &mut Change) -> Option<()> {
    let (one, other) = (change.thread()?, change.random.below(THREADS));
    change.words.swap_threads(one, other);
    Some(())
}

/// The rows of two channels change places; the slots do not, so that holders change.
fn swapped_channels(change: &mut Change) -> Option<()> {
    let (one, other) = (change.channel_in_use()?, change.channel_in_use()?);
    let row = change.words.channel(one).to_vec();
    let second = change.words.channel(other).to_vec();
    change.words.channel_mut(one).copy_from_slice(&second);
    change.words.channel_mut(other).copy_from_slice(&row);
    change.recount(50)
}
