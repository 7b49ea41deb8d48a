//! A state as words, and what a file says of them.

use std::ops::Range;

use interface::{
    CHANNELS, CHANNELS_START, CHANNEL_WORDS, FRONT_WORDS, SLOTS, STATE_BYTES, THREADS, THREAD_WORDS,
};

use crate::file::{File, Row};
use crate::profile::EXCHANGES;

/// The status of a thread's row.
pub const FREE: i32 = 0;
pub const READY: i32 = 1;
pub const WAITING: i32 = 2;

/// The nodes of a file, numbered over all of it.
pub struct Layout<'a> {
    file: &'a File,
    /// For each node its definition, and where its branches begin among the rows.
    nodes: Vec<(usize, usize)>,
}

impl<'a> Layout<'a> {
    pub fn new(file: &'a File) -> Layout<'a> {
        let mut nodes = Vec::new();
        let mut branch = file.section(6).start;
        for (definition, places) in file.nodes_of.iter().enumerate() {
            for row in &file.rows[places.clone()] {
                nodes.push((definition, branch));
                branch += if row[1] == 1 { row[2] as usize } else { 0 };
            }
        }
        Layout { file, nodes }
    }

    pub fn ports(&self) -> usize {
        self.file.size.ports
    }

    pub fn types(&self) -> usize {
        self.file.size.types
    }

    pub fn nodes(&self) -> usize {
        self.nodes.len()
    }

    /// The definition that a node belongs to, if there is such a node.
    pub fn definition_of(&self, node: i32) -> Option<usize> {
        let (definition, _) = self.nodes.get(usize::try_from(node).ok()?)?;
        Some(*definition)
    }

    /// The types of the slots of a definition.
    pub fn slot_types(&self, definition: usize) -> Vec<i32> {
        self.file.rows[self.file.slots_of[definition].clone()].iter().map(|row| i32::from(row[1])).collect()
    }

    /// The nodes of a definition, numbered over the whole file.
    pub fn nodes_of(&self, definition: usize) -> Range<usize> {
        let places = &self.file.nodes_of[definition];
        let start = self.file.section(5).start;
        places.start - start..places.end - start
    }

    /// The row of a node that there is.
    pub fn node(&self, node: i32) -> &Row {
        &self.file.rows[self.file.section(5).start + node as usize]
    }

    /// The row of a branch that there is.
    pub fn branch(&self, node: i32, branch: i32) -> &Row {
        &self.file.rows[self.nodes[node as usize].1 + branch as usize]
    }
}

/// A send or receive by which a waiting thread can be met.
#[derive(Clone, Copy, Debug, PartialEq, Eq)]
pub struct Offer {
    /// Its branch, counted from 0 in the choice.
    pub branch: usize,
    pub sends: bool,
    pub channel: usize,
}

/// The words of a state.
#[derive(Clone, PartialEq, Eq)]
pub struct Words {
    words: Vec<i32>,
}

impl Words {
    /// Of bytes that are as many as a state has.
    pub fn new(state: &[u8]) -> Words {
        assert_eq!(state.len(), STATE_BYTES);
        let (words, _) = state.as_chunks::<4>();
        Words { words: words.iter().map(|bytes| i32::from_le_bytes(*bytes)).collect() }
    }

    pub fn to_bytes(&self) -> Vec<u8> {
        self.words.iter().flat_map(|word| word.to_le_bytes()).collect()
    }

    /// The two marks and the turn.
    pub fn front(&mut self) -> &mut [i32] {
        &mut self.words[..FRONT_WORDS]
    }

    /// Status, node and slots.
    pub fn thread(&self, thread: usize) -> &[i32] {
        &self.words[thread_place(thread)]
    }

    pub fn thread_mut(&mut self, thread: usize) -> &mut [i32] {
        &mut self.words[thread_place(thread)]
    }

    pub fn swap_threads(&mut self, one: usize, other: usize) {
        let row = self.thread(one).to_vec();
        self.words.copy_within(thread_place(other), thread_place(one).start);
        self.thread_mut(other).copy_from_slice(&row);
    }

    /// Type, count and count of waiting holders.
    pub fn channel(&self, channel: usize) -> &[i32] {
        &self.words[channel_place(channel)]
    }

    pub fn channel_mut(&mut self, channel: usize) -> &mut [i32] {
        &mut self.words[channel_place(channel)]
    }

    /// The rows of threads with this status.
    pub fn threads(&self, status: i32) -> Vec<usize> {
        (0..THREADS).filter(|thread| self.thread(*thread)[0] == status).collect()
    }

    /// The rows of channels of this type; 0 for those that are free.
    pub fn channels(&self, kind: i32) -> Vec<usize> {
        (0..CHANNELS).filter(|channel| self.channel(*channel)[0] == kind).collect()
    }

    /// Makes both counts of every channel in use true, and frees those that nobody holds.
    pub fn recount(&mut self, layout: &Layout) {
        let mut counts = [[0; 2]; CHANNELS];
        for count in &mut counts[..layout.ports()] {
            count[0] = 1;
        }
        for thread in 0..THREADS {
            self.count_thread(layout, thread, &mut counts);
        }
        for (channel, [count, waiting]) in counts.into_iter().enumerate() {
            let row = self.channel_mut(channel);
            row[1..].copy_from_slice(&[count, waiting]);
            if count == 0 {
                row[0] = 0;
            }
        }
    }

    /// Adds what one thread holds to the counts.
    fn count_thread(&self, layout: &Layout, thread: usize, counts: &mut [[i32; 2]; CHANNELS]) {
        let waits = self.thread(thread)[0] == WAITING;
        for channel in self.held(layout, thread) {
            counts[channel][0] += 1;
            counts[channel][1] += i32::from(waits);
        }
    }

    /// The channels that a thread holds, each once; none for a free row.
    pub fn held(&self, layout: &Layout, thread: usize) -> Vec<usize> {
        let row = self.thread(thread);
        let Some(definition) = layout.definition_of(row[1]).filter(|_| row[0] != FREE) else {
            return Vec::new();
        };
        let mut held: Vec<usize> = layout
            .slot_types(definition)
            .into_iter()
            .zip(&row[2..])
            .filter(|(kind, word)| *kind != 0 && (0..CHANNELS as i32).contains(*word))
            .map(|(_, word)| *word as usize)
            .collect();
        held.sort_unstable();
        held.dedup();
        held
    }

    /// What a thread offers, in the order of its branches; nothing if it does not wait.
    pub fn offers(&self, layout: &Layout, thread: usize) -> Vec<Offer> {
        let [status, node, slots @ ..] = self.thread(thread) else { return Vec::new() };
        if *status != WAITING {
            return Vec::new();
        }
        let branches = (0..i32::from(layout.node(*node)[2])).map(|branch| layout.branch(*node, branch));
        let open = branches.enumerate().filter(|(_, branch)| guard_holds(branch, slots));
        open.filter(|(_, branch)| EXCHANGES.contains(&branch[4]))
            .map(|(number, branch)| Offer {
                branch: number,
                sends: branch[4] == EXCHANGES[0],
                channel: slots[branch[5] as usize] as usize,
            })
            .collect()
    }
}

/// Whether the guard of a branch, by itself, is true.
pub fn guard_holds(branch: &Row, slots: &[i32]) -> bool {
    let [guard, one, other] = [branch[1], branch[2], branch[3]];
    let slot = |number: i16| slots[number as usize];
    match guard {
        0 => true,
        1 => slot(one) == i32::from(other),
        2 => slot(one) < i32::from(other),
        3 => slot(one) == slot(other),
        _ => slot(one) < slot(other),
    }
}

fn thread_place(thread: usize) -> Range<usize> {
    let start = FRONT_WORDS + thread * THREAD_WORDS;
    start..start + 2 + SLOTS
}

fn channel_place(channel: usize) -> Range<usize> {
    let start = CHANNELS_START + channel * CHANNEL_WORDS;
    start..start + CHANNEL_WORDS
}
