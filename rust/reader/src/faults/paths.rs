//! Grounds 6 and 7: slots that may be unwritten where they are read, and nodes to which nothing leads.

use pithread::{Refusal, Row};

use super::Finding;
use crate::fields::{fields_of, Use, SPAWN};
use crate::layout::{Layout, Place};
use crate::words::{action_words, listed};

/// The most nodes of which it is said where they lead.
const MOST_LEADING: usize = 12;
const EVERY_SLOT: u16 = u16::MAX;

/// A way from a node to a later one of the same definition.
struct Way {
    line: usize,
    from: usize,
    to: usize,
    /// Whether it is the child of a spawn that goes it.
    child: bool,
    writes: Option<i16>,
}

/// The ways inside a definition, and what is surely written at each node; every slot where none leads to.
struct Ways {
    ways: Vec<Way>,
    written: Vec<u16>,
    reached: Vec<bool>,
}

/// What is at fault, ground 6 before ground 7. All ranges must have been found right.
pub fn faults(layout: &Layout) -> Vec<Finding> {
    let all: Vec<Ways> = (0..layout.definitions().len()).map(|number| Ways::of(layout, number)).collect();
    let mut found = Vec::new();
    for (line, place, row) in layout.lines() {
        if let Place::Node { definition, number: node } | Place::Branch { definition, node, .. } = place {
            found.extend(all[definition].unwritten(layout, line, place, row, node));
        }
    }
    for (line, place, _) in layout.lines() {
        if let Place::Node { definition, number } = place {
            found.extend(all[definition].unreached(line, number));
        }
    }
    found
}

impl Ways {
    fn of(layout: &Layout, definition: usize) -> Ways {
        let of_branch = |(line, place, row): (usize, Place, &Row)| match place {
            Place::Branch { definition: owner, node, .. } if owner == definition => {
                ways_of(layout, line, place, row, node)
            }
            _ => Vec::new(),
        };
        let size = &layout.definitions()[definition];
        let ways = layout.lines().flat_map(of_branch).collect();
        let mut all = Ways { ways, written: vec![EVERY_SLOT; size.nodes], reached: vec![false; size.nodes] };
        all.written[0] = (1 << size.parameters) - 1;
        all.reached[0] = true;
        // Ways lead forward and stand in the order of their nodes, so that all is known of a node when its own come.
        for way in &all.ways {
            if all.reached[way.from] {
                all.written[way.to] &= all.written[way.from] | way.writes.map_or(0, bit);
                all.reached[way.to] = true;
            }
        }
        all
    }

    /// The slots that a line reads and that are not written on every path to its node.
    fn unwritten(&self, layout: &Layout, line: usize, place: Place, row: &Row, node: usize) -> Vec<Finding> {
        let fields = (1..).zip(fields_of(row, place, layout)).zip(row);
        let mut named = self.written[node];
        let mut found = Vec::new();
        for ((field, about), slot) in fields.filter(|((_, field), _)| field.usage == Use::Read) {
            if named & bit(*slot) == 0 {
                named |= bit(*slot);
                let wrong = format!("field {field}, {}: slot {slot} may not have been written", about.name);
                let expected = "a parameter, or a slot that is written on every path to here";
                let finding = Finding::new(Refusal::Read { line: line as u32 }, Some(field), wrong, expected);
                found.push(finding.with_notes(self.path_words(layout, *slot, node)));
            }
        }
        found
    }

    /// A path to a node, of the fewest ways, on which nothing writes a slot.
    fn path(&self, slot: i16, node: usize) -> Vec<&Way> {
        // The last way to each node, and how many there are up to it.
        let mut came: Vec<Option<(&Way, usize)>> = vec![None; self.reached.len()];
        for way in self.ways.iter().filter(|way| way.writes != Some(slot)) {
            let before = if way.from == 0 { Some(0) } else { came[way.from].map(|(_, length)| length) };
            let Some(before) = before else { continue };
            if came[way.to].is_none_or(|(_, length)| length > before + 1) {
                came[way.to] = Some((way, before + 1));
            }
        }
        let last = |node: usize| came[node].map(|(way, _)| way);
        let mut path: Vec<&Way> = std::iter::successors(last(node), |way| last(way.from)).collect();
        path.reverse();
        path
    }

    fn path_words(&self, layout: &Layout, slot: i16, node: usize) -> Vec<String> {
        let path = self.path(slot, node);
        if path.is_empty() {
            return vec![format!("a thread comes in at node 0, and slot {slot} is no parameter")];
        }
        let mut words = vec![format!("a path on which nothing writes slot {slot}:")];
        for way in path {
            let action = layout.row(way.line).map_or_else(String::new, action_words);
            let who = if way.child { "the child goes" } else { "goes" };
            words.push(format!(
                "    node {}: {action}; {who} to node {} (line {})",
                way.from, way.to, way.line
            ));
        }
        words
    }

    /// A node to which no path leads, with what leads where before it.
    fn unreached(&self, line: usize, node: usize) -> Option<Finding> {
        if self.reached[node] {
            return None;
        }
        let wrong = format!("no path from node 0 leads to node {node}");
        let expected = "a branch with it as its next node or its child's node";
        let finding = Finding::new(Refusal::Unreachable { line: line as u32 }, None, wrong, expected);
        Some(finding.with_notes(self.leading(node)))
    }

    fn leading(&self, node: usize) -> Vec<String> {
        let from = |number: usize| -> Vec<usize> {
            let mut to: Vec<usize> =
                self.ways.iter().filter(|way| way.from == number).map(|way| way.to).collect();
            to.sort_unstable();
            to.dedup();
            to
        };
        let leads = (0..node).rev().filter_map(|number| {
            let to = from(number);
            let unreached = if self.reached[number] { "" } else { ", and nothing leads to it" };
            (!to.is_empty()).then(|| format!("node {number} leads to {}{unreached}", listed(&to)))
        });
        let mut notes: Vec<String> = leads.take(MOST_LEADING).collect();
        notes.reverse();
        if notes.is_empty() {
            notes.push("no node before it leads anywhere".to_owned());
        }
        notes
    }
}

fn ways_of(layout: &Layout, line: usize, place: Place, row: &Row, from: usize) -> Vec<Way> {
    let fields = fields_of(row, place, layout);
    let written = fields.iter().zip(row).find(|(field, _)| field.usage == Use::Write);
    let writes = written.map(|(_, slot)| *slot);
    let way = |to: i16, child| Way { line, from, to: usize::from(to.unsigned_abs()), child, writes };
    let mut ways = vec![way(row[8], false)];
    if row[4] == SPAWN {
        ways.push(way(row[9], true));
    }
    ways
}

/// The bit of a slot.
fn bit(slot: i16) -> u16 {
    1 << slot
}
