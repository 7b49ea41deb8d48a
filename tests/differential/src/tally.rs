//! What a run of comparisons has met, so that a run cannot pass by missing its aim.

use std::collections::{BTreeMap, BTreeSet};

use crate::comparison::Answer;

#[derive(Default)]
pub struct Tally {
    files: usize,
    hits: BTreeMap<i32, usize>,
    lines: BTreeMap<i32, BTreeSet<i32>>,
    /// Ground, and the kind that the line at fault should have by its place.
    kinds: BTreeMap<(i32, usize), usize>,
}

impl Tally {
    /// Counts an answer; the kind is that of the line at fault in the file before it was changed.
    pub fn add(&mut self, (ground, line): Answer, kind: Option<usize>) {
        self.files += 1;
        *self.hits.entry(ground).or_default() += 1;
        self.lines.entry(ground).or_default().insert(line);
        if let Some(kind) = kind {
            *self.kinds.entry((ground, kind)).or_default() += 1;
        }
    }

    pub fn files(&self) -> usize {
        self.files
    }

    /// The ground came at least so often, and at so many different lines.
    pub fn expect(&self, ground: i32, hits: usize, lines: usize) {
        let met = (self.hits_of(ground), self.lines.get(&ground).map_or(0, BTreeSet::len));
        println!("ground {ground}: {} times, at {} lines", met.0, met.1);
        assert!(met.0 >= hits && met.1 >= lines, "ground {ground}: {met:?}, wanted {:?}", (hits, lines));
    }

    /// The ground came at least so often at lines of each of these kinds.
    pub fn expect_kinds(&self, ground: i32, kinds: &[usize], hits: usize) {
        for kind in kinds {
            let met = self.kinds.get(&(ground, *kind)).copied().unwrap_or(0);
            println!("ground {ground} at kind {kind}: {met} times");
            assert!(met >= hits, "ground {ground} at lines of kind {kind}: {met} times, wanted {hits}");
        }
    }

    fn hits_of(&self, ground: i32) -> usize {
        self.hits.get(&ground).copied().unwrap_or(0)
    }
}
