//! Grounds 6 and 7 of the reference against a plain walk along every path.
//!
//! The walk keeps what one path has written, so that a slot is read too early exactly if some path
//! comes to the read without it.

use std::collections::BTreeSet;

use generate::{any_valid, damaged_rows, table_of, text_of, Random, Row};

/// Lines at fault, and nodes come to, both as places in the rows.
#[derive(Default)]
struct Walk {
    seen: BTreeSet<(usize, u16)>,
    early: BTreeSet<usize>,
}

/// One definition's code.
struct Code<'a> {
    rows: &'a [Row],
    /// The places of all definitions' lines begin here.
    definitions: usize,
    first_node: usize,
    /// For each node of the file, where its branches begin.
    branches: &'a [usize],
    nodes: usize,
}

impl Code<'_> {
    fn walk(&self, walk: &mut Walk, number: i16, written: u16) {
        let place = self.first_node + number as usize;
        if !walk.seen.insert((place, written)) {
            return;
        }
        let row = &self.rows[place];
        match row[1] {
            1 => (0..row[2] as usize).for_each(|index| self.branch(walk, place, index, written)),
            2 => {
                let parameters = self.rows[self.definitions + row[2] as usize][1] as usize;
                note(walk, place, &row[3..3 + parameters], written);
            }
            _ => {}
        }
    }

    fn branch(&self, walk: &mut Walk, node: usize, index: usize, written: u16) {
        let place = self.branches[node - self.nodes] + index;
        let row = &self.rows[place];
        let guard = [0, 1, 1, 2, 2][row[1] as usize];
        note(walk, place, &row[2..2 + guard], written);
        let [a, b, c] = [row[5], row[6], row[7]];
        let (read, write) = match row[4] {
            1 => (vec![a, b], None),
            2 => (vec![a], Some(b)),
            3 | 5 => (vec![], Some(a)),
            6 | 7 => (vec![b, c], Some(a)),
            _ => (vec![], None),
        };
        note(walk, place, &read, written);
        let after = written | write.map_or(0, |slot| 1 << slot);
        self.walk(walk, row[8], after);
        if row[4] == 4 {
            self.walk(walk, row[9], after);
        }
    }
}

fn note(walk: &mut Walk, place: usize, read: &[i16], written: u16) {
    if read.iter().any(|slot| written >> slot & 1 == 0) {
        walk.early.insert(place);
    }
}

/// Ground and line, for rows that no ground up to 5 refuses.
fn verdict(rows: &[Row]) -> (i32, i32) {
    let [_, types, definitions, slots, nodes, ..] = rows[0].map(|number| number as usize);
    let first_definition = 1 + types;
    let first_node = first_definition + definitions + slots;
    let branches = branch_starts(&rows[first_node..first_node + nodes], first_node + nodes);
    let mut walk = Walk::default();
    let mut start = first_node;
    for row in &rows[first_definition..first_definition + definitions] {
        let code = Code {
            rows,
            definitions: first_definition,
            first_node: start,
            branches: &branches,
            nodes: first_node,
        };
        code.walk(&mut walk, 0, (1 << row[1]) - 1);
        start += row[3] as usize;
    }
    let reached: BTreeSet<usize> = walk.seen.iter().map(|(place, _)| *place).collect();
    let unreached = (first_node..first_node + nodes).find(|place| !reached.contains(place));
    match (walk.early.first(), unreached) {
        (Some(place), _) => (6, *place as i32 + 1),
        (None, Some(place)) => (7, place as i32 + 1),
        (None, None) => (0, 0),
    }
}

fn branch_starts(nodes: &[Row], first_branch: usize) -> Vec<usize> {
    let mut next = first_branch;
    let mut starts = Vec::new();
    for row in nodes {
        starts.push(next);
        next += if row[1] == 1 { row[2] as usize } else { 0 };
    }
    starts
}

#[test]
fn walks_along_every_path_agree() {
    let mut met = [0; 8];
    for seed in 7_000_000..7_003_000 {
        let mut random = Random::new(seed);
        let file = any_valid(&mut random);
        if file.size.branches > 60 {
            continue;
        }
        for _ in 0..8 {
            let rows = damaged_rows(&mut random, &file);
            let answer = match reference::load(&text_of(&rows)) {
                Ok(table) => {
                    assert!(table.to_bytes() == table_of(&rows), "seed {seed}");
                    (0, 0)
                }
                Err(refusal) => (refusal.ground, refusal.line),
            };
            met[answer.0 as usize] += 1;
            if [0, 6, 7].contains(&answer.0) {
                assert_eq!(answer, verdict(&rows), "seed {seed}");
            }
        }
    }
    println!("{met:?}");
    assert!(met[0] > 500 && met[6] > 300 && met[7] > 150);
}
