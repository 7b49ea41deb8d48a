//! Right files, made so that they are right: each step keeps what the loader will ask for.

use crate::file::{padded, File, Row};
use crate::profile::{Profile, ANY};
use crate::random::Random;
use crate::size::Size;

pub const MOST_SLOTS: usize = 16;
pub const MOST_PARAMETERS: usize = 8;
const MOST_BRANCHES: usize = 8;

pub struct Definition {
    pub parameters: usize,
    /// The types of its slots.
    pub slots: Vec<usize>,
    /// For each of its nodes, how many branches it has; 0 for an end or a call.
    pub branches: Vec<usize>,
}

/// How large a definition is to be.
pub struct Shape {
    pub slots: usize,
    pub choices: usize,
    pub branches: usize,
}

pub struct Maker<'a> {
    pub random: &'a mut Random,
    pub profile: &'a Profile,
    /// Without the opening, if the profile has one.
    pub size: Size,
    /// For each type from 1, the type that it carries.
    pub carried: Vec<usize>,
    definitions: Vec<Definition>,
}

/// A right file of some size.
pub fn any_valid(random: &mut Random) -> File {
    profiled(random, &ANY)
}

/// A right file of this profile.
pub fn profiled(random: &mut Random, profile: &Profile) -> File {
    let size = (profile.size)(random);
    make(random, profile, size)
}

/// A right file of exactly this size, which must be one that a right file can have.
pub fn valid(random: &mut Random, size: Size) -> File {
    make(random, &ANY, size)
}

fn make(random: &mut Random, profile: &Profile, size: Size) -> File {
    let carried = (0..size.types).map(|_| random.within(0..=size.types)).collect();
    let mut maker = Maker { random, profile, size, carried, definitions: Vec::new() };
    if size.ports > 0 {
        maker.carried[0] = 0;
    }
    maker.definitions = match &profile.opening {
        Some(opening) => maker.make_opened(opening),
        None => maker.make_definitions(),
    };
    maker.make_file()
}

impl Maker<'_> {
    fn make_definitions(&mut self) -> Vec<Definition> {
        let mut least = vec![0; self.size.definitions];
        least[0] = self.size.ports;
        let shapes = self.make_shapes(least);
        let definitions = shapes.into_iter().enumerate();
        definitions.map(|(number, shape)| self.make_definition(number, shape)).collect()
    }

    /// The sizes of as many definitions as there are least counts of slots.
    pub fn make_shapes(&mut self, least_slots: Vec<usize>) -> Vec<Shape> {
        let count = least_slots.len();
        let slots = self.random.share(least_slots, &vec![MOST_SLOTS; count], self.size.slots);
        let nodes = self.random.share(vec![1; count], &vec![usize::MAX; count], self.size.nodes);
        let choices: Vec<usize> = nodes.iter().map(|nodes| nodes - 1).collect();
        let most: Vec<usize> = choices.iter().map(|choices| choices * MOST_BRANCHES).collect();
        let branches = self.random.share(choices.clone(), &most, self.size.branches);
        let shape =
            |number| Shape { slots: slots[number], choices: choices[number], branches: branches[number] };
        (0..count).map(shape).collect()
    }

    fn make_definition(&mut self, number: usize, shape: Shape) -> Definition {
        let parameters = match number {
            0 => self.size.ports,
            _ => self.random.within(0..=shape.slots.min(MOST_PARAMETERS)),
        };
        let mut slots: Vec<usize> = (0..shape.slots).map(|_| self.make_slot()).collect();
        if number == 0 {
            slots[..parameters].fill(1);
        }
        Definition { parameters, slots, branches: self.make_branch_counts(&shape) }
    }

    /// The type of some slot.
    pub fn make_slot(&mut self) -> usize {
        if self.random.chance(self.profile.numbers) {
            return 0;
        }
        self.random.within(0..=self.size.types)
    }

    /// How many branches each node has, the last none. Up to each node there are at least as many
    /// branches as nodes to lead to.
    pub fn make_branch_counts(&mut self, shape: &Shape) -> Vec<usize> {
        let limits = vec![MOST_BRANCHES; shape.choices];
        let mut counts = self.random.share(vec![1; shape.choices], &limits, shape.branches);
        for node in 1..shape.choices {
            if self.random.chance(15) {
                self.hand_down(&mut counts, node);
            }
        }
        counts.push(0);
        counts
    }

    /// Takes all its branches from a node and gives them to choices before it, if these have room.
    fn hand_down(&mut self, counts: &mut [usize], node: usize) {
        let (before, from) = counts.split_at_mut(node);
        let has_room = |count: usize| (1..MOST_BRANCHES).contains(&count);
        while from[0] > 0 {
            let room: Vec<usize> = (0..node).filter(|place| has_room(before[*place])).collect();
            let Some(place) = self.random.choose(&room) else { return };
            before[place] += 1;
            from[0] -= 1;
        }
    }

    fn make_file(&mut self) -> File {
        let mut rows = self.make_declarations();
        let mut branches = Vec::new();
        let definitions = std::mem::take(&mut self.definitions);
        for (number, definition) in definitions.iter().enumerate() {
            match number == 0 && self.profile.opening.is_some() {
                true => self.make_opening_code(&definitions, &mut rows, &mut branches),
                false => self.make_code(&definitions, definition, &mut rows, &mut branches),
            }
        }
        rows.append(&mut branches);
        File::new(rows)
    }

    fn make_declarations(&self) -> Vec<Row> {
        let definitions = &self.definitions;
        let slots: Vec<usize> = definitions.iter().flat_map(|definition| definition.slots.clone()).collect();
        let nodes = definitions.iter().map(|definition| definition.branches.len()).sum();
        let branches = definitions.iter().flat_map(|definition| &definition.branches).sum();
        let (types, ports) = (self.size.types, self.size.ports);
        let mut rows = vec![row(&[1, types, definitions.len(), slots.len(), nodes, branches, ports])];
        rows.extend(self.carried.iter().map(|carried| row(&[2, *carried])));
        rows.extend(definitions.iter().map(|definition| {
            row(&[3, definition.parameters, definition.slots.len(), definition.branches.len()])
        }));
        rows.extend(slots.iter().map(|slot| row(&[4, *slot])));
        rows
    }
}

pub fn row(numbers: &[usize]) -> Row {
    let numbers: Vec<i16> = numbers.iter().map(|number| small(*number)).collect();
    padded(&numbers)
}

pub fn small(number: usize) -> i16 {
    i16::try_from(number).expect("counts and numbers in a file are small")
}
