//! Where each line of a procedure file belongs.

use pithread::Row;

/// The kinds of line, as field 1 says them.
pub(crate) const HEADER: i16 = 1;
pub(crate) const TYPE: i16 = 2;
pub(crate) const DEFINITION: i16 = 3;
pub(crate) const SLOT: i16 = 4;
pub(crate) const NODE: i16 = 5;
pub(crate) const BRANCH: i16 = 6;

/// The kinds of node, as field 2 says them.
pub(crate) const END: i16 = 0;
pub(crate) const CHOICE: i16 = 1;
pub(crate) const CALL: i16 = 2;

/// What a line describes, by the number that this has.
#[derive(Clone, Copy, Debug, PartialEq, Eq)]
pub enum Place {
    /// The header.
    Header,
    /// The type of this number, from 1.
    Type(usize),
    /// The definition of this number.
    Definition(usize),
    /// A slot.
    Slot {
        /// The definition that it belongs to.
        definition: usize,
        /// Its number there.
        number: usize,
    },
    /// A node.
    Node {
        /// The definition that it belongs to.
        definition: usize,
        /// Its number there.
        number: usize,
    },
    /// A branch.
    Branch {
        /// The definition that it belongs to.
        definition: usize,
        /// The node there that it belongs to.
        node: usize,
        /// Its number in the choice.
        number: usize,
    },
    /// The line has a kind that there is none of, or more of its kind stand before it than there is room for.
    Nowhere,
}

/// What a definition has.
#[derive(Clone, Debug, Default, PartialEq, Eq)]
pub struct Definition {
    /// How many parameters: its first slots.
    pub parameters: usize,
    /// The type of each slot.
    pub slots: Vec<i16>,
    /// How many nodes.
    pub nodes: usize,
}

/// The place of each line. For rows that no loader would take it is as good as can be: each line counts by its
/// own kind, whatever the header says.
pub struct Layout<'a> {
    rows: &'a [Row],
    places: Vec<Place>,
    definitions: Vec<Definition>,
    carried: Vec<i16>,
}

impl<'a> Layout<'a> {
    /// The places of these rows.
    pub fn of(rows: &'a [Row]) -> Layout<'a> {
        let definitions = definitions_of(rows);
        let carried = rows.iter().filter(|row| row[0] == TYPE).map(|row| row[1]).collect();
        let places = places_of(rows, &definitions);
        Layout { rows, places, definitions, carried }
    }

    /// All rows.
    pub fn rows(&self) -> &'a [Row] {
        self.rows
    }

    /// The row of a line, counted from 1.
    pub fn row(&self, line: usize) -> Option<&'a Row> {
        self.rows.get(line.checked_sub(1)?)
    }

    /// The place of a line, counted from 1.
    pub fn place(&self, line: usize) -> Place {
        let place = line.checked_sub(1).and_then(|index| self.places.get(index));
        place.copied().unwrap_or(Place::Nowhere)
    }

    /// All lines, counted from 1, with their places and rows.
    pub fn lines(&self) -> impl Iterator<Item = (usize, Place, &'a Row)> + '_ {
        (1..).zip(self.places.iter().copied().zip(self.rows)).map(|(line, (place, row))| (line, place, row))
    }

    /// The line at a place, counted from 1.
    pub fn line_at(&self, place: Place) -> Option<usize> {
        self.places.iter().position(|other| *other == place).map(|index| index + 1)
    }

    /// All definitions.
    pub fn definitions(&self) -> &[Definition] {
        &self.definitions
    }

    /// The definition of a number, if there is one.
    pub fn definition(&self, number: i16) -> Option<&Definition> {
        self.definitions.get(usize::try_from(number).ok()?)
    }

    /// How many types there are.
    pub fn types(&self) -> usize {
        self.carried.len()
    }

    /// The type that channels of this type carry, if it is one of channels.
    pub fn carried(&self, channel: i16) -> Option<i16> {
        self.carried.get(usize::try_from(channel).ok()?.checked_sub(1)?).copied()
    }

    /// The slots that a call hands over: one for each parameter of the definition that it calls.
    pub fn arguments<'r>(&self, call: &'r Row) -> &'r [i16] {
        let parameters = self.definition(call[2]).map_or(0, |called| called.parameters);
        &call[3..3 + parameters]
    }
}

/// A count that a line says, or the nearest that it could say.
fn count(number: i16, most: usize) -> usize {
    usize::try_from(number).unwrap_or(0).min(most)
}

fn definitions_of(rows: &[Row]) -> Vec<Definition> {
    let mut types = rows.iter().filter(|row| row[0] == SLOT).map(|row| row[1]);
    let lines = rows.iter().filter(|row| row[0] == DEFINITION);
    lines
        .map(|row| Definition {
            parameters: count(row[1], 8),
            slots: types.by_ref().take(count(row[2], 16)).collect(),
            nodes: count(row[3], 192),
        })
        .collect()
}

/// The places of the slots, of the nodes and of the branches, each in the order of their lines.
fn places_of(rows: &[Row], definitions: &[Definition]) -> Vec<Place> {
    let each = |size: fn(&Definition) -> usize| {
        let numbered = definitions.iter().enumerate();
        numbered.flat_map(move |(number, definition)| (0..size(definition)).map(move |place| (number, place)))
    };
    let mut slots = each(|definition| definition.slots.len())
        .map(|(definition, number)| Place::Slot { definition, number });
    let mut nodes =
        each(|definition| definition.nodes).map(|(definition, number)| Place::Node { definition, number });
    let mut branches = branch_places(rows, nodes.clone());
    let (mut types, mut definitions) = (1.., 0..);
    let place_of = |row: &Row| match row[0] {
        HEADER => Some(Place::Header),
        TYPE => types.next().map(Place::Type),
        DEFINITION => definitions.next().map(Place::Definition),
        SLOT => slots.next(),
        NODE => nodes.next(),
        BRANCH => branches.next(),
        _ => None,
    };
    rows.iter().map(place_of).map(|place| place.unwrap_or(Place::Nowhere)).collect()
}

fn branch_places<'a>(
    rows: &'a [Row],
    nodes: impl Iterator<Item = Place> + 'a,
) -> impl Iterator<Item = Place> + 'a {
    let lines = rows.iter().filter(|row| row[0] == NODE);
    lines.zip(nodes).flat_map(|(row, place)| {
        let branches = if row[1] == CHOICE { count(row[2], 8) } else { 0 };
        (0..branches).map(move |number| match place {
            Place::Node { definition, number: node } => Place::Branch { definition, node, number },
            _ => Place::Nowhere,
        })
    })
}
