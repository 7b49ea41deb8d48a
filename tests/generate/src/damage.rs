//! Files with faults, made from right ones.
//!
//! Most changes give a file that some ground refuses; now and then one is still right.

use crate::cases::BAD_FIELDS;
use crate::file::{text_of, File, Row, FIELDS, LINE_BYTES, MOST_LINES};
use crate::random::Random;

type ChangeRows = fn(&mut Change);
type ChangeBytes = fn(&mut Random, &mut [u8]);
type ChangeLength = fn(&mut Random, &mut Vec<u8>);

/// Changes that leave every line where it is.
const IN_PLACE: [ChangeRows; 23] = [
    any_field,
    any_field,
    header_count,
    traded_counts,
    kind,
    definition_count,
    traded_definitions,
    choice_count,
    traded_choices,
    sum_past_sixteen_bits,
    named_type,
    named_type,
    operand,
    operand_of_same_type,
    guard,
    action,
    action,
    dropped_write,
    target,
    node,
    call,
    call_argument,
    cut_off,
];

/// Changes that move lines.
const MOVING: [ChangeRows; 6] =
    [swapped, swapped_in_kind, overwritten, repeated_line, missing_line, counted_repetition];

const IN_TEXT: [ChangeBytes; 4] = [bad_field, bad_field, any_byte, bad_newline];
const IN_LENGTH: [ChangeLength; 5] = [shortened, lengthened, too_many_lines, slipped, emptied];

/// A file under change.
struct Change<'a> {
    random: &'a mut Random,
    file: &'a File,
    rows: Vec<Row>,
}

/// The rows of a file after one change or several.
pub fn damaged_rows(random: &mut Random, file: &File) -> Vec<Row> {
    let mut change = Change { random, file, rows: file.rows.clone() };
    let faults = change.random.pick(&[1, 1, 1, 1, 1, 1, 2, 2, 3, 5]);
    for _ in 0..faults {
        change.apply_one(&IN_PLACE);
    }
    if change.random.chance(12) {
        if change.random.chance(50) {
            change.rows.clone_from(&file.rows);
        }
        change.apply_one(&MOVING);
    }
    change.rows
}

/// The text of a file after one change or several.
pub fn damaged(random: &mut Random, file: &File) -> Vec<u8> {
    let mut text = match random.chance(6) {
        true => file.text(),
        false => text_of(&damaged_rows(random, file)),
    };
    if random.chance(12) {
        let apply = random.pick(&IN_TEXT);
        apply(random, &mut text);
    }
    if random.chance(3) {
        let apply = random.pick(&IN_LENGTH);
        apply(random, &mut text);
    }
    text
}

impl Change<'_> {
    /// Makes one of these changes; tries again where one finds nothing to change.
    fn apply_one(&mut self, changes: &[ChangeRows]) {
        let before = self.rows.clone();
        for _ in 0..4 {
            let apply = self.random.pick(changes);
            apply(self);
            if self.rows != before {
                return;
            }
        }
    }

    /// A place among the lines of this kind, if there are any.
    fn place(&mut self, kind: usize) -> Option<usize> {
        let section = self.file.section(kind);
        (!section.is_empty()).then(|| section.start + self.random.below(section.len()))
    }

    /// A place among the lines of any kind; kinds with few lines come as often as those with many.
    fn any_place(&mut self) -> usize {
        let kind = self.random.within(1..=6);
        self.place(kind).unwrap_or_else(|| self.random.below(self.file.rows.len()))
    }

    /// A number that is often just outside some range.
    fn value(&mut self, old: i16) -> i16 {
        let any = self.random.number();
        let small = self.random.below(20) as i16;
        let near = [old.wrapping_add(1), old.wrapping_sub(1), old.wrapping_neg()];
        let limits = [-1, 0, 1, 8, 9, 16, 17, 192, 193, 256, 257, 384, 385, i16::MIN, i16::MAX];
        let near = self.random.pick(&near);
        let limit = self.random.pick(&limits);
        self.random.pick(&[any, small, near, near, limit, limit])
    }

    fn set(&mut self, place: usize, field: usize) {
        self.rows[place][field] = self.value(self.rows[place][field]);
    }

    fn add(&mut self, place: usize, field: usize, more: i16) {
        self.rows[place][field] = self.rows[place][field].wrapping_add(more);
    }

    fn step(&mut self) -> i16 {
        self.random.pick(&[1, -1, 1, -1, 2, -2, 4, 8, -16, 20, 300])
    }

    /// A branch: its place, its definition and its node's number there.
    fn branch(&mut self) -> Option<(usize, usize, usize)> {
        let place = self.place(6)?;
        let owner = self.file.owners[place - self.file.section(6).start];
        Some((place, owner.definition, owner.node))
    }

    /// A node: its place and its definition.
    fn node(&mut self) -> (usize, usize) {
        let definition = self.random.below(self.file.size.definitions);
        let nodes = self.file.nodes_of[definition].clone();
        (nodes.start + self.random.below(nodes.len()), definition)
    }

    /// The number of some slot of a definition, or 0 if it has none.
    fn slot(&mut self, definition: usize) -> i16 {
        let slots = self.file.slots_of[definition].len();
        if slots == 0 {
            0
        } else {
            self.random.below(slots) as i16
        }
    }

    fn slot_type(&self, definition: usize, slot: i16) -> Option<i16> {
        let slots = self.file.slots_of[definition].clone();
        let place = slots.start.checked_add_signed(isize::from(slot))?;
        slots.contains(&place).then(|| self.rows[place][1])
    }

    /// The number of some node behind this one, or nothing if it is the last.
    fn later_node(&mut self, definition: usize, node: usize) -> Option<i16> {
        let last = self.file.nodes_of[definition].len() - 1;
        (node < last).then(|| self.random.within(node + 1..=last) as i16)
    }
}

fn any_field(change: &mut Change) {
    let place = change.any_place();
    let field = change.random.below(FIELDS);
    change.set(place, field);
}

fn header_count(change: &mut Change) {
    let field = change.random.within(1..=6);
    change.set(0, field);
}

/// One count of the header goes up and another down, so that the total stays.
fn traded_counts(change: &mut Change) {
    let (up, down) = (change.random.within(1..=5), change.random.within(1..=5));
    change.add(0, up, 1);
    change.add(0, down, -1);
}

fn kind(change: &mut Change) {
    let place = change.any_place();
    change.set(place, 0);
}

fn definition_count(change: &mut Change) {
    let more = change.step();
    let field = change.random.within(1..=3);
    if let Some(place) = change.place(3) {
        change.add(place, field, more);
    }
}

/// One definition gains slots or nodes and another loses as many, so that the sum stays.
fn traded_definitions(change: &mut Change) {
    let field = change.random.within(2..=3);
    let places = (change.place(3), change.place(3));
    trade(change, places, field);
}

fn choice_count(change: &mut Change) {
    let more = change.step();
    if let Some(place) = choice(change) {
        change.add(place, 2, more);
    }
}

/// One choice gains branches and another loses as many, so that the sum stays.
fn traded_choices(change: &mut Change) {
    let places = (choice(change), choice(change));
    trade(change, places, 2);
}

fn trade(change: &mut Change, places: (Option<usize>, Option<usize>), field: usize) {
    let more = change.step();
    if let (Some(up), Some(down)) = places {
        change.add(up, field, more);
        change.add(down, field, -more);
    }
}

/// Three numbers of a sum get 65,536 more together, which a sum of sixteen bits does not show.
fn sum_past_sixteen_bits(change: &mut Change) {
    let places = match change.random.chance(50) {
        true => [change.place(3), change.place(3), change.place(3)],
        false => [choice(change), choice(change), choice(change)],
    };
    let [Some(one), Some(two), Some(three)] = places else { return };
    if one != two && two != three && three != one {
        let rest =
            [one, two, three].map(|place| change.rows[place][2]).into_iter().fold(0, i16::wrapping_add);
        change.rows[one][2] = i16::MAX;
        change.rows[two][2] = i16::MAX;
        change.rows[three][2] = rest.wrapping_add(2);
    }
}

fn choice(change: &mut Change) -> Option<usize> {
    let (place, _) = change.node();
    (change.rows[place][1] == 1).then_some(place)
}

/// Another type that is there, for a slot or for what a type carries.
fn named_type(change: &mut Change) {
    let kind = change.random.pick(&[2, 4, 4]);
    let named = change.random.within(0..=change.file.size.types) as i16;
    if let Some(place) = change.place(kind) {
        change.rows[place][1] = named;
    }
}

fn operand(change: &mut Change) {
    if let Some((place, definition, _)) = change.branch() {
        let field = change.random.pick(&[2, 3, 5, 6, 7]);
        change.rows[place][field] = change.slot(definition);
    }
}

fn operand_of_same_type(change: &mut Change) {
    let Some((place, definition, _)) = change.branch() else { return };
    let field = change.random.pick(&[2, 3, 5, 6, 7]);
    let wanted = change.slot_type(definition, change.rows[place][field]);
    let slots = 0..change.file.slots_of[definition].len() as i16;
    let alike: Vec<i16> = slots.filter(|slot| change.slot_type(definition, *slot) == wanted).collect();
    if let Some(slot) = change.random.choose(&alike) {
        change.rows[place][field] = slot;
    }
}

/// Another guard over slots that are there.
fn guard(change: &mut Change) {
    let Some((place, definition, _)) = change.branch() else { return };
    let guard = change.random.within(0..=4) as i16;
    let operands = [change.slot(definition), change.slot(definition)];
    let used = if guard == 0 { 0 } else { 2 };
    put_operands(&mut change.rows[place][1..4], guard, &operands[..used]);
}

/// Another action over slots that are there.
fn action(change: &mut Change) {
    let Some((place, definition, node)) = change.branch() else { return };
    let action = change.random.below(8);
    let used = [0, 2, 2, 1, 0, 2, 3, 3][action];
    let operands = [0; 3].map(|_| change.slot(definition));
    put_operands(&mut change.rows[place][4..8], action as i16, &operands[..used]);
    let child = change.later_node(definition, node);
    change.rows[place][9] = if action == 4 { child.unwrap_or(0) } else { 0 };
}

/// A number and the operands that it has, then zeros.
fn put_operands(fields: &mut [i16], number: i16, operands: &[i16]) {
    fields.fill(0);
    fields[0] = number;
    fields[1..=operands.len()].copy_from_slice(operands);
}

fn dropped_write(change: &mut Change) {
    if let Some((place, ..)) = change.branch() {
        change.rows[place][4..8].fill(0);
        change.rows[place][9] = 0;
    }
}

/// Another next node or child: mostly one that is allowed.
fn target(change: &mut Change) {
    let Some((place, definition, node)) = change.branch() else { return };
    let field = if change.rows[place][4] == 4 { change.random.pick(&[8, 9]) } else { 8 };
    match change.later_node(definition, node) {
        Some(later) if change.random.chance(60) => change.rows[place][field] = later,
        _ => {
            let last = change.file.nodes_of[definition].len() as i16;
            let near = change.random.pick(&[node as i16, node as i16 - 1, last, last + 1, 0, -1]);
            change.rows[place][field] = near;
        }
    }
}

fn node(change: &mut Change) {
    let (place, _) = change.node();
    let field = change.random.within(1..=3);
    change.set(place, field);
}

/// An end or a call becomes a call over slots that are there.
fn call(change: &mut Change) {
    let (place, definition) = change.node();
    if change.rows[place][1] == 1 {
        return;
    }
    let called = change.random.below(change.file.size.definitions);
    let parameters = change.rows[change.file.section(3).start + called][1].clamp(0, 8) as usize;
    change.rows[place][1..].fill(0);
    change.rows[place][1..3].copy_from_slice(&[2, called as i16]);
    for field in 3..3 + parameters {
        change.rows[place][field] = change.slot(definition);
    }
}

fn call_argument(change: &mut Change) {
    let (place, definition) = change.node();
    if change.rows[place][1] == 2 {
        let field = change.random.within(3..=11);
        change.rows[place][field] = change.slot(definition);
    }
}

/// Every branch that leads to some node is turned to another, where it has a choice.
fn cut_off(change: &mut Change) {
    let (place, definition) = change.node();
    let node = (place - change.file.nodes_of[definition].start) as i16;
    let first_branch = change.file.section(6).start;
    for (index, owner) in change.file.owners.iter().enumerate() {
        for field in [8, 9] {
            let leads = change.rows[first_branch + index][field] == node;
            if node == 0 || owner.definition != definition || !leads {
                continue;
            }
            let last = change.file.nodes_of[definition].len() as i16 - 1;
            let others: Vec<i16> = (owner.node as i16 + 1..=last).filter(|other| *other != node).collect();
            if let Some(other) = change.random.choose(&others) {
                change.rows[first_branch + index][field] = other;
            }
        }
    }
}

fn swapped(change: &mut Change) {
    let places = (change.any_place(), change.any_place());
    change.rows.swap(places.0, places.1);
}

fn swapped_in_kind(change: &mut Change) {
    let kind = change.random.within(2..=6);
    if let (Some(one), Some(other)) = (change.place(kind), change.place(kind)) {
        change.rows.swap(one, other);
    }
}

fn overwritten(change: &mut Change) {
    let (from, to) = (change.any_place(), change.any_place());
    change.rows[to] = change.rows[from];
}

fn repeated_line(change: &mut Change) {
    let place = change.any_place();
    change.rows.insert(place, change.rows[place]);
}

fn missing_line(change: &mut Change) {
    let place = change.any_place();
    let line = change.rows.remove(place);
    if change.rows.is_empty() {
        change.rows.push([0; FIELDS]);
    } else if change.random.chance(50) {
        count_line(change, line, -1);
    }
}

/// A line stands twice and the header counts it.
fn counted_repetition(change: &mut Change) {
    let place = change.any_place();
    let line = change.rows[place];
    change.rows.insert(place, line);
    count_line(change, line, 1);
}

/// Corrects the header's count of the lines of this line's kind.
fn count_line(change: &mut Change, line: Row, more: i16) {
    if let 2..=6 = line[0] {
        change.add(0, line[0] as usize - 1, more);
    }
}

fn any_line(random: &mut Random, text: &[u8]) -> usize {
    random.below(text.len() / LINE_BYTES) * LINE_BYTES
}

fn bad_field(random: &mut Random, text: &mut [u8]) {
    let start = any_line(random, text) + 6 * random.below(FIELDS);
    let bad = random.pick(&BAD_FIELDS);
    text[start..start + 6].copy_from_slice(&bad);
}

fn bad_newline(random: &mut Random, text: &mut [u8]) {
    let place = any_line(random, text) + LINE_BYTES - 1;
    text[place] = random.pick(b" \r0\x00\x0b\x8a");
}

fn any_byte(random: &mut Random, text: &mut [u8]) {
    let place = random.below(text.len());
    let any = random.byte();
    text[place] = random.pick(&[any, b'0', b'1', b'-', b' ', b'\n', b'/', b':']);
}

fn shortened(random: &mut Random, text: &mut Vec<u8>) {
    let length = random.below(text.len());
    text.truncate(length);
}

fn lengthened(random: &mut Random, text: &mut Vec<u8>) {
    for _ in 0..random.within(1..=2 * LINE_BYTES) {
        text.push(random.pick(b" 0\n"));
    }
}

/// Whole lines, one or some more than a file may have.
fn too_many_lines(random: &mut Random, text: &mut Vec<u8>) {
    let lines = MOST_LINES + random.within(1..=3);
    let line = text[..LINE_BYTES].to_vec();
    while text.len() < lines * LINE_BYTES {
        text.extend_from_slice(&line);
    }
}

/// One byte is missing, and one more stands at the end.
fn slipped(random: &mut Random, text: &mut Vec<u8>) {
    let place = random.below(text.len());
    text.remove(place);
    text.push(b'\n');
}

fn emptied(_: &mut Random, text: &mut Vec<u8>) {
    text.clear();
}
