//! Lines in words, and the places of lines.

use generate::{any_valid, cases, padded, File, Random, Row};
use reader::{fields_of, Layout, Place};

fn words(rows: &[Row], line: usize) -> String {
    Layout::of(rows).words(line)
}

#[test]
fn lines_of_one_definition() {
    let rows = cases::LISTING.map(padded);
    let expected = [
        (1, "header: 1 type, 1 definition, 2 slots, 6 nodes, 5 branches, 0 ports"),
        (2, "type 1: its channels carry numbers"),
        (3, "definition 0: 0 parameters, 2 slots, 6 nodes"),
        (4, "slot 0: type 1, channels that carry numbers"),
        (5, "slot 1: type 0, numbers"),
        (6, "node 0: a choice with 1 branch"),
        (11, "node 5: an end"),
        (12, "branch 0 of node 0: slot 0 becomes a new channel, then node 1"),
        (13, "branch 0 of node 1: a thread starts at node 4, then node 2"),
        (14, "branch 0 of node 2: set slot 1 to 7, then node 3"),
        (15, "branch 0 of node 3: send on slot 0 what slot 1 has, then node 5"),
        (16, "branch 0 of node 4: receive on slot 0 into slot 1, then node 5"),
        (17, "line 17: there is none"),
    ];
    for (line, said) in expected {
        assert_eq!(words(&rows, line), said);
    }
}

#[test]
fn lines_of_two_definitions() {
    let rows = cases::PAIR.map(padded);
    let expected = [
        (3, "type 2: its channels carry channels of type 2"),
        (6, "slot 0 of definition 0, port 0: type 1, channels that carry numbers"),
        (8, "slot 2 of definition 0: type 2, channels that carry type 2"),
        (10, "slot 1 of definition 1, a parameter: type 0, numbers"),
        (13, "node 2 of definition 0: a call of definition 1 with slots 0 and 1"),
        (15, "node 1 of definition 1: a call of definition 0 with slot 0"),
        (19, "branch 0 of node 0 of definition 1: if slot 1 is below 0, do nothing, then node 2"),
        (20, "branch 1 of node 0 of definition 1: send on slot 0 what slot 1 has, then node 1"),
    ];
    for (line, said) in expected {
        assert_eq!(words(&rows, line), said);
    }
}

/// What guards, sums and numbers that there are none of are called.
#[test]
fn single_lines() {
    let expected: [(&[i16], &str); 9] = [
        (&[6, 1, 0, -5, 7, 2, 2, 1, 4], "a branch of no node: if slot 0 is -5, slot 2 becomes slot 2 minus slot 1, then node 4"),
        (&[6, 3, 0, 1, 6, 1, 2, 3, 4], "a branch of no node: if slot 0 and slot 1 have the same number, slot 1 becomes slot 2 plus slot 3, then node 4"),
        (&[6, 4, 1, 2, 0, 0, 0, 0, 4], "a branch of no node: if slot 1 is below slot 2, do nothing, then node 4"),
        (&[6, 9, 1, 2, -8, 0, 0, 0, 4], "a branch of no node: guard 9, and there is no such guard, action -8, and there is no such action, then node 4"),
        (&[5, 3], "a node of no definition: a node of kind 3, and there is no such kind"),
        (&[4, 7], "a slot of no definition: type 7, and there is no such type"),
        (&[7, 7], "a line of kind 7, and there is no such kind"),
        (&[1, 1, 2, 3, 4, 1, 1], "header: 1 type, 2 definitions, 3 slots, 4 nodes, 1 branch, 1 port"),
        (&[3, -1, 1, 192], "definition 0: -1 parameters, 1 slot, 192 nodes"),
    ];
    for (row, said) in expected {
        assert_eq!(words(&[padded(row)], 1), said);
    }
}

/// The place of a line by what the generator knows of its file.
fn expected_place(file: &File, index: usize) -> Place {
    let inside = |parts: &[std::ops::Range<usize>]| {
        let definition = parts.iter().position(|part| part.contains(&index)).expect("it belongs somewhere");
        (definition, index - parts[definition].start)
    };
    match file.rows[index][0] {
        1 => Place::Header,
        2 => Place::Type(index),
        3 => Place::Definition(index - file.section(3).start),
        4 => {
            let (definition, number) = inside(&file.slots_of);
            Place::Slot { definition, number }
        }
        5 => {
            let (definition, number) = inside(&file.nodes_of);
            Place::Node { definition, number }
        }
        _ => {
            let branch = index - file.section(6).start;
            let owner = file.owners[branch];
            let alike = |other: &usize| {
                (file.owners[*other].definition, file.owners[*other].node) == (owner.definition, owner.node)
            };
            let number = (0..branch).rev().take_while(alike).count();
            Place::Branch { definition: owner.definition, node: owner.node, number }
        }
    }
}

#[test]
fn places_and_ranges_in_right_files() {
    for seed in 61_000_000..61_002_000 {
        let file = any_valid(&mut Random::new(seed));
        let layout = Layout::of(&file.rows);
        for (line, place, row) in layout.lines() {
            assert_eq!(place, expected_place(&file, line - 1), "seed {seed}, line {line}");
            assert_eq!(layout.line_at(place), Some(line), "seed {seed}");
            for (field, number) in fields_of(row, place, &layout).iter().zip(row) {
                assert!(field.range.contains(number), "seed {seed}, line {line}: {number} as {field:?}");
            }
        }
    }
}

/// Rows of any numbers have words.
#[test]
fn rows_of_any_numbers() {
    for seed in 62_000_000..62_003_000 {
        let random = &mut Random::new(seed);
        let mut rows = vec![[0; 12]; random.within(0..=40)];
        for number in rows.as_flattened_mut() {
            *number = if random.chance(80) { random.below(8) as i16 } else { random.number() };
        }
        let layout = Layout::of(&rows);
        for (line, place, row) in layout.lines() {
            assert!(!layout.words(line).is_empty());
            fields_of(row, place, &layout);
        }
    }
}
