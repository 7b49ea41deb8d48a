//! The header is read as text, and everything in it has to stand in this crate, and the other way about.

use crate::{ANSWERS, NUMBERS};

const HEADER: &str = include_str!("../../../include/pithread.h");

/// The header without its comments.
fn code() -> String {
    let mut code = String::new();
    for (place, part) in HEADER.split("/*").enumerate() {
        code += match place {
            0 => part,
            _ => part.split_once("*/").expect("a comment has an end").1,
        };
    }
    code
}

/// Every number that is defined or enumerated: its name without the prefix, and its value.
fn numbers_of(code: &str) -> Vec<(String, i64)> {
    let words: Vec<&str> = code.split(|c: char| c.is_whitespace() || "(),;".contains(c)).collect();
    let words: Vec<&str> = words.into_iter().filter(|word| !word.is_empty() && *word != "=").collect();
    let named = words.windows(2).filter_map(|pair| {
        let name = pair[0].strip_prefix("PITHREAD_")?;
        Some((name.to_string(), pair[1].parse().ok()?))
    });
    named.collect()
}

/// Every struct: its name without the prefix, and its numbers in order.
fn answers_of(code: &str) -> Vec<(String, Vec<String>)> {
    let structs = code.split("typedef struct {").skip(1).map(|rest| {
        let (body, after) = rest.split_once('}').expect("a struct has an end");
        let name = after.split(';').next().and_then(|name| name.trim().strip_prefix("pithread_"));
        let numbers = body.split(';').map(str::trim).filter(|number| !number.is_empty());
        let numbers = numbers.map(|number| number.strip_prefix("int32_t ").expect("32 bits").to_string());
        (name.expect("a name with the prefix").to_string(), numbers.collect())
    });
    structs.collect()
}

#[test]
fn the_numbers_are_those_of_the_header() {
    let mut theirs = numbers_of(&code());
    let mut ours: Vec<(String, i64)> =
        NUMBERS.iter().map(|(name, value)| (name.to_string(), *value)).collect();
    theirs.sort();
    ours.sort();
    assert_eq!(ours, theirs);
    assert!(ours.len() > 40, "{}", ours.len());
}

#[test]
fn the_answers_are_those_of_the_header() {
    let theirs = answers_of(&code());
    let ours: Vec<(String, Vec<String>)> = ANSWERS
        .iter()
        .map(|(name, numbers)| {
            (name.to_lowercase(), numbers.iter().map(|(number, _)| number.to_string()).collect())
        })
        .collect();
    assert_eq!(ours, theirs);
    for (name, numbers) in ANSWERS {
        let places: Vec<usize> = numbers.iter().map(|(_, place)| *place).collect();
        let in_order: Vec<usize> = (0..numbers.len()).map(|number| 4 * number).collect();
        assert_eq!(places, in_order, "{name}");
    }
}
