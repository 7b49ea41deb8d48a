//! The example in the README is the one of the crate, which is run.

const README: &str = include_str!("../../../README.md");
const CRATE: &str = include_str!("../src/lib.rs");

/// The lines of the first block of code after these words.
fn block<'a>(text: &'a str, opening: &str) -> Vec<&'a str> {
    let lines = text.lines().skip_while(|line| *line != opening).skip(1);
    lines.take_while(|line| !line.ends_with("```")).collect()
}

#[test]
fn the_example_in_the_readme_is_run() {
    let shown = block(README, "```rust");
    let run = block(CRATE, "//! ```").into_iter().map(|line| line.trim_start_matches("//!"));
    let run: Vec<String> = run
        .filter(|line| !line.starts_with(" #"))
        .map(|line| line.strip_prefix(' ').unwrap_or(line).replace("../../examples", "examples"))
        .collect();
    assert_eq!(shown, run);
    assert!(shown.len() >= 15, "{shown:?}");
}
