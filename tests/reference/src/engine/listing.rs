//! What the listing program prints for a file: its first steps, and what a collection then takes.

use crate::load;

use super::code::Code;
use super::run_steps;
use super::state::{members, State};

/// How many steps are made at most.
const STEPS: u16 = 1_000;
const HEADING: &[u8] = b"  STEPTHREAD  NODE   ACTBRANCH  WITH\n";

/// For a file that is refused one line: the ground, and the line at fault.
pub fn listing(file: &[u8]) -> Vec<u8> {
    match load(file) {
        Ok(table) => {
            let mut code = Code::new();
            code.read(&table.to_bytes()).expect("loading yields this table");
            list(&code)
        }
        Err(refusal) => line(&[refusal.ground, refusal.line]),
    }
}

/// The heading, a line for each step, the closing line, a line for each thread that is collected.
fn list(code: &Code) -> Vec<u8> {
    let mut text = HEADING.to_vec();
    let mut state = State::at_start(code);
    let mut step = 0;
    let ran = run_steps(code, &mut state, STEPS, |thread, did| {
        step += 1;
        text.extend(line(&[step, thread as i32, did.node, did.act, did.branch, did.partner]));
    });
    let lost = members(state.lost(code)).map(|thread| [thread, state.threads[thread].node]);
    let lost: Vec<[usize; 2]> = lost.collect();
    let collected = state.collect(code) as i32;
    let in_use = state.used.count_ones() as i32;
    text.extend(line(&[ran.steps, ran.reason, ran.thread, collected, in_use]));
    lost.iter().for_each(|waited| text.extend(line(waited)));
    text
}

/// Numbers in columns of 6.
fn line<T: std::fmt::Display>(numbers: &[T]) -> Vec<u8> {
    let columns: String = numbers.iter().map(|number| format!("{number:6}")).collect();
    format!("{columns}\n").into_bytes()
}
