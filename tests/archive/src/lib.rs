//! The delivered archive, `libpithread.a`, in the form that all engines of the tests have.

use interface::Engine;
use pithread::raw::{collect, give, load, run, start, step, take};
pub use pithread::raw::{profile, write};

/// The archive's calls on a table and a state.
pub const ENGINE: Engine = Engine { start, step, give, take, run, collect };

/// Loads a file into a table buffer of any length; the answer as ground and line.
pub fn answer(file: &[u8], table: &mut [u8]) -> (i32, i32) {
    let loaded = load(file, table);
    (loaded.refusal, loaded.line)
}
