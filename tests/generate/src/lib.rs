//! Makes procedure files, tables, states and lists of rights for the tests: right ones, and ones with faults.
//!
//! Everything follows from a seed, so that a failing test can be run again.

mod calls;
pub mod cases;
mod code;
pub mod compose;
mod damage;
mod file;
mod opening;
pub mod procedures;
mod profile;
mod random;
pub mod rental;
mod rules;
mod seats;
mod size;
pub mod standstills;
mod states;
mod tables;
mod valid;
mod words;

pub use calls::{any_call, each_call};
pub use damage::{damaged, damaged_rows};
pub use file::{padded, text_of, written_back, File, Row, FIELDS, LINE_BYTES, MOST_LINES, SMALLEST};
pub use profile::{Profile, ANY, LIVELY, STILL};
pub use random::Random;
pub use rules::{without, Rule, View};
pub use seats::{
    any_caller, entitled_caller, lacking_caller, right_to, rights_bytes, same_rights, wrapped_seat, Caller,
    Rights, RIGHTS_NUMBERS,
};
pub use size::Size;
pub use states::{changed_state, woken_state};
pub use tables::{damaged_table, table_of, TABLE_BYTES};
pub use valid::{any_valid, profiled, valid};
pub use words::{guard_holds, Layout, Offer, Words, FREE, READY, WAITING};
