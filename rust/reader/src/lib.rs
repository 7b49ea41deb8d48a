//! Procedure files for people: what their lines say in words, the short form in which they are written, and why
//! one is refused.
//!
//! Nothing here decides whether a file loads: [`pithread::Table::load`] does. [`Layout`] finds the place of each
//! line and says it in words; [`lengthen`] makes a file from its short form, and [`shorten`] goes back;
//! [`faults`] tells why a file does not load, with the place that the loader names and what it leaves unsaid;
//! [`remarks`] tells what loads and is likely not meant.
//!
//! ```
//! use pithread::Table;
//! use reader::Layout;
//!
//! let table = Table::load(&std::fs::read("../../examples/units.txt")?)?;
//! let rows: Vec<_> = (0..table.lines()).map(|row| table.row(row)).collect();
//! let layout = Layout::of(&rows);
//! assert_eq!(layout.words(2), "type 1: its channels carry numbers");
//! # Ok::<(), Box<dyn std::error::Error>>(())
//! ```

mod faults;
mod fields;
mod form;
mod layout;
mod lengthen;
mod mark;
mod remarks;
mod shorten;
mod slip;
mod text;
mod words;

pub use faults::{faults, Finding};
pub use fields::{fields_of, Field, Use};
pub use form::{form_of, Form};
pub use layout::{Definition, Layout, Place};
pub use lengthen::{lengthen, Lengthened};
pub use mark::Marked;
pub use pithread::{Row, FIELDS};
pub use remarks::{remarks, Remark, RemarkKind};
pub use shorten::shorten;
pub use slip::{Slip, SlipKind};
pub use text::text_of;
