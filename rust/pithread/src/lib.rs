//! An engine for test benches: it loads procedure files and runs their threads.
//!
//! The engine is written and proved in another language; this crate is `include/pithread.h` for a program
//! in Rust. `tests/build.sh pithread` writes the archive that it links, `libpithread.a`. The environment
//! variable `PITHREAD_LIB` names its folder if it is not `target/staticlib` of the repository.
//!
//! ```
//! use pithread::{Bench, PortRight, Reason, Refusal, Rights, Seat, SeatRights};
//!
//! let [leader, trainee, ..] = Seat::ALL;
//! let mut rights = Rights::NONE;
//! rights[leader] = SeatRights::FULL;
//! rights[trainee].ports[1] = PortRight::Take; // and nothing else
//!
//! let file = std::fs::read("../../examples/doubler.txt")?;
//! let mut bench = Bench::load(&file)?; // a refusal names the ground and the line at fault
//! bench.at(&rights, leader).run(1000)?;
//!
//! if bench.at(&rights, trainee).give(0, 21) == Err(Refusal::Seat) {
//!     println!("the trainee's seat may not give at port 0"); // whatever the bench is doing
//! }
//! # assert_eq!(bench.at(&rights, trainee).give(0, 21), Err(Refusal::Seat));
//! match bench.at(&rights, leader).give(0, 21)? {
//!     Some(thread) => println!("thread {thread} received 21"),
//!     None => println!("no thread waits for a number at port 0"), // give it again later
//! }
//! if bench.at(&rights, leader).run(1000)?.reason == Reason::NoneReady {
//!     println!("all threads wait or have ended"); // give or take
//! }
//! if let Some(taken) = bench.at(&rights, trainee).take(1)? {
//!     println!("{} from thread {}", taken.number, taken.thread);
//! #   assert_eq!((taken.number, taken.thread), (42, 0));
//! }
//! println!("{} threads could never move again", bench.at(&rights, leader).collect()?);
//! # assert_eq!(bench.state().threads().count(), 1);
//! # Ok::<(), Box<dyn std::error::Error>>(())
//! ```
//!
//! [`Bench`] has buffers of the right lengths and a state that is always sound. [`Bench::at`] lends it to a
//! [`Seat`], which may do what the [`Rights`] say; they are always right ones. So a call can be refused on ground
//! 19, for want of a right, but never on 8 or 18. [`Table::write`] makes the procedure file of a table again, and
//! [`Table::profile`] tells whether its threads can come to lack a thread row. The calls on buffers of the
//! caller's are in [`raw`], the only module with unsafe code.

mod bench;
pub mod raw;
mod refusal;
mod rights;
mod state;
mod table;

pub use bench::{Act, AtSeat, Bench, Ran, Reason, Stepped, Taken};
pub use pithread_header as header;
pub use refusal::Refusal;
pub use rights::{BenchRight, PortRight, Rights, Seat, SeatRights};
pub use state::{Channel, State, Status, Thread};
pub use table::{Row, Table, FIELDS};
