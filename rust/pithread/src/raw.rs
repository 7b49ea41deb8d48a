//! The calls of `include/pithread.h` as they are: buffers of any length, numbers in the answers.
//!
//! Every call takes any bytes and any numbers and answers; none of them can go wrong for a caller in
//! Rust, since a slice is not null, says how long it is, and lies apart from one that may be written.
//! [`Bench`](crate::Bench) is what a program uses. This layer is for one that keeps its buffers itself,
//! and for tests that hand over wrong ones.
//!
//! Step, give, take, run and collect are made by a seat: behind the state they take a list of rights, 288 bytes,
//! and the seat's number. [`Rights::to_bytes`](crate::Rights::to_bytes) makes such a list.
//!
//! ```
//! use pithread::raw;
//!
//! let mut short = [7; 10];
//! assert_eq!(raw::start(&[1, 2, 3], &mut short).refusal, 8);
//! assert_eq!(short, [7; 10]);
//! ```

#![allow(unsafe_code)]

pub use pithread_header::{Collected, Given, Loaded, Profiled, Ran, Started, Stepped, Taken, Written};

// Laid out by hand: with a line for each parameter the five calls of a seat would hardly be told apart.
#[rustfmt::skip]
#[link(name = "pithread", kind = "static")]
extern "C" {
    fn pithread_load(file: *const u8, file_len: usize, table: *mut u8, table_len: usize) -> Loaded;
    fn pithread_write(table: *const u8, table_len: usize, file: *mut u8, file_len: usize) -> Written;
    fn pithread_profile(table: *const u8, table_len: usize) -> Profiled;
    fn pithread_start(table: *const u8, table_len: usize, state: *mut u8, state_len: usize) -> Started;
    fn pithread_step(table: *const u8, table_len: usize, state: *mut u8, state_len: usize,
        rights: *const u8, rights_len: usize, seat: u32, thread: u32) -> Stepped;
    fn pithread_give(table: *const u8, table_len: usize, state: *mut u8, state_len: usize,
        rights: *const u8, rights_len: usize, seat: u32, port: u32, number: i32) -> Given;
    fn pithread_take(table: *const u8, table_len: usize, state: *mut u8, state_len: usize,
        rights: *const u8, rights_len: usize, seat: u32, port: u32) -> Taken;
    fn pithread_run(table: *const u8, table_len: usize, state: *mut u8, state_len: usize,
        rights: *const u8, rights_len: usize, seat: u32, n: u16) -> Ran;
    fn pithread_collect(table: *const u8, table_len: usize, state: *mut u8, state_len: usize,
        rights: *const u8, rights_len: usize, seat: u32) -> Collected;
}

// SAFETY, of every call below: each pointer comes from a slice with the slice's length, a slice that is
// written is borrowed by the call alone, and no call keeps a pointer. The declarations above are those of
// the header, which the test `header` compares.

/// Checks a procedure file and writes its table.
pub fn load(file: &[u8], table: &mut [u8]) -> Loaded {
    unsafe { pithread_load(file.as_ptr(), file.len(), table.as_mut_ptr(), table.len()) }
}

/// Writes the procedure file of a table to the front of a buffer, which keeps what it has behind the file.
///
/// ```
/// use pithread::{raw, Table};
///
/// let table = Table::load(&std::fs::read("../../examples/first/1.txt")?)?; // three lines of 73 bytes
/// let mut buffer = [7; 220];
/// let refused = raw::write(table.as_bytes(), &mut buffer[..218]);
/// assert_eq!((refused.refusal, refused.bytes), (15, 0));
/// assert_eq!(buffer, [7; 220]);
///
/// let written = raw::write(table.as_bytes(), &mut buffer);
/// assert_eq!((written.refusal, written.bytes), (0, 219));
/// assert_eq!(buffer[218..], [b'\n', 7]);
/// # Ok::<(), Box<dyn std::error::Error>>(())
/// ```
pub fn write(table: &[u8], file: &mut [u8]) -> Written {
    unsafe { pithread_write(table.as_ptr(), table.len(), file.as_mut_ptr(), file.len()) }
}

/// Tells whether a procedure keeps to the rental-shop profile, and the most threads that it can come to have.
///
/// ```
/// use pithread::{raw, Table};
///
/// let table = Table::load(&std::fs::read("../../examples/listing.txt")?)?; // one spawn
/// let profiled = raw::profile(table.as_bytes());
/// assert_eq!((profiled.refusal, profiled.threads), (0, 2));
///
/// let refused = raw::profile(&table.as_bytes()[1..]);
/// assert_eq!((refused.refusal, refused.threads), (8, 0));
/// # Ok::<(), Box<dyn std::error::Error>>(())
/// ```
pub fn profile(table: &[u8]) -> Profiled {
    unsafe { pithread_profile(table.as_ptr(), table.len()) }
}

/// Writes the state in which thread 0 stands ready at the first node.
pub fn start(table: &[u8], state: &mut [u8]) -> Started {
    unsafe { pithread_start(table.as_ptr(), table.len(), state.as_mut_ptr(), state.len()) }
}

/// Calls a function of the archive by a seat: the table, the state, the list of rights and the seat, then the
/// call's own numbers.
macro_rules! by_seat {
    ($call:ident, $table:ident, $state:ident, $rights:ident, $seat:ident $(, $number:ident)*) => {{
        let (state, state_len) = ($state.as_mut_ptr(), $state.len());
        let (rights, rights_len) = ($rights.as_ptr(), $rights.len());
        unsafe {
            $call($table.as_ptr(), $table.len(), state, state_len, rights, rights_len, $seat $(, $number)*)
        }
    }};
}

/// Lets one ready thread make one step.
///
/// ```
/// use pithread::{raw, Bench, Rights};
///
/// let bench = Bench::load(&std::fs::read("../../examples/doubler.txt")?)?;
/// let mut state = *bench.state().as_bytes();
/// let step = |state: &mut [u8], rights: &[u8], seat| {
///     raw::step(bench.table().as_bytes(), state, rights, seat, 0).refusal
/// };
/// let (none, full) = (Rights::NONE.to_bytes(), Rights::FULL.to_bytes());
/// assert_eq!(step(&mut state, &full[..284], 5), 8);
/// assert_eq!(step(&mut state, &[4; 288], 5), 18); // whoever's numbers they are
/// assert_eq!(step(&mut state, &none, 5), 19);
/// assert_eq!(step(&mut state, &full, 8), 19); // there is no such seat
/// assert_eq!(state, *bench.state().as_bytes());
/// assert_eq!(step(&mut state, &full, 5), 0);
/// # Ok::<(), Box<dyn std::error::Error>>(())
/// ```
pub fn step(table: &[u8], state: &mut [u8], rights: &[u8], seat: u32, thread: u32) -> Stepped {
    by_seat!(pithread_step, table, state, rights, seat, thread)
}

/// Gives a number to a thread that waits to receive on a port.
pub fn give(table: &[u8], state: &mut [u8], rights: &[u8], seat: u32, port: u32, number: i32) -> Given {
    by_seat!(pithread_give, table, state, rights, seat, port, number)
}

/// Takes a number from a thread that waits to send on a port.
pub fn take(table: &[u8], state: &mut [u8], rights: &[u8], seat: u32, port: u32) -> Taken {
    by_seat!(pithread_take, table, state, rights, seat, port)
}

/// Makes up to `n` steps of ready threads in turn.
pub fn run(table: &[u8], state: &mut [u8], rights: &[u8], seat: u32, n: u16) -> Ran {
    by_seat!(pithread_run, table, state, rights, seat, n)
}

/// Takes away every thread that can never move again.
pub fn collect(table: &[u8], state: &mut [u8], rights: &[u8], seat: u32) -> Collected {
    by_seat!(pithread_collect, table, state, rights, seat)
}
