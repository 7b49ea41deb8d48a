//! Printing to standard output.

use std::io::{self, ErrorKind, Write};
use std::path::Path;
use std::sync::atomic::{AtomicBool, Ordering};

use crate::Failure;

/// Whether standard output was closed when the program was started. Before `main` Rust opens the null device in
/// the place of it, where all that is printed would be lost without a word; so this is looked up earlier.
static CLOSED: AtomicBool = AtomicBool::new(false);

/// The functions in this section are called before Rust's own beginnings.
#[used]
#[link_section = ".init_array"]
static LOOK_UP: extern "C" fn() = look_up;

/// Where Linux does not show the open files of a process, standard output counts as open.
extern "C" fn look_up() {
    let open_files = Path::new("/proc/self/fd");
    let closed = open_files.exists() && open_files.join("1").symlink_metadata().is_err();
    CLOSED.store(closed, Ordering::Relaxed);
}

/// Prints to standard output.
pub fn print(what: &str, bytes: &[u8]) -> Result<(), Failure> {
    write(bytes).map_err(|error| Failure::Failed(format!("the {what} cannot be written: {error}")))
}

fn write(bytes: &[u8]) -> io::Result<()> {
    if CLOSED.load(Ordering::Relaxed) {
        return Err(io::Error::new(ErrorKind::NotConnected, "standard output is closed"));
    }
    let mut out = io::stdout();
    out.write_all(bytes)?;
    out.flush()
}
