//! Reading: files, and fifos to which somebody writes.

use std::fs::{self, File, Metadata};
use std::io::{self, ErrorKind, Read};
use std::os::unix::fs::{FileTypeExt, OpenOptionsExt};
use std::path::Path;
use std::thread::sleep;
use std::time::{Duration, Instant};

use crate::Failure;

/// The flag of Linux with which nothing that is opened or read is waited for.
const O_NONBLOCK: i32 = 0o4000;

/// How long somebody has to begin to write to a fifo, and how long it is left alone between two looks.
const PATIENCE: Duration = Duration::from_secs(1);
const PAUSE: Duration = Duration::from_millis(5);

/// Reads a file, but no further than one byte past the longest that can be accepted. A fifo is read as well; it is
/// a failure if nobody writes to it.
pub fn read(path: &Path, most: usize) -> Result<Vec<u8>, Failure> {
    let read = bytes_of(path, most as u64 + 1);
    read.map_err(|error| Failure::Failed(format!("{path:?} cannot be read: {error}")))
}

/// What stands there in place of a file, in words; nothing if it is a file.
pub fn other_than_file(about: &Metadata) -> Option<&'static str> {
    let kind = about.file_type();
    match () {
        () if kind.is_file() => None,
        () if kind.is_dir() => Some("it is a folder, not a file"),
        () if kind.is_fifo() => Some("it is a fifo, not a file"),
        () if kind.is_char_device() || kind.is_block_device() => Some("it is a device, not a file"),
        () => Some("it is no file"),
    }
}

fn bytes_of(path: &Path, most: u64) -> io::Result<Vec<u8>> {
    let about = fs::metadata(path)?;
    match other_than_file(&about) {
        _ if about.file_type().is_fifo() => from_fifo(path, most),
        Some(what) => Err(io::Error::other(what)),
        None => {
            let mut bytes = Vec::new();
            File::open(path)?.take(most).read_to_end(&mut bytes)?;
            Ok(bytes)
        }
    }
}

/// What is written to a fifo. Without a writer an end is read at once, and with one that has nothing yet the read
/// would have to wait; what was read before either stays read.
fn from_fifo(path: &Path, most: u64) -> io::Result<Vec<u8>> {
    let mut fifo = File::options().read(true).custom_flags(O_NONBLOCK).open(path)?.take(most);
    let mut bytes = Vec::new();
    let mut met = false;
    let begun = Instant::now();
    loop {
        match fifo.read_to_end(&mut bytes) {
            Ok(_) if met || !bytes.is_empty() => return Ok(bytes),
            Ok(_) if begun.elapsed() > PATIENCE => {
                return Err(io::Error::other("it is a fifo, and nobody writes to it"));
            }
            Ok(_) => {}
            Err(error) if error.kind() == ErrorKind::WouldBlock => met = true,
            Err(error) => return Err(error),
        }
        sleep(PAUSE);
    }
}
