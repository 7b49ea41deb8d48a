//! The fixed listing of a procedure file. It is made by a program of its own, which is proved; here it is handed the
//! file, and what it prints is passed on byte by byte.

use std::ffi::{OsStr, OsString};
use std::io::{self, ErrorKind, Write};
use std::path::Path;
use std::process::{ChildStdin, Command, Stdio};
use std::thread;

use command::Failure;
use pithread::Table;

use crate::asked::Asked;
use crate::procedure;

/// The variable that names the listing program. `./run` sets it.
const VARIABLE: &str = "PITHREAD_LISTING";

/// Prints the listing of a file. That of a refused one is a line with the ground and the line at fault, and standard
/// error has the words for it.
pub fn list(asked: &Asked) -> Result<(), Failure> {
    let path = asked.path(0)?;
    let file = procedure::read(path)?;
    let listing = listing_of(&file)?;
    command::print("listing", &listing)?;
    match listing.iter().filter(|byte| **byte == b'\n').count() {
        0 => Err(Failure::Failed(String::from("the listing program prints nothing"))),
        1 => Err(why_refused(path, &file, &listing)),
        _ => Ok(()),
    }
}

/// The words for a refused file, which the archive refuses too: both are built of one engine.
fn why_refused(path: &Path, file: &[u8], listing: &[u8]) -> Failure {
    match Table::load(file) {
        Err(refusal) if listing == line_of(refusal.number(), refusal.line()) => {
            procedure::not_loaded(path, file, refusal)
        }
        _ => Failure::Failed(format!(
            "the listing program, which {VARIABLE} names, and the archive do not agree on {path:?}"
        )),
    }
}

/// The listing of a refused file.
fn line_of(ground: i32, line: Option<u32>) -> Vec<u8> {
    format!("{ground:6}{:6}\n", line.unwrap_or(0)).into_bytes()
}

fn listing_of(file: &[u8]) -> Result<Vec<u8>, Failure> {
    let program = std::env::var_os(VARIABLE);
    let program: OsString = program.filter(|program| !program.is_empty()).ok_or_else(|| {
        Failure::Failed(format!("{VARIABLE} does not name the listing program; './run' sets it"))
    })?;
    run(&program, file).map_err(|error| {
        Failure::Failed(format!("the listing program {program:?} cannot be worked with: {error}"))
    })
}

/// What a program prints with the file on its standard input.
fn run(program: &OsStr, file: &[u8]) -> io::Result<Vec<u8>> {
    let mut child = Command::new(program).stdin(Stdio::piped()).stdout(Stdio::piped()).spawn()?;
    let input = child.stdin.take();
    thread::scope(|scope| {
        let fed = scope.spawn(|| input.map_or(Ok(()), |input| feed(input, file)));
        let output = child.wait_with_output();
        fed.join().unwrap_or(Ok(()))?;
        output.map(|output| output.stdout)
    })
}

/// The program need not read a file that is too long to its end.
fn feed(mut input: ChildStdin, file: &[u8]) -> io::Result<()> {
    match input.write_all(file) {
        Err(error) if error.kind() == ErrorKind::BrokenPipe => Ok(()),
        written => written,
    }
}
