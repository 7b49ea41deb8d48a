//! The listing program, run as a process, beside the reference's listing.

use std::env;
use std::io::{ErrorKind, Write};
use std::path::{Path, PathBuf};
use std::process::{ChildStdin, Command, Output, Stdio};
use std::thread;
use std::time::Duration;

use crate::kept::keep;

/// Where `rt` writes the program, from the root of the repository.
pub const PROGRAM: &str = "target/bin/listing";

/// A listing program to be held against the reference.
pub struct Listings {
    program: PathBuf,
}

impl Listings {
    /// The program that PITHREAD_LISTING names, from the folder tests if the path is not absolute. If
    /// the variable is not set, `PROGRAM`, or nothing if that is not there.
    pub fn find() -> Option<Listings> {
        let tests = Path::new(env!("CARGO_MANIFEST_DIR")).join("..");
        match env::var_os("PITHREAD_LISTING") {
            Some(path) => Some(Listings { program: tests.join(path) }),
            None => {
                let program = tests.join("..").join(PROGRAM);
                program.exists().then_some(Listings { program })
            }
        }
    }

    /// Hands the file to the program on its standard input, the first part of so many bytes by itself,
    /// and answers what both sides print.
    pub fn compare(&self, file: &[u8], first: usize, about: &str) -> String {
        let expected = reference::listing(file);
        let output = self.run(file, first);
        let differs = if !output.status.success() {
            format!("ended with {}", output.status)
        } else if !output.stderr.is_empty() {
            format!("complained: {}", String::from_utf8_lossy(&output.stderr))
        } else if output.stdout != expected {
            format!("differs from the reference {}", first_difference(&output.stdout, &expected))
        } else {
            return String::from_utf8(expected).expect("digits, blanks and newlines");
        };
        keep(&[file, &output.stdout, &expected], &format!("{about}: {} {differs}", self.program.display()));
    }

    fn run(&self, file: &[u8], first: usize) -> Output {
        let mut command = Command::new(&self.program);
        command.stdin(Stdio::piped()).stdout(Stdio::piped()).stderr(Stdio::piped());
        let mut child = match command.spawn() {
            Ok(child) => child,
            Err(error) => panic!("{} cannot be run: {error}", self.program.display()),
        };
        let input = child.stdin.take().expect("it was asked for");
        thread::scope(|scope| {
            scope.spawn(move || write_parts(input, file, first));
            child.wait_with_output().expect("a program that was started can be waited for")
        })
    }
}

/// Writes a file in two parts, far enough apart that one read does not get both. The program need not
/// read a file that is too long to its end.
fn write_parts(mut input: ChildStdin, file: &[u8], first: usize) {
    let (one, other) = file.split_at(first.min(file.len()));
    let pause = || thread::sleep(Duration::from_millis(3));
    if let Err(error) = input.write_all(one).map(|()| pause()).and_then(|()| input.write_all(other)) {
        assert_eq!(error.kind(), ErrorKind::BrokenPipe, "{error}");
    }
}

/// The first line in which two texts differ, as each has it.
fn first_difference(given: &[u8], expected: &[u8]) -> String {
    let lines = |text: &[u8]| -> Vec<String> {
        String::from_utf8_lossy(text).split_inclusive('\n').map(String::from).collect()
    };
    let (given, expected) = (lines(given), lines(expected));
    let place = given.iter().zip(&expected).take_while(|(one, other)| one == other).count();
    format!("in line {}: {:?}, expected {:?}", place + 1, given.get(place), expected.get(place))
}
