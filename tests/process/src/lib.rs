//! What the tests of the programs share: a program run as a process, what it says where it fails, and files
//! for it.

use std::ffi::OsStr;
use std::fs::{self, File};
use std::path::{Path, PathBuf};
use std::process::{Command, Output, Stdio};

/// A program under test.
pub struct Program {
    name: &'static str,
    path: &'static str,
}

impl Program {
    /// The program of this name, which is at this path.
    pub const fn new(name: &'static str, path: &'static str) -> Program {
        Program { name, path }
    }

    /// The program with these words, not started yet.
    pub fn with(&self, words: &[&OsStr]) -> Command {
        let mut command = Command::new(self.path);
        command.args(words);
        command
    }

    /// Runs it with these words to its end.
    pub fn run(&self, words: &[&OsStr]) -> Output {
        self.with(words).output().expect("the program starts")
    }

    /// It ended with this status, said one line with these words on standard error, and printed nothing.
    pub fn expect(&self, output: &Output, status: i32, message: &str) {
        let said = String::from_utf8_lossy(&output.stderr);
        assert_eq!(output.status.code(), Some(status), "{said}");
        let beginning = format!("{}: ", self.name);
        assert!(said.starts_with(&beginning) && said.ends_with('\n') && said.lines().count() == 1, "{said}");
        assert!(said.contains(message), "{said} has no {message}");
        assert!(output.stdout.is_empty(), "{said}");
    }

    /// Where nothing can be written, not even why, it ends with status 2.
    pub fn expect_status_alone(&self, words: &[&OsStr]) {
        let status = self.with(words).stdout(full_device()).stderr(full_device()).status();
        assert_eq!(status.expect("the program starts").code(), Some(2));
    }
}

/// A file of the folder `examples`.
pub fn example(name: &str) -> PathBuf {
    Path::new(env!("CARGO_MANIFEST_DIR")).join("../../examples").join(name)
}

/// An empty folder of this name, for the files of one test.
pub fn empty_folder(under: &str, name: &str) -> PathBuf {
    let folder = Path::new(under).join(name);
    if folder.exists() {
        fs::remove_dir_all(&folder).expect("the folder of an earlier run is removed");
    }
    fs::create_dir_all(&folder).expect("the folder is made");
    folder
}

/// A file of these bytes.
pub fn kept(folder: &Path, name: &OsStr, bytes: &[u8]) -> PathBuf {
    let path = folder.join(name);
    fs::write(&path, bytes).expect("the file is written");
    path
}

/// A device that takes nothing.
pub fn full_device() -> Stdio {
    Stdio::from(File::options().write(true).open("/dev/full").expect("a device that is always full"))
}
