//! The procedure files that the repository has.

use std::fs::{read, read_dir};
use std::path::Path;

/// The procedure files of a folder, which is named from the root of the repository, each with its path.
pub fn examples(folder: &str) -> Vec<(String, Vec<u8>)> {
    let folder = Path::new(env!("CARGO_MANIFEST_DIR")).join("../..").join(folder);
    let entries = read_dir(folder).expect("a folder of examples");
    let paths = entries.map(|entry| entry.expect("an entry of the folder").path());
    let files = paths.filter(|path| path.extension().is_some_and(|extension| extension == "txt"));
    files.map(|path| (path.display().to_string(), read(&path).expect("an example"))).collect()
}
