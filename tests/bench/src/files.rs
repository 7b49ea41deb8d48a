//! The files that are loaded and written.

use generate::{valid, File, Random, Size};

/// Bytes of text loaded or written in one sample, so that small files are timed over many calls.
const SAMPLE_BYTES: usize = 400_000;

/// The largest file and a typical one, with their names.
pub fn files() -> [(&'static str, File); 2] {
    let mut random = Random::new(1);
    [("the largest", Size::LARGEST), ("a typical one", Size::TYPICAL)]
        .map(|(name, size)| (name, valid(&mut random, size)))
}

/// How many loads or writes of a file of so many bytes are one sample.
pub fn calls(bytes: usize) -> usize {
    SAMPLE_BYTES / bytes + 1
}
