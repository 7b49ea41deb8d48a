//! What a failed comparison leaves behind.

use std::sync::atomic::{AtomicUsize, Ordering};
use std::{env, fs, process};

/// Keeps the inputs for a look at them, and ends the test.
pub fn keep(inputs: &[&[u8]], message: &str) -> ! {
    static KEPT: AtomicUsize = AtomicUsize::new(0);
    let mut message = String::from(message);
    for input in inputs {
        let number = KEPT.fetch_add(1, Ordering::Relaxed);
        let path = env::temp_dir().join(format!("pithread-differs-{}-{number}", process::id()));
        if fs::write(&path, input).is_ok() {
            message.push_str(&format!("; kept: {}", path.display()));
        }
    }
    panic!("{message}");
}
