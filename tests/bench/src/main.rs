//! How fast the archive is beside the reference: both in turn, on the same files and states.
//!
//! `cargo run --release --offline -p bench`, from the folder tests, with the archive built. With the word
//! `meetings` behind it prints only what `beside_go.sh` compares; with `calls` and some words more it makes the
//! calls that `instructions.sh` counts, and prints nothing.

mod calling;
mod collecting;
mod files;
mod loading;
mod profiling;
mod refusing;
mod report;
mod running;
mod standing;
mod stepping;
mod timing;
mod writing;

fn main() {
    let words: Vec<String> = std::env::args().skip(1).collect();
    match words.first().map(String::as_str) {
        Some("meetings") => return running::report_meetings(),
        Some("calls") => return calling::make(&words[1..]),
        _ => {}
    }
    println!("medians of samples taken in turn; speed: the archive's by the reference's;");
    println!("times: how many times as long the second side takes");
    loading::report();
    writing::report();
    profiling::report();
    running::report();
    stepping::report();
    refusing::report();
    collecting::report();
}
