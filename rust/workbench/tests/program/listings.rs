//! Listings, which a program of its own makes: passed on byte by byte, with words for a refused file.

use std::env;
use std::ffi::OsStr;
use std::fs;
use std::path::{Path, PathBuf};
use std::process::Output;

use generate::{any_valid, damaged_rows, text_of, Random};
use process::{example, full_device, kept};

use crate::{folder, text, WORKBENCH};

/// The listing program, found as the other tests find it: by PITHREAD_LISTING, from the folder tests if that is not
/// absolute, or else where it is built. Nothing if it is not there.
fn listing_program() -> Option<PathBuf> {
    let tests = Path::new(env!("CARGO_MANIFEST_DIR")).join("../../tests");
    let built = tests.join("../target/bin/listing");
    let program = match env::var_os("PITHREAD_LISTING") {
        Some(path) => Some(tests.join(path)),
        None => built.exists().then_some(built),
    };
    if program.is_none() {
        println!("skipped: there is no listing program");
    }
    program
}

fn list(program: &Path, words: &[&str]) -> Output {
    let words: Vec<&OsStr> = words.iter().map(OsStr::new).collect();
    WORKBENCH.with(&words).env("PITHREAD_LISTING", program).output().expect("the program starts")
}

/// The file is listed as the reference has it, and a refusal is told by its words.
fn expect_listed(program: &Path, path: &Path, about: &str) -> i32 {
    let file = fs::read(path).expect("the file");
    let output = list(program, &[text(path)]);
    assert!(output.stdout == reference::listing(&file), "{about}: {output:?}");
    assert_eq!(output, list(program, &["list", text(path)]), "{about}");
    let said = String::from_utf8_lossy(&output.stderr);
    match reference::load(&file) {
        Ok(_) => assert!(output.status.success() && said.is_empty(), "{about}: {said}"),
        Err(refusal) => {
            let line = if refusal.ground == 1 { String::new() } else { format!(", line {}", refusal.line) };
            let words = format!("is refused, ground {}{line}: ", refusal.ground);
            assert_eq!(output.status.code(), Some(1), "{about}: {said}");
            assert!(said.contains(&words) && said.lines().count() == 1, "{about}: {said}");
            return refusal.ground;
        }
    }
    0
}

#[test]
fn listings_are_passed_on() {
    let Some(program) = listing_program() else { return };
    let names = ["listing.txt", "doubler.txt", "empty_slot.txt", "units.txt", "refused/next-not-forward.txt"];
    for name in names {
        expect_listed(&program, &example(name), name);
    }
    let folder = folder("listings");
    let mut came = [0; 8];
    for seed in 54_000_000..54_000_150 {
        let random = &mut Random::new(seed);
        let file = any_valid(random);
        let bytes = match seed % 3 {
            0 => file.text(),
            1 => text_of(&damaged_rows(random, &file)),
            _ => (0..random.below(300)).map(|_| random.below(256) as u8).collect(),
        };
        let path = kept(&folder, OsStr::new("file"), &bytes);
        came[expect_listed(&program, &path, &format!("seed {seed}")) as usize] += 1;
    }
    assert!(came[0] >= 20 && came[1] >= 20 && came[3..].iter().sum::<i32>() >= 20, "{came:?}");
}

/// A file with the name of a subcommand is listed by a path.
#[test]
fn a_file_named_like_a_subcommand() {
    let Some(program) = listing_program() else { return };
    let folder = folder("named");
    let file = fs::read(example("listing.txt")).expect("an example");
    kept(&folder, OsStr::new("load"), &file);
    let at = |word: &str| {
        let mut command = WORKBENCH.with(&[OsStr::new(word)]);
        command.env("PITHREAD_LISTING", &program).current_dir(&folder).output().expect("the program starts")
    };
    assert!(at("./load").stdout == reference::listing(&file));
    WORKBENCH.expect(&at("load"), 2, "usage: ./run load FILE TABLE");
    WORKBENCH.expect(&at("lod"), 2, "\"lod\" cannot be read: ");
}

#[test]
fn a_listing_that_cannot_be_written() {
    let Some(program) = listing_program() else { return };
    let path = example("listing.txt");
    let mut command = WORKBENCH.with(&[OsStr::new("list"), path.as_os_str()]);
    command.env("PITHREAD_LISTING", &program).stdout(full_device());
    WORKBENCH.expect(&command.output().expect("it starts"), 2, "the listing cannot be written: ");
}

/// Other programs in the place of the listing program.
#[test]
fn no_listing_program() {
    let path = example("listing.txt");
    let with = |program: &str| list(Path::new(program), &[text(&path)]);
    WORKBENCH.expect(&with(""), 2, "PITHREAD_LISTING does not name the listing program; './run' sets it");
    WORKBENCH.expect(&with("/no/such/program"), 2, "cannot be worked with: ");
    WORKBENCH.expect(&with("true"), 2, "the listing program prints nothing");
    let other = list(Path::new("pwd"), &[text(&path)]);
    let said = String::from_utf8_lossy(&other.stderr);
    assert!(other.status.code() == Some(2) && said.contains("do not agree on"), "{said}");
}
