//! Procedures that are checked for the rental-shop profile.

use std::ffi::OsStr;

use generate::rental::{self, forbidden_calls};
use generate::{File, Random};
use process::{example, full_device, kept};

use crate::{done, folder, text, workbench, WORKBENCH};

/// What the program prints of a file that keeps to the profile.
fn kept_with(threads: i32) -> String {
    let threads = if threads == 1 { String::from("1 thread") } else { format!("{threads} threads") };
    format!("keeps to the rental-shop profile: never more than {threads} at one time\n")
}

#[test]
fn examples_that_keep_to_the_profile() {
    for (name, threads) in [("countdown", 1), ("listing", 2), ("crew", 4), ("jobs", 5), ("philosophers", 10)]
    {
        let (printed, said) = done(&["profile", text(&example(&format!("{name}.txt")))]);
        assert_eq!(printed, kept_with(threads).as_bytes(), "{name}");
        assert_eq!(said, "", "{name}");
    }
}

#[test]
fn examples_that_do_not() {
    let downward = "definition 1 calls definition 0, and a call has to go to a higher number";
    let repeated = "definition 0 calls itself, and it has a spawn";
    let refused = [
        ("doubler", format!("16: the profile forbids a call; line 16: {downward}")),
        ("workers", format!("16: the profile forbids a call; line 9: {repeated} (line 15)")),
        ("refused/call-not-upward", format!("16: the profile forbids a call; line 5: {downward}")),
        (
            "refused/spawner-calls-itself",
            format!("16: the profile forbids a call; line 4: {repeated} (line 5)"),
        ),
        (
            "refused/too-many-threads",
            String::from("17: there can be more threads than thread rows; there are 64"),
        ),
        ("refused/next-not-forward", String::from("4, line 4: a number is outside its range, or")),
    ];
    for (name, why) in refused {
        let output = workbench(&["profile", text(&example(&format!("{name}.txt")))]);
        WORKBENCH.expect(&output, 1, &format!("{name}.txt\" is refused, ground {why}"));
    }
}

/// The line of a call that the profile forbids is that of the first such call.
fn expect_line(file: &File, said: &str, about: &str) {
    let place = forbidden_calls(file).into_iter().min().expect("there is a call that is forbidden");
    let line = format!("ground 16: the profile forbids a call; line {}: definition ", place + 1);
    assert!(said.contains(&line), "{about}: {said}");
    let of_itself = said.contains(" calls itself, and it has a spawn (line ");
    assert!(of_itself || said.contains(", and a call has to go to a higher number\n"), "{about}: {said}");
}

#[test]
fn files_of_every_answer() {
    let folder = folder("profiles");
    let mut came = [0; 3];
    for seed in 53_000_000..53_000_400 {
        let file = rental::any(&mut Random::new(seed));
        let path = kept(&folder, OsStr::new("file"), &file.text());
        let due = reference::profile(&generate::table_of(&file.rows));
        let output = workbench(&["profile", text(&path)]);
        let about = format!("seed {seed}");
        match due.refusal {
            0 => assert_eq!(output.stdout, kept_with(due.threads).as_bytes(), "{about}: {output:?}"),
            16 => expect_line(&file, &String::from_utf8_lossy(&output.stderr), &about),
            refusal => WORKBENCH.expect(&output, 1, &format!("is refused, ground {refusal}: ")),
        }
        assert_eq!(output.status.code(), Some(i32::from(due.refusal != 0)), "{about}");
        came[if due.refusal == 0 { 0 } else { due.refusal as usize - 15 }] += 1;
    }
    assert!(came.iter().all(|count| *count >= 10), "{came:?}");
}

/// A file without bytes is one that ends.
#[test]
fn a_file_without_bytes() {
    let file = kept(&folder("profile-no-bytes"), OsStr::new("file"), b"");
    assert_eq!(done(&["profile", text(&file)]), (kept_with(1).into_bytes(), String::new()));
}

#[test]
fn an_answer_that_cannot_be_written() {
    let crew = example("crew.txt");
    let words = [OsStr::new("profile"), crew.as_os_str()];
    let output = WORKBENCH.with(&words).stdout(full_device()).output().expect("the program starts");
    WORKBENCH.expect(&output, 2, "the answer cannot be written: ");
    WORKBENCH.expect_status_alone(&words);
}
