//! The listing program against the reference, on some five hundred files.

use std::io::{stderr, Write};

use differential::{examples, for_seeds, Listings, Traffic, PROGRAM};
use generate::{
    any_valid, cases, damaged, procedures, profiled, standstills, text_of, valid, Random, Size, LINE_BYTES,
    LIVELY, MOST_LINES, STILL,
};

/// What a test has met, and the program that it holds against the reference.
struct Listed {
    listings: Listings,
    traffic: Traffic,
    files: usize,
}

impl Listed {
    /// Nothing, with a message, if there is no program to be tested.
    fn new(test: &str) -> Option<Listed> {
        let listings = Listings::find();
        if listings.is_none() {
            // Straight to the stream, since what a test prints is shown only if it fails.
            writeln!(
                stderr(),
                "SKIPPED {test}: PITHREAD_LISTING is not set and {PROGRAM} is not there; nothing was tested"
            )
            .expect("a message");
        }
        Some(Listed { listings: listings?, traffic: Traffic::default(), files: 0 })
    }

    fn compare(&mut self, random: &mut Random, file: &[u8], about: &str) {
        let first = random.below(file.len() + 1);
        let text = self.listings.compare(file, first, about);
        self.files += 1;
        let mut lines = text.lines();
        let heading = lines.next().expect("a line at least");
        if !heading.ends_with("WITH") {
            self.traffic.note("ground", column(heading, 0));
            return;
        }
        for line in lines {
            match line.len() / 6 {
                6 => self.traffic.note("act", column(line, 3)),
                5 => {
                    self.traffic.note("reason", column(line, 1));
                    self.traffic.note("took somebody", i32::from(column(line, 3) > 0));
                    self.traffic.note("channels are left", i32::from(column(line, 4) > 0));
                }
                _ => self.traffic.note("taken", column(line, 0)),
            }
        }
    }
}

/// The number in a column of a line.
fn column(line: &str, place: usize) -> i32 {
    line[6 * place..6 * place + 6].trim_start().parse().expect("a number")
}

#[test]
fn right_files() {
    let Some(mut listed) = Listed::new("right_files") else { return };
    for_seeds(20_000_000, 60, |random, about| {
        let file = any_valid(random);
        listed.compare(random, &file.text(), about);
    });
    for (place, profile) in LIVELY.iter().chain(&STILL).enumerate() {
        for_seeds(20_100_000 + 1_000 * place as u64, 15, |random, about| {
            let file = profiled(random, profile);
            listed.compare(random, &file.text(), &format!("{about}, {}", profile.name));
        });
    }
    assert!(listed.files >= 250);
    listed.traffic.expect("act", 0..=3, 500);
    listed.traffic.expect("reason", 0..=2, 10);
    listed.traffic.expect("took somebody", [0, 1], 30);
    listed.traffic.expect("channels are left", [0, 1], 30);
    listed.traffic.expect("taken", 0..=3, 5);
}

#[test]
fn files_written_by_hand() {
    let Some(mut listed) = Listed::new("files_written_by_hand") else { return };
    let mut files = standstills::all();
    files.extend([
        ("ping-pong", procedures::ping_pong()),
        ("crowd", procedures::crowd(60)),
        ("both ways", procedures::both_ways()),
        ("reckoner", procedures::reckoner()),
        ("creators", procedures::creators()),
        ("hoarders", procedures::hoarders()),
        ("spawners", procedures::spawners()),
        ("ports", procedures::ports()),
    ]);
    let mut random = Random::new(20_200_000);
    for size in Size::LIMITS {
        files.push(("at a limit", valid(&mut random, size)));
    }
    for (name, file) in &files {
        listed.compare(&mut random, &file.text(), name);
    }
    listed.traffic.expect("reason", 0..=3, 1);
    listed.traffic.expect("took somebody", [0, 1], 5);
}

#[test]
fn damaged_files() {
    let Some(mut listed) = Listed::new("damaged_files") else { return };
    for_seeds(20_300_000, 250, |random, about| {
        let file = match random.below(2 * STILL.len()) {
            place if place < STILL.len() => profiled(random, &STILL[place]),
            _ => any_valid(random),
        };
        let text = damaged(random, &file);
        listed.compare(random, &text, about);
    });
    listed.traffic.expect("ground", [2, 3, 4, 5, 6], 5);
    listed.traffic.expect("ground", [1, 7], 1);
    listed.traffic.expect("act", [0], 1);
}

/// Too short, too long, and no files at all.
#[test]
fn hostile_input() {
    let Some(mut listed) = Listed::new("hostile_input") else { return };
    let mut random = Random::new(20_400_000);
    let right = text_of(&cases::LISTING);
    let longest = valid(&mut random, Size::LARGEST).text();
    for length in [0, 1, LINE_BYTES - 1, LINE_BYTES, LINE_BYTES + 1, right.len() - 1, right.len()] {
        listed.compare(&mut random, &right[..length], &format!("the first {length} bytes"));
    }
    for more in [1, LINE_BYTES, 10 * LINE_BYTES, MOST_LINES * LINE_BYTES] {
        let mut file = longest.clone();
        file.extend(longest.iter().cycle().take(more));
        listed.compare(&mut random, &file, &format!("{more} bytes more than the longest"));
    }
    let megabyte: Vec<u8> = (0..1 << 20).map(|_| random.byte()).collect();
    listed.compare(&mut random, &megabyte, "a megabyte");
    listed.compare(&mut random, &vec![0; MOST_LINES * LINE_BYTES], "nothing but zero bytes");
    listed.traffic.expect("ground", [1], 9);
    listed.traffic.expect("ground", [2, 3], 1);
}

#[test]
fn the_examples() {
    let Some(mut listed) = Listed::new("the_examples") else { return };
    for folder in ["examples", "examples/refused"] {
        for (path, file) in examples(folder) {
            listed.compare(&mut Random::new(1), &file, &path);
        }
    }
    listed.traffic.expect("ground", 1..=7, 1);
    assert!(listed.files >= 30);
}
