//! The subcommands. One more is one more record in [`ALL`], with a file in the folder `help`; the overview, the help,
//! what is said of wrong words, and who does the work all follow from the table.

use std::ffi::{OsStr, OsString};
use std::ops::RangeInclusive;

use command::Failure;

use crate::asked::Asked;
use crate::{draw, help, list, profile, reading, table};

/// How the program is called. `./run` builds it and hands its words on.
pub const CALL: &str = "./run";

/// A subcommand.
pub struct Subcommand {
    /// The first word, by which it is called.
    pub name: &'static str,
    /// The words behind the name, as they are shown.
    pub words: &'static str,
    /// How many there may be.
    pub count: RangeInclusive<usize>,
    /// What it does, in one line.
    pub about: &'static str,
    /// What there is to know, with an example.
    pub detail: &'static str,
    /// Does it.
    pub work: fn(&Asked) -> Result<(), Failure>,
}

/// All subcommands, in the order in which they are shown.
pub const ALL: &[Subcommand] = &[
    Subcommand {
        name: "list",
        words: "FILE",
        count: 1..=1,
        about: "prints the listing of a procedure file; ./run FILE does the same",
        detail: include_str!("../help/list.txt"),
        work: list::list,
    },
    Subcommand {
        name: "why",
        words: "FILE",
        count: 1..=1,
        about: "tells why a procedure file is refused, field by field, or what in it is likely not meant",
        detail: include_str!("../help/why.txt"),
        work: reading::why,
    },
    Subcommand {
        name: "long",
        words: "FILE",
        count: 1..=1,
        about: "prints the procedure file of a short form, whose slips it marks",
        detail: include_str!("../help/long.txt"),
        work: reading::long,
    },
    Subcommand {
        name: "short",
        words: "FILE",
        count: 1..=1,
        about: "prints the short form of a procedure file, with a comment in words on each line",
        detail: include_str!("../help/short.txt"),
        work: reading::short,
    },
    Subcommand {
        name: "load",
        words: "FILE TABLE",
        count: 2..=2,
        about: "checks a procedure file and keeps its table in the file TABLE",
        detail: include_str!("../help/load.txt"),
        work: table::load,
    },
    Subcommand {
        name: "set",
        words: "TABLE LINE FIELD NUMBER",
        count: 4..=4,
        about: "puts another number into the table; lines and fields count from 1",
        detail: include_str!("../help/set.txt"),
        work: table::set,
    },
    Subcommand {
        name: "write",
        words: "TABLE",
        count: 1..=1,
        about: "prints the procedure file of the table",
        detail: include_str!("../help/write.txt"),
        work: table::write,
    },
    Subcommand {
        name: "profile",
        words: "FILE",
        count: 1..=1,
        about: "checks whether a procedure can ever lack a thread row, and how many threads it may come to",
        detail: include_str!("../help/profile.txt"),
        work: profile::profile,
    },
    Subcommand {
        name: "draw",
        words: "FILE STEPS --svg|--dot",
        count: 3..=3,
        about: "draws who waits for whom after so many steps",
        detail: include_str!("../help/draw.txt"),
        work: draw::draw,
    },
    Subcommand {
        name: "help",
        words: "[NAME]",
        count: 0..=1,
        about: "names all commands, or says more of one",
        detail: include_str!("../help/help.txt"),
        work: help::help,
    },
];

impl Subcommand {
    /// The subcommand of this name.
    pub fn find(name: &OsStr) -> Option<&'static Subcommand> {
        ALL.iter().find(|subcommand| name == subcommand.name)
    }

    /// The whole command, as it is called.
    pub fn call(&self) -> String {
        format!("{CALL} {} {}", self.name, self.words)
    }

    fn work(&self, words: &[OsString]) -> Result<(), Failure> {
        if words.iter().any(|word| word == "--help") {
            return help::print(self);
        }
        let usage = format!("usage: {}", self.call());
        if self.count.contains(&words.len()) {
            (self.work)(&Asked::new(words, &usage))
        } else {
            Err(Failure::Failed(format!("{usage}; '{CALL} help {}' says more", self.name)))
        }
    }
}

/// Does what the words on the command line ask for. A word alone that is no name of a subcommand is a file to be
/// listed.
pub fn work(words: &[OsString]) -> Result<(), Failure> {
    let Some((name, rest)) = words.split_first() else {
        return Err(Failure::Failed(format!("usage: {CALL} NAME WORD..; {}", help::HINT)));
    };
    match named(name) {
        Some(subcommand) => subcommand.work(rest),
        None if rest.is_empty() => list::list(&Asked::new(words, help::HINT)),
        None => Err(Failure::Failed(format!("{name:?} is no command; {}", help::HINT))),
    }
}

/// The subcommand that a word names, with two hyphens before the name or without.
fn named(word: &OsStr) -> Option<&'static Subcommand> {
    let plain = word.to_str().and_then(|word| word.strip_prefix("--"));
    Subcommand::find(plain.map_or(word, OsStr::new))
}
