//! What the program says of itself.

use command::Failure;

use crate::asked::Asked;
use crate::subcommands::{Subcommand, ALL, CALL};

/// Where the names of all subcommands are to be had.
pub const HINT: &str = "'./run help' names all commands";

/// All subcommands, or one of them.
pub fn help(asked: &Asked) -> Result<(), Failure> {
    let Some(name) = asked.word(0) else { return command::print("help", overview().as_bytes()) };
    let found = Subcommand::find(name);
    print(found.ok_or_else(|| asked.wrong(&format!("{name:?} is no command; {HINT}")))?)
}

/// Prints what there is to know of a subcommand.
pub fn print(subcommand: &Subcommand) -> Result<(), Failure> {
    let Subcommand { about, detail, .. } = subcommand;
    command::print("help", format!("{}\n{about}\n\n{detail}", subcommand.call()).as_bytes())
}

/// A line for each subcommand. `help.txt` has this text for `./run`, which shows it before anything is built.
fn overview() -> String {
    let width = ALL.iter().map(|subcommand| subcommand.call().len()).max().unwrap_or(0) + 3;
    let mut text = String::new();
    for subcommand in ALL {
        text += &format!("{:width$}{}\n", subcommand.call(), subcommand.about);
    }
    text + &format!("\n'{CALL} help NAME' or '{CALL} NAME --help' says more of one, with an example.\n")
}
