//! A procedure is checked for the rental-shop profile.

use command::Failure;
use pithread::header::THREADS;
use pithread::{Refusal, Table};

use crate::asked::Asked;
use crate::forbidden::forbidden_call;
use crate::procedure::{self, refused};

/// Prints how many threads a procedure file can come to, if it keeps to the profile.
pub fn profile(asked: &Asked) -> Result<(), Failure> {
    let file = asked.path(0)?;
    let table = procedure::load(file)?;
    let bound = table.profile().map_err(|refusal| refused(file, &not_kept(&table, refusal)))?;
    let threads = if bound == 1 { "thread" } else { "threads" };
    let words = format!("keeps to the rental-shop profile: never more than {bound} {threads} at one time\n");
    command::print("answer", words.as_bytes())
}

/// Why a procedure does not keep to the profile. The engine names no line; that of the call is looked up.
fn not_kept(table: &Table, refusal: Refusal) -> String {
    match refusal {
        Refusal::ForbiddenCall => match forbidden_call(table) {
            Some(call) => format!("{refusal}; {call}"),
            None => refusal.to_string(),
        },
        Refusal::ManyThreads => format!("{refusal}; there are {THREADS}"),
        _ => refusal.to_string(),
    }
}
