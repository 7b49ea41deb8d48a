//! What collections take and leave, and what becomes of the rows that they free.

use generate::{Words, FREE, WAITING};
use interface::Call;

use crate::Traffic;

impl Traffic {
    /// Counts what a collection that was done took and left.
    pub fn add_collection(&mut self, before: &Words, after: &Words) {
        let waiting = after.threads(WAITING).len();
        let taken = before.threads(WAITING).len() - waiting;
        self.note("threads taken, at least", least_of_class(taken));
        if taken == 0 {
            self.note("nobody taken, some left waiting", i32::from(waiting > 0));
            return;
        }
        let channels = after.channels(FREE).len() - before.channels(FREE).len();
        self.note("some taken, some left waiting", i32::from(waiting > 0));
        self.note("some taken, a channel freed", i32::from(channels > 0));
    }
}

/// Nobody, one, several, many, all that there can be; each by the least number of its class.
fn least_of_class(threads: usize) -> i32 {
    match threads {
        0 | 1 => threads as i32,
        2..8 => 2,
        8..64 => 8,
        _ => 64,
    }
}

/// The rows that collections have freed since the last start and that are still free.
#[derive(Default)]
pub struct Freed {
    took: bool,
    threads: Vec<usize>,
    channels: Vec<usize>,
}

impl Freed {
    /// Follows a call that was done, from the state before it to the one after it.
    pub fn follow(&mut self, call: Call, before: &Words, after: &Words, traffic: &mut Traffic) {
        if self.took {
            traffic.note(name_after_taking(call), i32::from(before != after));
        }
        if call == Call::Start {
            *self = Freed::default();
            return;
        }
        let [threads, channels] = [before.threads(FREE), before.channels(FREE)];
        let [threads_then, channels_then] = [after.threads(FREE), after.channels(FREE)];
        let used = still_free(&mut self.threads, &threads, &threads_then);
        traffic.note("threads in rows of taken ones, at least", least_of_class(used));
        let used = still_free(&mut self.channels, &channels, &channels_then);
        traffic.note("channels in rows of freed ones, at least", least_of_class(used));
        if call == Call::Collect && before != after {
            self.took = true;
            self.threads.extend(newly_free(&threads, &threads_then));
            self.channels.extend(newly_free(&channels, &channels_then));
        }
    }
}

fn name_after_taking(call: Call) -> &'static str {
    match call {
        Call::Start => "start after a taking",
        Call::Step { .. } => "step after a taking",
        Call::Give { .. } => "give after a taking",
        Call::Take { .. } => "take after a taking",
        Call::Run { .. } => "run after a taking",
        Call::Collect => "collect after a taking",
    }
}

/// Drops the rows that are no longer free. Answers how many of them the call itself has used.
fn still_free(rows: &mut Vec<usize>, before: &[usize], after: &[usize]) -> usize {
    let used = rows.iter().filter(|row| before.contains(row) && !after.contains(row)).count();
    rows.retain(|row| after.contains(row));
    used
}

fn newly_free<'a>(before: &'a [usize], after: &'a [usize]) -> impl Iterator<Item = usize> + 'a {
    after.iter().copied().filter(|row| !before.contains(row))
}
