//! Ground 10: reads a state, or says what is wrong with it.

use interface::{CHANNELS, CHANNELS_START, CHANNEL_WORDS, FRONT_WORDS, STATE_BYTES, THREADS, THREAD_WORDS};

use super::code::{Action, Code, Definition, Direction, Kind, Node, NO_CHANNEL};
use super::state::{members, only, State, Thread, Threads};

/// What is wrong with a state. If several things are, the one that reading comes upon first: it goes
/// through the marks, the types of the channels, the threads row by row, the counts channel by
/// channel, and the waiting threads.
#[derive(Clone, Copy, Debug, PartialEq, Eq)]
pub enum Fault {
    /// A mark or the turn is no row's number.
    Mark,
    /// A channel has a type that the file has not.
    ChannelType,
    /// A port is not in use, or not of type 1.
    Port,
    /// A row is neither free nor ready nor waiting.
    Status,
    /// A free thread row has a word that is not 0.
    FreeThread,
    /// A thread stands at a node that the file has not.
    Node,
    /// A slot that the definition has not is not 0.
    PastSlots,
    /// A channel slot has neither -1 nor a channel of its type that is in use.
    Slot,
    /// A channel slot that is surely written has -1.
    Unfilled,
    /// A channel is in use though nobody holds it.
    Unheld,
    /// A free channel row has a count.
    FreeChannel,
    /// The count of holders is not true.
    Count,
    /// The count of waiting holders is not true.
    WaitingCount,
    /// A thread waits at an end or a call.
    WaitsElsewhere,
    /// A waiting thread has an open branch that needs no partner.
    GoesAlone,
    /// Two waiting threads could meet.
    Meets,
}

const WORDS: usize = STATE_BYTES / 4;
type Words = [i32; WORDS];

/// For each channel the waiting threads that offer to send on it, and those that offer to receive.
struct Offers {
    sends: [Threads; CHANNELS],
    receives: [Threads; CHANNELS],
}

fn words_of(bytes: &[u8]) -> Words {
    let mut words = [0; WORDS];
    for (word, bytes) in words.iter_mut().zip(bytes.as_chunks::<4>().0) {
        *word = i32::from_le_bytes(*bytes);
    }
    words
}

fn test(holds: bool, fault: Fault) -> Result<(), Fault> {
    if holds {
        Ok(())
    } else {
        Err(fault)
    }
}

/// A word as a number below the limit.
fn below(word: i32, limit: usize, fault: Fault) -> Result<usize, Fault> {
    usize::try_from(word).ok().filter(|number| *number < limit).ok_or(fault)
}

fn channel_rows(words: &Words) -> &[[i32; CHANNEL_WORDS]] {
    words[CHANNELS_START..].as_chunks().0
}

impl State {
    /// Reads a state into one that is new. The bytes must be as many as a state has.
    pub fn read(&mut self, code: &Code, bytes: &[u8]) -> Result<(), Fault> {
        let words = words_of(bytes);
        self.read_marks(&words)?;
        self.read_types(code, &words)?;
        let rows = words[FRONT_WORDS..CHANNELS_START].as_chunks::<THREAD_WORDS>().0;
        for (number, row) in rows.iter().enumerate() {
            self.read_thread(code, number, row)?;
        }
        self.check_channels(&words)?;
        self.check_waiting(code)
    }

    fn read_marks(&mut self, words: &Words) -> Result<(), Fault> {
        self.next_thread = below(words[0], THREADS, Fault::Mark)?;
        self.next_channel = below(words[1], CHANNELS, Fault::Mark)?;
        self.turn = below(words[2], THREADS, Fault::Mark)?;
        Ok(())
    }

    fn read_types(&mut self, code: &Code, words: &Words) -> Result<(), Fault> {
        for (channel, row) in channel_rows(words).iter().enumerate() {
            below(row[0], code.types + 1, Fault::ChannelType)?;
            test(channel >= code.ports || row[0] == 1, Fault::Port)?;
            if row[0] != 0 {
                self.take_channel(channel, row[0]);
            }
        }
        Ok(())
    }

    fn read_thread(&mut self, code: &Code, number: usize, row: &[i32; THREAD_WORDS]) -> Result<(), Fault> {
        let [status, node, slots @ ..] = row;
        match status {
            0 => return test(row.iter().all(|word| *word == 0), Fault::FreeThread),
            1 => self.ready |= only(number),
            2 => self.waiting |= only(number),
            _ => return Err(Fault::Status),
        }
        let node = below(*node, code.length, Fault::Node)?;
        let definition = code.definition_at(node);
        test(slots[definition.slots..].iter().all(|word| *word == 0), Fault::PastSlots)?;
        self.threads[number] = Thread { node, slots: *slots };
        self.read_slots(number, definition, code.node(node))
    }

    /// The channel slots of a thread, which becomes a holder of the channels in them.
    fn read_slots(&mut self, thread: usize, definition: &Definition, node: &Node) -> Result<(), Fault> {
        for slot in members(u64::from(definition.channels)) {
            let word = self.threads[thread].slots[slot];
            if word == NO_CHANNEL {
                test(node.written >> slot & 1 == 0, Fault::Unfilled)?;
                continue;
            }
            let channel = below(word, CHANNELS, Fault::Slot)?;
            test(self.types[channel] == definition.types[slot], Fault::Slot)?;
            self.holders[channel] |= only(thread);
        }
        Ok(())
    }

    fn check_channels(&self, words: &Words) -> Result<(), Fault> {
        for (channel, row) in channel_rows(words).iter().enumerate() {
            let [kind, count, waiting] = self.channel_row(channel);
            test(kind == 0 || count > 0, Fault::Unheld)?;
            test(kind != 0 || row[1..] == [0, 0], Fault::FreeChannel)?;
            test(row[1] == count, Fault::Count)?;
            test(row[2] == waiting, Fault::WaitingCount)?;
        }
        Ok(())
    }

    fn check_waiting(&self, code: &Code) -> Result<(), Fault> {
        let mut offers = Offers { sends: [0; CHANNELS], receives: [0; CHANNELS] };
        for thread in members(self.waiting) {
            self.note_offers(code, thread, &mut offers)?;
        }
        let meets =
            offers.sends.iter().zip(&offers.receives).any(|(sends, receives)| {
                *sends != 0 && *receives != 0 && (sends | receives).count_ones() > 1
            });
        test(!meets, Fault::Meets)
    }

    fn note_offers(&self, code: &Code, thread: usize, offers: &mut Offers) -> Result<(), Fault> {
        let Thread { node, slots } = &self.threads[thread];
        let choice = matches!(code.node(*node).kind, Kind::Choice { .. });
        test(choice, Fault::WaitsElsewhere)?;
        for branch in code.branches_at(*node).iter().filter(|branch| branch.is_open(slots)) {
            let Action::Exchange(exchange) = branch.action else { return Err(Fault::GoesAlone) };
            let offered = match exchange.direction {
                Direction::Send => &mut offers.sends,
                Direction::Receive => &mut offers.receives,
            };
            // A channel that is read is surely written, and so there is one.
            offered[slots[usize::from(exchange.channel)] as usize] |= only(thread);
        }
        Ok(())
    }
}
