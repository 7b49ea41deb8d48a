//! Why a call was not done.

use std::error::Error;
use std::fmt;

use pithread_header::{
    BUFFER_LENGTH, COUNTS, DONE, FIELD, FILE_LENGTH, FORBIDDEN_CALL, MANY_THREADS, NO_CHANNEL_ROW,
    NO_THREAD_ROW, PORT, RANGE, READ, RIGHTS, SEAT, SHORT_BUFFER, STATE, TABLE, THREAD, TYPES, UNREACHABLE,
};

/// The ground on which a call was refused. Nothing has changed then.
///
/// If several grounds apply, the answer is the first of them in this order: 1 to 7, 8, 9, 18, 19, 10, and then the
/// others by their numbers. A seat without the right is told nothing of the state: a step of thread 99 is 19, not 11.
///
/// ```
/// use pithread::{Refusal, Table};
///
/// let refusal = Table::load(b"no procedure").unwrap_err();
/// assert_eq!(refusal, Refusal::FileLength);
/// assert_eq!(refusal.number(), 1);
/// ```
///
/// Both of its forms as text are its words, so that a program which ends with a refusal says what is wrong: Rust
/// prints the debug form of an error that `main` answers.
///
/// ```
/// fn main_of_a_program(file: &[u8]) -> Result<(), Box<dyn std::error::Error>> {
///     let table = pithread::Table::load(file)?;
///     println!("a file of {} bytes", table.write().len());
///     Ok(())
/// }
///
/// let error = main_of_a_program(b"no procedure").unwrap_err();
/// let printed = "Error: ground 1: the file ends inside a line, or has more than 865 lines";
/// assert_eq!(format!("Error: {error:?}"), printed);
/// ```
#[derive(Clone, Copy, PartialEq, Eq, Hash)]
pub enum Refusal {
    /// 1: the file ends inside a line, or has more than 865 lines.
    FileLength,
    /// 2: a field is not a number of its form, or the line does not end with a newline.
    Field {
        /// The first line at fault, counted from 1.
        line: u32,
    },
    /// 3: the header and the lines that follow it do not agree.
    Counts {
        /// The first line at fault, counted from 1.
        line: u32,
    },
    /// 4: a number is outside its range, or an unused field is not 0.
    Range {
        /// The first line at fault, counted from 1.
        line: u32,
    },
    /// 5: types do not agree, or the rule of the ports is broken.
    Types {
        /// The first line at fault, counted from 1.
        line: u32,
    },
    /// 6: a slot is read that may not have been written.
    Read {
        /// The first line at fault, counted from 1.
        line: u32,
    },
    /// 7: no path leads to the node.
    Unreachable {
        /// The first line at fault, counted from 1.
        line: u32,
    },
    /// 8: a buffer has the wrong length.
    BufferLength,
    /// 9: no procedure file has this table.
    Table,
    /// 10: the state is not a sound one for the table.
    State,
    /// 11: there is no such thread row, or its thread is not ready.
    Thread,
    /// 12: the file has no such port.
    Port,
    /// 13: the step would start a thread, and all thread rows are taken. The thread stays as it is and can
    /// be stepped again once a row is free.
    NoThreadRow,
    /// 14: the step would make a channel, and all channel rows are taken. The thread stays as it is and can
    /// be stepped again once a row is free.
    NoChannelRow,
    /// 15: the buffer is shorter than the file that would be written.
    ShortBuffer,
    /// 16: a call goes to a definition of a lower number, or to its own definition, which has a spawn.
    ForbiddenCall,
    /// 17: the thread bound of definition 0 is above the number of thread rows.
    ManyThreads,
    /// 18: a number of the list of rights is outside 0 to 3, whoever's it is.
    Rights,
    /// 19: there is no such seat, or it has not the right.
    Seat,
}

impl Refusal {
    /// The refusal behind the numbers of an answer; an error unless the call was done.
    pub(crate) fn unless_done(number: i32, line: i32) -> Result<(), Refusal> {
        let line = line.unsigned_abs();
        Err(match number {
            DONE => return Ok(()),
            FILE_LENGTH => Refusal::FileLength,
            FIELD => Refusal::Field { line },
            COUNTS => Refusal::Counts { line },
            RANGE => Refusal::Range { line },
            TYPES => Refusal::Types { line },
            READ => Refusal::Read { line },
            UNREACHABLE => Refusal::Unreachable { line },
            BUFFER_LENGTH => Refusal::BufferLength,
            TABLE => Refusal::Table,
            STATE => Refusal::State,
            THREAD => Refusal::Thread,
            PORT => Refusal::Port,
            NO_THREAD_ROW => Refusal::NoThreadRow,
            NO_CHANNEL_ROW => Refusal::NoChannelRow,
            SHORT_BUFFER => Refusal::ShortBuffer,
            FORBIDDEN_CALL => Refusal::ForbiddenCall,
            MANY_THREADS => Refusal::ManyThreads,
            RIGHTS => Refusal::Rights,
            SEAT => Refusal::Seat,
            _ => unreachable!("a ground is a number from 1 to 19"),
        })
    }

    /// The number of the ground, from 1 to 19.
    pub fn number(self) -> i32 {
        self.parts().0
    }

    /// The first line of the file at fault, counted from 1, for the grounds 2 to 7.
    pub fn line(self) -> Option<u32> {
        self.parts().1
    }

    /// What is wrong, in the words that the header has for the ground.
    pub fn words(self) -> &'static str {
        self.parts().2
    }

    /// The number, the line at fault if one is named, and what is wrong in words. They stand nowhere else.
    fn parts(self) -> (i32, Option<u32>, &'static str) {
        match self {
            Refusal::FileLength => {
                (FILE_LENGTH, None, "the file ends inside a line, or has more than 865 lines")
            }
            Refusal::Field { line } => (
                FIELD,
                Some(line),
                "a field is not a number of its form, or a line does not end with a newline",
            ),
            Refusal::Counts { line } => {
                (COUNTS, Some(line), "the header and the lines that follow it do not agree")
            }
            Refusal::Range { line } => {
                (RANGE, Some(line), "a number is outside its range, or an unused field is not 0")
            }
            Refusal::Types { line } => {
                (TYPES, Some(line), "types do not agree, or the rule of the ports is broken")
            }
            Refusal::Read { line } => (READ, Some(line), "a slot is read that may not have been written"),
            Refusal::Unreachable { line } => (UNREACHABLE, Some(line), "no path leads to a node"),
            Refusal::BufferLength => (BUFFER_LENGTH, None, "a buffer has the wrong length"),
            Refusal::Table => (TABLE, None, "no procedure file has this table"),
            Refusal::State => (STATE, None, "the state is not a sound one for this table"),
            Refusal::Thread => (THREAD, None, "there is no such thread row, or its thread is not ready"),
            Refusal::Port => (PORT, None, "the file has no such port"),
            Refusal::NoThreadRow => {
                (NO_THREAD_ROW, None, "the step would start a thread, and all 64 thread rows are taken")
            }
            Refusal::NoChannelRow => {
                (NO_CHANNEL_ROW, None, "the step would make a channel, and all 128 channel rows are taken")
            }
            Refusal::ShortBuffer => {
                (SHORT_BUFFER, None, "the buffer is shorter than the file that would be written")
            }
            Refusal::ForbiddenCall => (FORBIDDEN_CALL, None, "the profile forbids a call"),
            Refusal::ManyThreads => (MANY_THREADS, None, "there can be more threads than thread rows"),
            Refusal::Rights => (RIGHTS, None, "a number of the list of rights is outside 0 to 3"),
            Refusal::Seat => (SEAT, None, "there is no such seat, or it has not the right to this call"),
        }
    }
}

impl fmt::Display for Refusal {
    fn fmt(&self, formatter: &mut fmt::Formatter) -> fmt::Result {
        let (number, line, words) = self.parts();
        write!(formatter, "ground {number}")?;
        if let Some(line) = line {
            write!(formatter, ", line {line}")?;
        }
        write!(formatter, ": {words}")
    }
}

impl fmt::Debug for Refusal {
    fn fmt(&self, formatter: &mut fmt::Formatter) -> fmt::Result {
        fmt::Display::fmt(self, formatter)
    }
}

impl Error for Refusal {}
