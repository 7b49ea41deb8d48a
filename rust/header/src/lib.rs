//! `include/pithread.h` in Rust: lengths, the words of a state, numbers and answers.
//!
//! The names are those of the header without `PITHREAD_`, and the answers have the layout of its structs.
//! Nothing is linked and nothing is called: the calls are in the crate `pithread`.

/// Declares numbers, and lists them for the test that compares them with the header.
macro_rules! numbers {
    ($($(#[$about:meta])* $name:ident: $kind:ty = $value:expr;)+) => {
        $($(#[$about])* pub const $name: $kind = $value;)+

        #[cfg(test)]
        const NUMBERS: &[(&str, i64)] = &[$((stringify!($name), $name as i64)),+];
    };
}

/// Declares the structs of answers, all of whose numbers have 32 bits, and lists them likewise.
macro_rules! answers {
    ($($(#[$about:meta])* $name:ident { $($(#[$what:meta])* $number:ident,)+ })+) => {
        $(
            $(#[$about])*
            #[repr(C)]
            #[derive(Clone, Copy, Debug, Default, PartialEq, Eq)]
            pub struct $name {
                $($(#[$what])* pub $number: i32,)+
            }
        )+

        #[cfg(test)]
        const ANSWERS: &[(&str, &[(&str, usize)])] = &[
            $((stringify!($name), &[$((stringify!($number), std::mem::offset_of!($name, $number))),+])),+
        ];
    };
}

numbers! {
    /// Bytes of a line of a procedure file, its newline among them.
    LINE_BYTES: usize = 73;
    /// Bytes of the longest file.
    MOST_FILE_BYTES: usize = 63_145;
    /// Bytes of a table.
    TABLE_BYTES: usize = 20_760;
    /// Bytes of a state.
    STATE_BYTES: usize = 6_156;
    /// Bytes of a list of rights.
    RIGHTS_BYTES: usize = 288;

    /// Words of a state.
    STATE_WORDS: usize = 1_539;
    /// The word with the thread row at which the search for a free one begins.
    NEXT_THREAD: usize = 0;
    /// The word with the channel row at which the search for a free one begins.
    NEXT_CHANNEL: usize = 1;
    /// The word with the thread row at which the next run begins.
    TURN: usize = 2;
    /// Thread rows.
    THREADS: usize = 64;
    /// The word at which the thread rows begin.
    THREAD_ROWS: usize = 3;
    /// Words of a thread row.
    THREAD_WORDS: usize = 18;
    /// Inside a thread row, the status.
    THREAD_STATUS: usize = 0;
    /// Inside a thread row, the node, counted from 0 over the whole file.
    THREAD_NODE: usize = 1;
    /// Inside a thread row, the first slot.
    THREAD_SLOTS: usize = 2;
    /// Slots of a thread row.
    SLOTS: usize = 16;
    /// Channel rows.
    CHANNELS: usize = 128;
    /// The word at which the channel rows begin.
    CHANNEL_ROWS: usize = 1_155;
    /// Words of a channel row.
    CHANNEL_WORDS: usize = 3;
    /// Inside a channel row, the type.
    CHANNEL_TYPE: usize = 0;
    /// Inside a channel row, the number of its holders.
    CHANNEL_HOLDERS: usize = 1;
    /// Inside a channel row, how many of its holders are waiting threads.
    CHANNEL_WAITING: usize = 2;

    /// Seats of a bench.
    SEATS: usize = 8;
    /// The most ports that a file may have, and as many numbers of a seat are for ports.
    PORTS: usize = 8;
    /// Numbers of a list of rights for each seat: one for each port, and one for the bench as a whole.
    SEAT_NUMBERS: usize = 9;
    /// Among the numbers of a seat, the place of the one for the bench as a whole.
    BENCH_RIGHT: usize = 8;

    /// A seat may do nothing, on a port or on the bench as a whole.
    NO_RIGHT: i32 = 0;
    /// On a port: the seat may take.
    MAY_TAKE: i32 = 1;
    /// On a port: the seat may give.
    MAY_GIVE: i32 = 2;
    /// On the bench as a whole: the seat may step and run.
    MAY_STEP: i32 = 1;
    /// On the bench as a whole: the seat may collect.
    MAY_COLLECT: i32 = 2;
    /// A seat may do both, on a port or on the bench as a whole.
    BOTH_RIGHTS: i32 = 3;

    /// Status of a thread row that is free.
    FREE: i32 = 0;
    /// Status of a thread that can be stepped.
    READY: i32 = 1;
    /// Status of a thread that waits.
    WAITING: i32 = 2;

    /// No ground: the call was done.
    DONE: i32 = 0;
    /// The file ends inside a line, or has more than 865 lines.
    FILE_LENGTH: i32 = 1;
    /// A field is not a number of its form, or a line does not end with a newline.
    FIELD: i32 = 2;
    /// The header and the lines that follow it do not agree.
    COUNTS: i32 = 3;
    /// A number is outside its range, or an unused field is not 0.
    RANGE: i32 = 4;
    /// Types do not agree, or the rule of the ports is broken.
    TYPES: i32 = 5;
    /// A slot is read that may not have been written.
    READ: i32 = 6;
    /// No path leads to a node.
    UNREACHABLE: i32 = 7;
    /// A buffer has the wrong length.
    BUFFER_LENGTH: i32 = 8;
    /// No procedure file has this table.
    TABLE: i32 = 9;
    /// The state is not a sound one for this table.
    STATE: i32 = 10;
    /// There is no such thread row, or its thread is not ready.
    THREAD: i32 = 11;
    /// The file has no such port.
    PORT: i32 = 12;
    /// The step would start a thread, and all thread rows are taken.
    NO_THREAD_ROW: i32 = 13;
    /// The step would make a channel, and all channel rows are taken.
    NO_CHANNEL_ROW: i32 = 14;
    /// The buffer is shorter than the file that would be written.
    SHORT_BUFFER: i32 = 15;
    /// A call goes to a definition of a lower number, or to its own definition, which has a spawn.
    FORBIDDEN_CALL: i32 = 16;
    /// The thread bound of definition 0 is above the number of thread rows.
    MANY_THREADS: i32 = 17;
    /// A number of the list of rights is outside 0 to 3. Tested behind [`TABLE`] and ahead of [`STATE`].
    RIGHTS: i32 = 18;
    /// There is no such seat, or it has not the right. Tested behind [`RIGHTS`] and ahead of [`STATE`].
    SEAT: i32 = 19;

    /// A step: the thread came to its end.
    ENDED: i32 = 0;
    /// A step: the thread went on at the definition that it calls.
    CALLED: i32 = 1;
    /// A step: no branch could go ahead, and the thread waits.
    WAITS: i32 = 2;
    /// A step: a branch was taken.
    BRANCH: i32 = 3;

    /// The end of a run: it made as many steps as it was asked for.
    ALL_STEPS: i32 = 0;
    /// The end of a run: no thread is ready.
    NONE_READY: i32 = 1;
    /// The end of a run: a thread would start another one, and all thread rows are taken.
    LACKED_THREAD_ROW: i32 = 2;
    /// The end of a run: a thread would make a channel, and all channel rows are taken.
    LACKED_CHANNEL_ROW: i32 = 3;

    /// Stands for a thread where there is none.
    NOBODY: i32 = -1;
}

answers! {
    /// The answer of a load.
    Loaded {
        /// 0, or a ground from 1 to 8.
        refusal,
        /// For the grounds 2 to 7 the first line at fault, counted from 1; else 0.
        line,
    }

    /// The answer of a write.
    Written {
        /// 0, 8, 9 or 15.
        refusal,
        /// How many bytes the file has: [`LINE_BYTES`] for each of its lines.
        bytes,
    }

    /// The answer of a check for the rental-shop profile.
    Profiled {
        /// 0, 8, 9, 16 or 17.
        refusal,
        /// The thread bound of definition 0, from 1 to [`THREADS`].
        threads,
    }

    /// The answer of a start.
    Started {
        /// 0, 8 or 9.
        refusal,
    }

    /// The answer of a step.
    Stepped {
        /// 0, a ground from 8 to 11, 13, 14, 18 or 19.
        refusal,
        /// Where the thread stood before the step, counted from 0 over the whole file.
        node,
        /// What the step did: [`ENDED`] to [`BRANCH`].
        act,
        /// The branch taken, counted from 0 in its choice; 0 for the other acts.
        branch,
        /// The thread that was met, or the one that was started; else [`NOBODY`].
        partner,
    }

    /// The answer of a give.
    Given {
        /// 0, a ground from 8 to 10, 12, 18 or 19.
        refusal,
        /// The thread that received the number, or [`NOBODY`].
        thread,
    }

    /// The answer of a take.
    Taken {
        /// 0, a ground from 8 to 10, 12, 18 or 19.
        refusal,
        /// The thread that sent the number, or [`NOBODY`].
        thread,
        /// The number that it sent; 0 with [`NOBODY`].
        number,
    }

    /// The answer of a run.
    Ran {
        /// 0, a ground from 8 to 10, 18 or 19.
        refusal,
        /// How many steps were made.
        steps,
        /// Why there were no more: [`ALL_STEPS`] to [`LACKED_CHANNEL_ROW`].
        reason,
        /// For the last two reasons the thread that lacked a row; else [`NOBODY`].
        thread,
    }

    /// The answer of a collection.
    Collected {
        /// 0, a ground from 8 to 10, 18 or 19.
        refusal,
        /// How many threads were taken.
        threads,
    }
}

#[cfg(test)]
mod tests;
