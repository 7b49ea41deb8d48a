//! A file that the driver loads, starts and works through a list in one go, and the reference step by step.

use interface::Call;

use crate::comparison::Answer;
use crate::kept::keep;
use crate::lists::List;
use crate::padded::{pattern, Padded};

/// Loads, starts and works a list: file, table, state, lists of rights, calls, answers.
type Work = fn(&[u8], &mut [u8], &mut [u8], &[u8], &[u8], &mut [u8]) -> Answer;

/// The driver to be held against the reference, with the buffers that it gets.
pub struct WorkedFiles {
    work: Work,
    file: Padded,
    table: Padded,
    state: Padded,
    lists: Padded,
    calls: Padded,
    answers: Padded,
}

impl WorkedFiles {
    pub fn new(work: Work) -> WorkedFiles {
        let [file, table, state, lists, calls, answers] = [(); 6].map(|()| Padded::default());
        WorkedFiles { work, file, table, state, lists, calls, answers }
    }

    /// Loads, starts and works the list, with buffers of these lengths for the table, the state and the answers;
    /// the list is one from the start of this file, if it has one. Answers what both sides answered.
    pub fn compare(&mut self, file: &[u8], list: &List, lengths: [usize; 3], about: &str) -> Answer {
        let [mut table, mut state, before] = lengths.map(|length| pattern(length).collect::<Vec<u8>>());
        let (expected, answers) = by_reference(file, &mut table, &mut state, list, &before);
        self.file.fill(file);
        self.table.fill(&pattern(lengths[0]).collect::<Vec<u8>>());
        self.state.fill(&pattern(lengths[1]).collect::<Vec<u8>>());
        self.lists.fill(&list.lists);
        self.calls.fill(&list.calls);
        self.answers.fill(&before);
        let given = (self.work)(
            self.file.content(),
            self.table.content(),
            self.state.content(),
            self.lists.content(),
            self.calls.content(),
            self.answers.content(),
        );
        let differs = if given != expected {
            format!("{given:?}, the reference to {expected:?}")
        } else if !self.answers.is(&answers) {
            String::from("other answers")
        } else if !self.table.is(&table) || !self.state.is(&state) {
            String::from("other bytes in the table or the state, or around them")
        } else if !self.file.is(file) || !self.calls.is(&list.calls) || !self.lists.is(&list.lists) {
            String::from("a change of the file, of the list or of the lists of rights")
        } else {
            return given;
        };
        keep(&[file, &list.lists, &list.calls], &format!("{about}: the driver came to {differs}"));
    }
}

/// What the reference answers, and what it leaves in the three buffers.
fn by_reference(
    file: &[u8],
    table: &mut [u8],
    state: &mut Vec<u8>,
    list: &List,
    answers: &[u8],
) -> (Answer, Vec<u8>) {
    let loaded = reference::answer(file, table);
    if loaded != (0, 0) {
        return (loaded, answers.to_vec());
    }
    let started = reference::ENGINE.answer(Call::Start, table, state).refusal();
    if started != 0 {
        return ((started, 0), answers.to_vec());
    }
    list.state().clone_into(state);
    ((0, 0), list.answered(answers))
}
