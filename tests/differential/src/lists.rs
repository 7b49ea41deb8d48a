//! A whole list of calls, worked by the driver in one go and by the reference call by call.

use generate::Random;
use interface::{Answer, Call, Seated, FULL_RIGHTS, RIGHTS_BYTES, SEATS};

use crate::kept::keep;
use crate::padded::{pattern, Padded};

/// The words of a call and of an answer.
const CALL_WORDS: usize = 6;
const ANSWER_WORDS: usize = 5;
const WORD: usize = 4;

/// Works a list: table, state, lists of rights, calls, answers.
type Work = fn(&[u8], &mut [u8], &[u8], &[u8], &mut [u8]);

/// The driver to be held against the reference, with the buffers that it gets.
pub struct Lists {
    work: Work,
    table: Padded,
    state: Padded,
    lists: Padded,
    calls: Padded,
    answers: Padded,
}

/// Calls as the driver reads them, with what the reference answers and leaves.
pub struct List {
    /// The lists of rights, one behind the other.
    pub(crate) lists: Vec<u8>,
    pub(crate) calls: Vec<u8>,
    answers: Vec<u8>,
    state: Vec<u8>,
}

impl List {
    /// A list without calls, on this state.
    pub fn new(state: &[u8]) -> List {
        List { lists: Vec::new(), calls: Vec::new(), answers: Vec::new(), state: state.to_vec() }
    }

    /// One call more, by the reference.
    pub fn push<'a>(&mut self, random: &mut Random, call: impl Into<Seated<'a>>, table: &[u8]) -> Answer {
        let Seated { call, rights, seat } = call.into();
        let from = self.place_of(rights);
        self.push_part(random, call, seat, [from as u32, rights.len() as u32], table)
    }

    /// One call more, whose list of rights is said to go on behind the end of all lists, or to begin there: it is
    /// what there is of it, at the best the last list, which grants everything. Calls with lists of their own may
    /// not follow: they would make it longer.
    pub fn push_past_end(&mut self, random: &mut Random, call: Call, table: &[u8]) -> Answer {
        if !self.lists.ends_with(&FULL_RIGHTS) {
            self.lists.extend_from_slice(&FULL_RIGHTS);
        }
        let last = self.lists.len() - RIGHTS_BYTES;
        let behind = random.pick(&[last + 4, self.lists.len(), self.lists.len() + 1, u32::MAX as usize]);
        let from = if random.chance(60) { last } else { behind };
        let length = random.pick(&[RIGHTS_BYTES, RIGHTS_BYTES + 1, 1 << 31, u32::MAX as usize]);
        let seat = random.below(SEATS) as u32;
        self.push_part(random, call, seat, [from as u32, length as u32], table)
    }

    /// Where a list of rights begins among all of them. The first one serves again where it fits.
    fn place_of(&mut self, rights: &[u8]) -> usize {
        if self.lists.starts_with(rights) {
            return 0;
        }
        self.lists.extend_from_slice(rights);
        self.lists.len() - rights.len()
    }

    /// One call more, with this part of the lists: where it begins, and how many bytes it has.
    fn push_part(
        &mut self,
        random: &mut Random,
        call: Call,
        seat: u32,
        part: [u32; 2],
        table: &[u8],
    ) -> Answer {
        let words = [&words_of(random, call)[..], &[seat], &part].concat();
        self.calls.extend(words.iter().flat_map(|word| word.to_le_bytes()));
        let [from, length] = part.map(|word| word as usize);
        let rest = &self.lists[from.min(self.lists.len())..];
        let rights = &rest[..length.min(rest.len())];
        let answer = reference::ENGINE.answer(call.by(rights, seat), table, &mut self.state);
        self.answers.extend(numbers_of(&answer).iter().flat_map(|number| number.to_le_bytes()));
        answer
    }

    /// A rest too short for a call.
    pub fn push_rest(&mut self, random: &mut Random) {
        let rest = random.below(CALL_WORDS * WORD);
        self.calls.extend((0..rest).map(|_| random.byte()));
    }

    /// The bytes of all answers.
    pub fn answer_bytes(&self) -> usize {
        self.answers.len()
    }

    /// A buffer with as many of the answers as go into it, laid over these bytes.
    pub(crate) fn answered(&self, before: &[u8]) -> Vec<u8> {
        let mut bytes = before.to_vec();
        let laid = self.answers.len().min(before.len() - before.len() % WORD);
        bytes[..laid].copy_from_slice(&self.answers[..laid]);
        bytes
    }

    /// The state after the last call.
    pub fn state(&self) -> &[u8] {
        &self.state
    }
}

impl Lists {
    pub fn new(work: Work) -> Lists {
        let [table, state, lists, calls, answers] = [(); 5].map(|()| Padded::default());
        Lists { work, table, state, lists, calls, answers }
    }

    /// Works the list on a copy of the state, with so many bytes for the answers.
    pub fn compare(&mut self, list: &List, table: &[u8], state: &[u8], room: usize, about: &str) {
        let before: Vec<u8> = pattern(room).collect();
        let expected = list.answered(&before);
        self.table.fill(table);
        self.state.fill(state);
        self.lists.fill(&list.lists);
        self.calls.fill(&list.calls);
        self.answers.fill(&before);
        (self.work)(
            self.table.content(),
            self.state.content(),
            self.lists.content(),
            self.calls.content(),
            self.answers.content(),
        );
        let differs = if !self.answers.is(&expected) {
            "other answers"
        } else if !self.state.is(&list.state) {
            "other bytes in the state or around it"
        } else if !self.table.is(table) || !self.calls.is(&list.calls) || !self.lists.is(&list.lists) {
            "a change of the table, of the list or of the lists of rights"
        } else {
            return;
        };
        let inputs = [table, state, &list.lists, &list.calls];
        keep(&inputs, &format!("{about}: the driver came to {differs}"));
    }
}

/// The three words of a call and its numbers. What a call does not use is any number.
fn words_of(random: &mut Random, call: Call) -> [u32; 3] {
    let any = random.bits() as u32;
    let other = random.bits() as u32;
    match call {
        Call::Step { thread } => [0, thread, any],
        Call::Give { port, number } => [1, port, number as u32],
        Call::Take { port } => [2, port, any],
        Call::Run { n } => [3, u32::from(n) | (other << 16), any],
        Call::Collect => [random.pick(&[4, 5, 256, u32::MAX, other.max(4)]), other, any],
        Call::Start => panic!("a list has no start"),
    }
}

/// The numbers of an answer in their order, then 0.
fn numbers_of(answer: &Answer) -> [i32; ANSWER_WORDS] {
    match answer {
        Answer::Started(_) => panic!("a list has no start"),
        Answer::Stepped(a) => [a.refusal, a.node, a.act, a.branch, a.partner],
        Answer::Given(a) => [a.refusal, a.thread, 0, 0, 0],
        Answer::Taken(a) => [a.refusal, a.thread, a.number, 0, 0],
        Answer::Ran(a) => [a.refusal, a.steps, a.reason, a.thread, 0],
        Answer::Collected(a) => [a.refusal, a.threads, 0, 0, 0],
    }
}
