//! A file's table and the state that the calls lead to.

use generate::{File, Words, FREE};
use interface::{Collected, Given, Ran, Stepped, Taken, FULL_RIGHTS, STATE_BYTES};
use reference::TABLE_BYTES;

/// All calls are made from this seat, which may do everything.
const SEAT: u32 = 3;

pub struct Bench {
    pub table: Vec<u8>,
    pub state: Vec<u8>,
}

impl Bench {
    /// Loads the file and starts it, over a state of other bytes.
    pub fn new(file: &File) -> Bench {
        let mut table = vec![0; TABLE_BYTES];
        assert_eq!(reference::answer(&file.text(), &mut table), (0, 0));
        let mut state = vec![0xa5; STATE_BYTES];
        assert_eq!(reference::start(&table, &mut state).refusal, 0);
        Bench { table, state }
    }

    pub fn step(&mut self, thread: u32) -> Stepped {
        reference::step(&self.table, &mut self.state, &FULL_RIGHTS, SEAT, thread)
    }

    /// Steps a thread and answers act, branch and partner.
    pub fn stepped(&mut self, thread: u32) -> (i32, i32, i32) {
        let stepped = self.step(thread);
        assert_eq!(stepped.refusal, 0, "thread {thread}");
        (stepped.act, stepped.branch, stepped.partner)
    }

    /// Steps a thread so many times.
    pub fn steps(&mut self, thread: u32, times: usize) {
        for _ in 0..times {
            self.stepped(thread);
        }
    }

    pub fn run(&mut self, n: u16) -> Ran {
        reference::run(&self.table, &mut self.state, &FULL_RIGHTS, SEAT, n)
    }

    pub fn give(&mut self, port: u32, number: i32) -> Given {
        reference::give(&self.table, &mut self.state, &FULL_RIGHTS, SEAT, port, number)
    }

    pub fn take(&mut self, port: u32) -> Taken {
        reference::take(&self.table, &mut self.state, &FULL_RIGHTS, SEAT, port)
    }

    pub fn collect(&mut self) -> Collected {
        reference::collect(&self.table, &mut self.state, &FULL_RIGHTS, SEAT)
    }

    /// Collects, and answers the threads that are gone.
    pub fn collected(&mut self) -> Vec<usize> {
        let before = self.words().threads(FREE);
        let collected = self.collect();
        let mut gone = self.words().threads(FREE);
        gone.retain(|thread| !before.contains(thread));
        assert_eq!(collected, Collected { refusal: 0, threads: gone.len() as i32 });
        gone
    }

    pub fn words(&self) -> Words {
        Words::new(&self.state)
    }

    /// The two marks and the turn.
    pub fn front(&self) -> [i32; 3] {
        let mut words = self.words();
        words.front().try_into().expect("three words")
    }

    /// Status and node.
    pub fn place(&self, thread: usize) -> (i32, i32) {
        let words = self.words();
        (words.thread(thread)[0], words.thread(thread)[1])
    }

    /// The first slots of a thread.
    pub fn slots<const N: usize>(&self, thread: usize) -> [i32; N] {
        self.words().thread(thread)[2..2 + N].try_into().expect("as many as asked for")
    }

    /// Type, count and count of waiting holders.
    pub fn channel(&self, channel: usize) -> [i32; 3] {
        self.words().channel(channel).try_into().expect("three words")
    }

    /// The call leaves every byte of the state.
    pub fn unchanged<T>(&mut self, call: impl FnOnce(&mut Bench) -> T) -> T {
        let before = self.state.clone();
        let answer = call(self);
        assert!(self.state == before, "the state has changed");
        answer
    }

    /// A step of the thread is refused on this ground, with all other numbers 0, and changes nothing.
    pub fn refused(&mut self, thread: u32, refusal: i32) {
        let stepped = self.unchanged(|bench| bench.step(thread));
        assert_eq!(stepped, Stepped { refusal, ..Stepped::default() });
    }

    /// A run that is held up before its first step: answers reason and thread.
    pub fn held_up(&mut self) -> (i32, i32) {
        let ran = self.run(10);
        assert_eq!((ran.refusal, ran.steps), (0, 0));
        (ran.reason, ran.thread)
    }
}
