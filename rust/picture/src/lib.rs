//! A picture of who waits for whom: the threads, channels and ports of a state, and what each thread holds
//! and offers.

mod canvas;
mod columns;
mod dot;
mod frame;
mod graph;
mod look;
mod order;
mod plan;
mod program;
mod rows;
mod spread;
mod svg;
pub mod text;

use graph::Graph;
use pithread::{Bench, Ran, Reason, Refusal, Rights, Seat};

/// What is drawn, and what is said about it.
pub struct Picture {
    name: String,
    ran: Ran,
    graph: Graph,
}

impl Picture {
    /// The procedures of a file after so many steps, or fewer if no more can be made.
    pub fn of_file(name: &str, file: &[u8], steps: u16) -> Result<Picture, Refusal> {
        let mut bench = Bench::load(file)?;
        let ran = bench.at(&Rights::FULL, Seat::ALL[0]).run(steps)?;
        Picture::of_bench(name, &bench, ran)
    }

    /// A bench after a run.
    pub fn of_bench(name: &str, bench: &Bench, ran: Ran) -> Result<Picture, Refusal> {
        Ok(Picture { name: text::shown_name(name), ran, graph: Graph::new(bench)? })
    }

    pub fn svg(&self) -> String {
        svg::svg(self)
    }

    pub fn dot(&self) -> String {
        dot::dot(self)
    }

    fn title(&self) -> String {
        let steps = if self.ran.steps == 1 { "step" } else { "steps" };
        format!("{} after {} {steps}", self.name, self.ran.steps)
    }

    /// Why there were no more steps, and what a collection takes.
    fn summary(&self) -> String {
        let threads = self.graph.threads.len();
        let collection = match (threads, self.graph.taken()) {
            (0, _) => return String::from("all threads have ended"),
            (1, 0) => String::from("a collection leaves the thread"),
            (1, _) => String::from("a collection takes the thread"),
            (_, 0) => format!("a collection leaves all {threads} threads"),
            (_, taken) if taken == threads => format!("a collection takes all {threads} threads"),
            (_, taken) => format!("a collection takes {taken} of {threads} threads"),
        };
        match self.ran.reason {
            Reason::AllSteps => collection,
            Reason::NoneReady => format!("no thread is ready; {collection}"),
            Reason::LackedThreadRow { thread } => format!("thread {thread} lacks a thread row; {collection}"),
            Reason::LackedChannelRow { thread } => {
                format!("thread {thread} lacks a channel row; {collection}")
            }
        }
    }
}
