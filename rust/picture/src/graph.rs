//! Who holds and who offers what, in a state.

use pithread::{Bench, Refusal, Rights, Seat, Status};

use crate::program::Program;

#[derive(Clone, Copy, Debug, PartialEq, Eq)]
pub enum Direction {
    Send,
    Receive,
}

impl Direction {
    pub fn word(self) -> &'static str {
        match self {
            Direction::Send => "send",
            Direction::Receive => "receive",
        }
    }
}

/// A send or receive by which a waiting thread can be met.
#[derive(Clone, Copy, Debug, PartialEq, Eq)]
pub struct Offer {
    /// Its branch, counted from 0 in the choice.
    pub branch: u32,
    pub direction: Direction,
    pub channel: u32,
}

pub struct Thread {
    pub number: u32,
    pub node: u32,
    pub status: Status,
    /// Whether it is enabled: a collection leaves it.
    pub stays: bool,
    pub offers: Vec<Offer>,
    /// The channels that it holds and offers nothing on.
    pub only_holds: Vec<u32>,
}

impl Thread {
    pub fn name(&self) -> String {
        format!("thread {}", self.number)
    }

    /// Where it stands, and its status.
    pub fn place(&self) -> String {
        let status = match self.status {
            Status::Ready => "ready",
            Status::Waiting => "waiting",
        };
        format!("node {}, {status}", self.node)
    }
}

pub struct Channel {
    pub number: u32,
    pub is_port: bool,
    /// Whether a collection leaves it.
    pub stays: bool,
}

impl Channel {
    pub fn name(&self) -> String {
        let kind = if self.is_port { "port" } else { "channel" };
        format!("{kind} {}", self.number)
    }
}

/// The threads and the channels in use, lowest number first.
pub struct Graph {
    pub threads: Vec<Thread>,
    pub channels: Vec<Channel>,
}

impl Graph {
    pub fn new(bench: &Bench) -> Result<Graph, Refusal> {
        let program = Program::new(bench.table());
        let mut after = bench.clone();
        after.at(&Rights::FULL, Seat::ALL[0]).collect()?;
        let threads = bench.state().threads().map(|thread| {
            let pithread::Thread { number, status, node, slots } = thread;
            let offers = match status {
                Status::Ready => Vec::new(),
                Status::Waiting => program.offers(node, &slots),
            };
            let mut only_holds = program.held(node, &slots);
            only_holds.retain(|channel| offers.iter().all(|offer| offer.channel != *channel));
            let stays = after.state().threads().any(|left| left.number == number);
            Thread { number, node, status, stays, offers, only_holds }
        });
        let channels = bench.state().channels().map(|channel| Channel {
            number: channel.number,
            is_port: channel.number < bench.table().ports(),
            stays: after.state().channels().any(|left| left.number == channel.number),
        });
        Ok(Graph { threads: threads.collect(), channels: channels.collect() })
    }

    /// The place in the list of a channel, which must be in use.
    pub fn place_of(&self, channel: u32) -> usize {
        self.channels.partition_point(|other| other.number < channel)
    }

    pub fn ports(&self) -> impl Iterator<Item = &Channel> {
        self.channels.iter().filter(|channel| channel.is_port)
    }

    /// How many threads a collection takes.
    pub fn taken(&self) -> usize {
        self.threads.iter().filter(|thread| !thread.stays).count()
    }
}
