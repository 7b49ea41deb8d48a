//! The lines of words on the right side of a thread's frame, at which the lines to channels begin.

use pithread::Status;

use crate::graph::{Graph, Offer, Thread};
use crate::order::{mean_rank, places, Part};

pub enum Row {
    Offer(Offer),
    /// The channels that are only held.
    Holds(Vec<u32>),
    /// For a thread that waits and offers nothing.
    NoOffer,
}

impl Row {
    /// The channels that it leads to, as places in the list of the graph.
    pub fn channels<'a>(&'a self, graph: &'a Graph) -> impl Iterator<Item = usize> + 'a {
        let channels = match self {
            Row::Offer(offer) => std::slice::from_ref(&offer.channel),
            Row::Holds(channels) => channels,
            Row::NoOffer => &[],
        };
        channels.iter().map(|channel| graph.place_of(*channel))
    }

    pub fn words(&self) -> String {
        match self {
            Row::Offer(offer) => format!("branch {} {}s", offer.branch, offer.direction.word()),
            Row::Holds(_) => String::from("holds"),
            Row::NoOffer => String::from("offers nothing"),
        }
    }
}

pub fn rows_of(thread: &Thread) -> Vec<Row> {
    let mut rows: Vec<Row> = thread.offers.iter().map(|offer| Row::Offer(*offer)).collect();
    if !thread.only_holds.is_empty() {
        rows.push(Row::Holds(thread.only_holds.clone()));
    }
    if thread.status == Status::Waiting && thread.offers.is_empty() {
        rows.push(Row::NoOffer);
    }
    rows
}

/// Puts the rows of each thread in the order of the channels that they lead to.
pub fn order_rows(graph: &Graph, rows: &mut [Vec<Row>], parts: &[Part]) {
    let order: Vec<usize> = parts.iter().flat_map(|part| part[1].iter().copied()).collect();
    let rank = places(&order);
    for rows in rows {
        rows.sort_by_cached_key(|row| mean_rank(row.channels(graph).map(|channel| rank[channel])));
    }
}
