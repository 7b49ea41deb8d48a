//! Where everything stands: threads on the left, channels in the middle, the bench on the right.
//!
//! Lines run only in the two spaces between these columns, and the words about threads, channels and the
//! bench stand in their frames, so that nothing covers a word.

use crate::columns::Columns;
use crate::frame::{Frame, Point, Stack};
use crate::graph::Graph;
use crate::order::{parts, Line};
use crate::rows::{order_rows, rows_of, Row};

pub const MARGIN: i32 = 24;
/// Room for the heading, and between two parts.
const TOP: i32 = 84;
const PART_GAP: i32 = 34;
const THREAD_WIDTH: i32 = 268;
const CHANNEL_LEFT: i32 = MARGIN + THREAD_WIDTH + 170;
const CHANNEL_WIDTH: i32 = 124;
/// The least heights of frames with two lines of words and with one.
const TWO_LINES: i32 = 52;
const ONE_LINE: i32 = 30;

/// A line to a channel, from a row of a thread; all three as places in their lists.
pub struct Link {
    pub thread: usize,
    pub row: usize,
    pub channel: usize,
    pub ends: [Point; 2],
}

/// The bench, and the lines to it from the ports, which are given as places among the channels.
pub struct BenchPlan {
    pub frame: Frame,
    pub ports: Vec<(usize, [Point; 2])>,
}

/// Threads and channels in the order of the graph.
pub struct Plan {
    pub width: i32,
    /// Without the key.
    pub height: i32,
    pub threads: Vec<Frame>,
    /// For each thread its rows.
    pub rows: Vec<Vec<Row>>,
    pub channels: Vec<Frame>,
    pub links: Vec<Link>,
    /// If there are ports.
    pub bench: Option<BenchPlan>,
}

impl Plan {
    pub fn new(graph: &Graph) -> Plan {
        let mut rows: Vec<Vec<Row>> = graph.threads.iter().map(rows_of).collect();
        let lines: Vec<Line> = links(graph, &rows).iter().map(|link| [link.thread, link.channel]).collect();
        let parts = parts([graph.threads.len(), graph.channels.len()], &lines);
        order_rows(graph, &mut rows, &parts);
        let mut links = links(graph, &rows);
        let mut columns = columns(graph, &rows, &links);
        let mut top = TOP;
        for part in &parts {
            top = columns.place(part, top) + PART_GAP;
        }
        let threads = columns.frames(0, MARGIN, THREAD_WIDTH);
        let channels = columns.frames(1, CHANNEL_LEFT, CHANNEL_WIDTH);
        place_links(&mut links, &rows, &threads, &channels);
        let bench = bench(graph, &channels);
        let bench_frame = bench.as_ref().map(|bench| bench.frame);
        let frames = threads.iter().chain(&channels).chain(&bench_frame);
        Plan {
            width: bench_frame.map_or(CHANNEL_LEFT + CHANNEL_WIDTH, |frame| frame.right()) + MARGIN,
            height: frames.map(Frame::bottom).max().unwrap_or(TOP),
            threads,
            rows,
            channels,
            links,
            bench,
        }
    }

    /// Where the middle of a row of a thread is.
    pub fn row_middle(&self, thread: usize, row: usize) -> i32 {
        self.threads[thread].middle() + stack_of(&self.rows[thread]).off_middle(row)
    }

    pub fn is_offer(&self, link: &Link) -> bool {
        matches!(self.rows[link.thread][link.row], Row::Offer(_))
    }
}

/// A link for each row and each channel that it leads to, not placed yet.
fn links(graph: &Graph, rows: &[Vec<Row>]) -> Vec<Link> {
    let mut links = Vec::new();
    for (thread, rows) in rows.iter().enumerate() {
        for (row, leading) in rows.iter().enumerate() {
            let ends = [(0, 0); 2];
            links.extend(leading.channels(graph).map(|channel| Link { thread, row, channel, ends }));
        }
    }
    links
}

fn stack_of(rows: &[Row]) -> Stack {
    Stack { step: 18, count: rows.len() }
}

/// The ends of so many links at one channel.
fn ends(count: usize) -> Stack {
    Stack { step: 9, count }
}

/// The columns with the heights of all frames, not placed yet.
fn columns(graph: &Graph, rows: &[Vec<Row>], links: &[Link]) -> Columns {
    let threads: Vec<i32> = rows.iter().map(|rows| stack_of(rows).height(TWO_LINES)).collect();
    let count = |channel: usize| links.iter().filter(|link| link.channel == channel).count();
    let channels = 0..graph.channels.len();
    let channels: Vec<i32> = channels.map(|channel| ends(count(channel)).height(ONE_LINE)).collect();
    let lines = links.iter().map(|link| {
        let down = threads[link.thread] / 2 + stack_of(&rows[link.thread]).off_middle(link.row);
        [(link.thread, down), (link.channel, channels[link.channel] / 2)]
    });
    let lines = lines.collect();
    Columns::new([threads, channels], lines)
}

/// At a channel, links end one below the other, in the order in which they begin.
fn place_links(links: &mut [Link], rows: &[Vec<Row>], threads: &[Frame], channels: &[Frame]) {
    for link in links.iter_mut() {
        let frame = &threads[link.thread];
        let height = frame.middle() + stack_of(&rows[link.thread]).off_middle(link.row);
        link.ends[0] = (frame.right(), height);
    }
    for (channel, frame) in channels.iter().enumerate() {
        let mut own: Vec<&mut Link> = links.iter_mut().filter(|link| link.channel == channel).collect();
        own.sort_by_key(|link| link.ends[0].1);
        let ends = ends(own.len());
        for (place, link) in own.into_iter().enumerate() {
            link.ends[1] = (frame.left, frame.middle() + ends.off_middle(place));
        }
    }
}

/// The bench stands at the mean height of the ports.
fn bench(graph: &Graph, channels: &[Frame]) -> Option<BenchPlan> {
    let mut ports: Vec<(usize, Point)> = graph
        .ports()
        .map(|port| graph.place_of(port.number))
        .map(|place| (place, (channels[place].right(), channels[place].middle())))
        .collect();
    ports.sort_by_key(|(_, point)| point.1);
    let (_, (right, _)) = ports.first()?;
    let stack = Stack { step: 18, count: ports.len() };
    let middle = ports.iter().map(|(_, point)| point.1).sum::<i32>() / ports.len() as i32;
    let height = stack.height(TWO_LINES);
    let frame = Frame { left: right + 90, top: middle - height / 2, width: 84, height };
    let end = |place: usize| (frame.left, frame.middle() + stack.off_middle(place));
    let ports = ports.iter().enumerate().map(|(place, (port, point))| (*port, [*point, end(place)]));
    Some(BenchPlan { frame, ports: ports.collect() })
}
