//! The picture as SVG: what is drawn, and in which order.

use crate::canvas::{Anchor, Canvas, Font};
use crate::frame::Frame;
use crate::graph::{Channel, Direction, Graph};
use crate::look::{BENCH, HOLDS, STAYS, TAKEN};
use crate::plan::{Link, Plan, MARGIN};
use crate::rows::Row;
use crate::text::cut;
use crate::Picture;

const INK: &str = "#1a1a1a";
const TITLE: Font = Font { size: 18, bold: true, colour: INK };
const SUMMARY: Font = Font { size: 13, bold: false, colour: "#555555" };
const NAME: Font = Font { size: 14, bold: true, colour: INK };
const SMALL: Font = Font { size: 12, bold: false, colour: INK };

/// The key begins so far below the rest, and has three rows of this height with samples of this width.
const KEY_GAP: i32 = 28;
const KEY_ROW: i32 = 22;
const SAMPLE: i32 = 40;

pub fn svg(picture: &Picture) -> String {
    let graph = &picture.graph;
    let plan = Plan::new(graph);
    let height = plan.height + KEY_GAP + 3 * KEY_ROW + MARGIN;
    let (title, summary) = (picture.title(), picture.summary());
    let mut canvas = Canvas::new(plan.width, height, &title, &summary);
    let room = plan.width - 2 * MARGIN;
    canvas.words((MARGIN, 36), &TITLE, Anchor::Start, &cut(&title, TITLE.size, TITLE.bold, room));
    canvas.words((MARGIN, 58), &SUMMARY, Anchor::Start, &summary);
    draw_links(&mut canvas, graph, &plan);
    for place in 0..graph.threads.len() {
        draw_thread(&mut canvas, graph, &plan, place);
    }
    for (channel, frame) in graph.channels.iter().zip(&plan.channels) {
        draw_channel(&mut canvas, channel, frame);
    }
    if let Some(bench) = &plan.bench {
        canvas.group("bench", "bench", "the bench, which holds every port", |canvas| {
            canvas.frame(&bench.frame, 4, &BENCH);
            canvas.words(bench.frame.below_middle(5), &NAME, Anchor::Middle, "bench");
        });
    }
    draw_key(&mut canvas, &plan);
    canvas.finish()
}

/// The lines to the bench and to channels that are only held, and above them the offers.
fn draw_links(canvas: &mut Canvas, graph: &Graph, plan: &Plan) {
    for (place, ends) in plan.bench.iter().flat_map(|bench| &bench.ports) {
        let number = graph.channels[*place].number;
        let about = format!("the bench holds port {number}");
        canvas
            .group(&format!("bench-holds-{number}"), "holds", &about, |canvas| canvas.line(*ends, HOLDS, 1));
    }
    let (offers, held): (Vec<&Link>, Vec<&Link>) = plan.links.iter().partition(|link| plan.is_offer(link));
    for link in held.into_iter().chain(offers) {
        draw_link(canvas, graph, plan, link);
    }
}

fn draw_link(canvas: &mut Canvas, graph: &Graph, plan: &Plan, link: &Link) {
    let (thread, channel) = (&graph.threads[link.thread], &graph.channels[link.channel]);
    let (own, to) = (thread.name(), channel.name());
    match &plan.rows[link.thread][link.row] {
        Row::Offer(offer) => {
            let (branch, word) = (offer.branch, offer.direction.word());
            let id = format!("offer-{}-{branch}", thread.number);
            let about = format!("{own} offers by branch {branch} to {word} on {to}");
            canvas.group(&id, &format!("offer {word}"), &about, |canvas| {
                canvas.arrow(link.ends, offer.direction, thread.look().border);
            });
        }
        _ => {
            let id = format!("holds-{}-{}", thread.number, channel.number);
            let about = format!("{own} holds {to}");
            canvas.group(&id, "holds", &about, |canvas| canvas.line(link.ends, HOLDS, 1));
        }
    }
}

fn draw_thread(canvas: &mut Canvas, graph: &Graph, plan: &Plan, place: usize) {
    let (thread, frame) = (&graph.threads[place], &plan.threads[place]);
    let (class, fate) =
        if thread.stays { ("stays", "it may still move") } else { ("taken", "a collection takes it") };
    let about = format!("{} at {}: {fate}", thread.name(), thread.place());
    canvas.group(&format!("thread-{}", thread.number), &format!("thread {class}"), &about, |canvas| {
        canvas.frame(frame, 4, thread.look());
        let left = frame.left + 12;
        canvas.words((left, frame.middle() - 5), &NAME, Anchor::Start, &thread.name());
        canvas.words((left, frame.middle() + 15), &SMALL, Anchor::Start, &thread.place());
        for (row, leading) in plan.rows[place].iter().enumerate() {
            let point = (frame.right() - 10, plan.row_middle(place, row) + 4);
            canvas.words(point, &SMALL, Anchor::End, &leading.words());
        }
    });
}

fn draw_channel(canvas: &mut Canvas, channel: &Channel, frame: &Frame) {
    let class = if channel.stays { "channel stays" } else { "channel taken" };
    let fate = if channel.stays { "" } else { ": a collection frees it" };
    let about = format!("{}{fate}", channel.name());
    canvas.group(&format!("channel-{}", channel.number), class, &about, |canvas| {
        canvas.frame(frame, 14, channel.look());
        if channel.is_port {
            canvas.frame(&frame.inside(3), 11, channel.look());
        }
        canvas.words(frame.below_middle(5), &NAME, Anchor::Middle, &channel.name());
    });
}

fn draw_key(canvas: &mut Canvas, plan: &Plan) {
    let top = plan.height + KEY_GAP;
    let middle = |row: i32| top + KEY_ROW * row + KEY_ROW / 2;
    let columns = [MARGIN, plan.width / 2];
    canvas.group("key", "key", "what the signs mean", |canvas| {
        canvas.line([(MARGIN, top - 6), (plan.width - MARGIN, top - 6)], "#cccccc", 1);
        let mut words = |column: usize, row: i32, words: &str| {
            canvas.words((columns[column] + SAMPLE + 10, middle(row) + 4), &SMALL, Anchor::Start, words);
        };
        words(0, 0, "may still move");
        words(0, 1, "a collection takes it");
        words(1, 0, "offers to send");
        words(1, 1, "offers to receive");
        words(1, 2, "only holds the channel");
        for (row, look) in [(0, &STAYS), (1, &TAKEN)] {
            let sample = Frame { left: columns[0], top: middle(row) - 7, width: SAMPLE, height: 14 };
            canvas.frame(&sample, 3, look);
        }
        let sample = |row: i32| [(columns[1], middle(row)), (columns[1] + SAMPLE, middle(row))];
        canvas.arrow(sample(0), Direction::Send, INK);
        canvas.arrow(sample(1), Direction::Receive, INK);
        canvas.line(sample(2), HOLDS, 1);
    });
}
