//! The picture as a graph for dot.

use crate::graph::{Direction, Thread};
use crate::look::{Look, BENCH, HOLDS};
use crate::text::quoted;
use crate::Picture;

pub fn dot(picture: &Picture) -> String {
    let graph = &picture.graph;
    let heading = format!("{}\n{}", picture.title(), picture.summary());
    let mut lines = vec![
        String::from("digraph waits {"),
        format!("    label={}; labelloc=t; rankdir=LR;", quoted(&heading)),
    ];
    lines.extend(graph.threads.iter().map(|thread| {
        let label = format!("{}\n{}", thread.name(), thread.place());
        node(&format!("thread_{}", thread.number), &label, "box", thread.look())
    }));
    lines.extend(graph.channels.iter().map(|channel| {
        let shape = if channel.is_port { "doubleoctagon" } else { "ellipse" };
        node(&format!("channel_{}", channel.number), &channel.name(), shape, channel.look())
    }));
    if graph.ports().next().is_some() {
        lines.push(node("bench", "bench", "box", &BENCH));
    }
    lines.extend(graph.threads.iter().flat_map(edges));
    lines.extend(graph.ports().map(|port| format!("    channel_{} -> bench{};", port.number, holds())));
    lines.push(String::from("}\n"));
    lines.join("\n")
}

fn node(id: &str, label: &str, shape: &str, look: &Look) -> String {
    let Look { fill, border, dashed } = look;
    let style = if *dashed { "filled,dashed" } else { "filled" };
    let label = quoted(label);
    format!(
        r#"    {id} [label={label}, shape={shape}, style="{style}", fillcolor="{fill}", color="{border}"];"#
    )
}

/// The offers of a thread, and what it only holds.
fn edges(thread: &Thread) -> Vec<String> {
    let own = format!("thread_{}", thread.number);
    let offers = thread.offers.iter().map(|offer| {
        let channel = format!("channel_{}", offer.channel);
        let dir = match offer.direction {
            Direction::Send => "forward",
            Direction::Receive => "back",
        };
        let label = quoted(&format!("branch {} {}s", offer.branch, offer.direction.word()));
        format!(
            "    {own} -> {channel} [dir={dir}, label={label}, color={:?}, penwidth=2];",
            thread.look().border
        )
    });
    let held = thread.only_holds.iter().map(|channel| format!("    {own} -> channel_{channel}{};", holds()));
    offers.chain(held).collect()
}

fn holds() -> String {
    format!(" [dir=none, color={HOLDS:?}]")
}
