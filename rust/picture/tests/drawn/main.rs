//! Pictures of many states, read back: everything in the state is drawn once and where it belongs, and
//! nothing covers a word.

mod expected;
mod read;

use std::collections::BTreeSet;

use expected::{Expected, Thread};
use generate::standstills::{self, any_group};
use generate::{any_call, procedures, profiled, table_of, File, Random, LIVELY, STILL};
use picture::Picture;
use pithread::{Bench, Ran, Reason, Rights, Table};
use read::{Cover, Drawn, Group};
use reference::ENGINE;

/// How often something came, so that the test cannot pass by missing its aim.
#[derive(Debug, Default)]
struct Came {
    pictures: usize,
    /// With up to twelve threads, and with more.
    few: usize,
    many: usize,
    ready: usize,
    left: usize,
    taken: usize,
    sends: usize,
    receives: usize,
    no_offer: usize,
    only_held: usize,
    on_port: usize,
    /// Threads with two offers on one channel.
    doubled: usize,
}

impl Came {
    fn add(&mut self, expected: &Expected) {
        self.pictures += 1;
        *if expected.threads.len() <= 12 { &mut self.few } else { &mut self.many } += 1;
        for thread in &expected.threads {
            self.ready += usize::from(thread.ready);
            *if thread.taken { &mut self.taken } else { &mut self.left } += 1;
            self.no_offer += usize::from(!thread.ready && thread.offers.is_empty());
            self.only_held += only_held(thread).len();
            let channels: BTreeSet<usize> = thread.offers.iter().map(|offer| offer.channel).collect();
            self.doubled += usize::from(channels.len() < thread.offers.len());
            for offer in &thread.offers {
                *if offer.sends { &mut self.sends } else { &mut self.receives } += 1;
                self.on_port += usize::from(offer.channel < expected.ports);
            }
        }
    }
}

/// The channels that a thread holds and offers nothing on.
fn only_held(thread: &Thread) -> Vec<usize> {
    let offered = |channel: &usize| thread.offers.iter().any(|offer| offer.channel == *channel);
    thread.held.iter().copied().filter(|channel| !offered(channel)).collect()
}

/// Draws a state and reads the picture back.
fn compare(file: &File, state: &[u8], about: &str) -> Expected {
    let table = Table::from_bytes(&table_of(&file.rows)).expect("the file is right");
    let bench = Bench::resume(table, state).expect("the state is sound");
    // The longest heading that there is.
    let ran = Ran { steps: 65_535, reason: Reason::LackedChannelRow { thread: 63 } };
    let picture = Picture::of_bench("some.txt", &bench, ran).expect("never refused");
    let expected = Expected::new(file, state);
    let drawn = Drawn::new(&picture.svg());
    everything_is_drawn(&expected, &drawn, about);
    nothing_is_covered(&drawn, about);
    every_link_is_in_place(&expected, &drawn, about);
    dot_says_the_same(&expected, &picture.dot(), about);
    expected
}

fn everything_is_drawn(expected: &Expected, drawn: &Drawn, about: &str) {
    let mut ids = BTreeSet::from([String::new(), String::from("key")]);
    for thread in &expected.threads {
        ids.insert(format!("thread-{}", thread.number));
        ids.extend(thread.offers.iter().map(|offer| format!("offer-{}-{}", thread.number, offer.branch)));
        ids.extend(only_held(thread).iter().map(|channel| format!("holds-{}-{channel}", thread.number)));
    }
    ids.extend(expected.channels.iter().map(|(channel, _)| format!("channel-{channel}")));
    ids.extend((0..expected.ports).map(|port| format!("bench-holds-{port}")));
    ids.extend((expected.ports > 0).then(|| String::from("bench")));
    assert!(drawn.groups.keys().eq(&ids), "{about}: {:?}, not {ids:?}", drawn.groups.keys());
    for thread in &expected.threads {
        let group = &drawn.groups[&format!("thread-{}", thread.number)];
        thread_is_drawn(thread, group, about);
    }
    for (channel, freed) in &expected.channels {
        let group = &drawn.groups[&format!("channel-{channel}")];
        let words: Vec<&str> = group.labels.iter().map(|(words, _)| words.as_str()).collect();
        assert_eq!(words, [expected.name_of(*channel)], "{about}");
        assert!(group.frames.iter().all(|(_, dashed)| dashed == freed), "{about}: channel {channel}");
        assert_eq!(group.frames.len(), if *channel < expected.ports { 2 } else { 1 }, "{about}");
    }
}

fn thread_is_drawn(thread: &Thread, group: &Group, about: &str) {
    let status = if thread.ready { "ready" } else { "waiting" };
    let mut words = vec![format!("thread {}", thread.number), format!("node {}, {status}", thread.node)];
    words.extend(
        thread.offers.iter().map(|offer| {
            format!("branch {} {}", offer.branch, if offer.sends { "sends" } else { "receives" })
        }),
    );
    words.extend((!only_held(thread).is_empty()).then(|| String::from("holds")));
    words.extend((!thread.ready && thread.offers.is_empty()).then(|| String::from("offers nothing")));
    words.sort();
    let mut drawn: Vec<String> = group.labels.iter().map(|(words, _)| words.clone()).collect();
    drawn.sort();
    assert_eq!(drawn, words, "{about}");
    assert_eq!(group.class, if thread.taken { "thread taken" } else { "thread stays" }, "{about}");
    assert!(matches!(group.frames[..], [(_, dashed)] if dashed == thread.taken), "{about}: {group:?}");
}

/// Labels do not overlap and are inside their frames, frames do not overlap, and all is in the picture.
fn nothing_is_covered(drawn: &Drawn, about: &str) {
    let labels = drawn.labels();
    for (place, (words, cover)) in labels.iter().enumerate() {
        assert!(drawn.size.contains(cover), "{about}: {words} is not all in the picture");
        for (others, other) in &labels[place + 1..] {
            assert!(!cover.overlaps(other), "{about}: {words} and {others}");
        }
    }
    let framed: Vec<&Group> =
        drawn.groups.iter().filter(|(id, _)| *id != "key").map(|(_, group)| group).collect();
    let frames: Vec<&Cover> =
        framed.iter().filter_map(|group| group.frames.first()).map(|(cover, _)| cover).collect();
    for group in framed.iter().filter(|group| !group.frames.is_empty()) {
        let outside = group.labels.iter().find(|(_, cover)| !group.frames[0].0.contains(cover));
        assert!(outside.is_none(), "{about}: {outside:?} leaves its frame");
    }
    for (place, frame) in frames.iter().enumerate() {
        assert!(drawn.size.contains(frame), "{about}");
        assert!(!frames[place + 1..].iter().any(|other| frame.overlaps(other)), "{about}: {frame:?}");
    }
}

/// Every line begins at its thread and ends at its channel, and arrows have their heads at the right end.
fn every_link_is_in_place(expected: &Expected, drawn: &Drawn, about: &str) {
    let frame = |id: String| drawn.groups[&id].frames[0].0;
    for thread in &expected.threads {
        let number = thread.number;
        let from = frame(format!("thread-{number}"));
        for offer in &thread.offers {
            let group = &drawn.groups[&format!("offer-{number}-{}", offer.branch)];
            let to = frame(format!("channel-{}", offer.channel));
            let word = if offer.sends { "send" } else { "receive" };
            let wanted = format!(
                "thread {number} offers by branch {} to {word} on {}",
                offer.branch,
                expected.name_of(offer.channel)
            );
            assert_eq!((&group.about, &group.class), (&wanted, &format!("offer {word}")), "{about}");
            assert!(leads(&group.paths[0], &from, &to), "{about}: {wanted}: {:?}", group.paths);
            let tip = (group.paths[1][0], group.paths[1][1]);
            let end = if offer.sends { (to.left, to) } else { (from.right, from) };
            assert!(tip.0 == end.0 && within(tip.1, &end.1), "{about}: {wanted}: {:?}", group.paths);
        }
        for channel in only_held(thread) {
            let group = &drawn.groups[&format!("holds-{number}-{channel}")];
            let to = frame(format!("channel-{channel}"));
            assert_eq!(
                group.about,
                format!("thread {number} holds {}", expected.name_of(channel)),
                "{about}"
            );
            assert!(leads(&group.paths[0], &from, &to), "{about}: {:?}", group.paths);
        }
    }
    for port in 0..expected.ports {
        let paths = &drawn.groups[&format!("bench-holds-{port}")].paths;
        let (from, to) = (frame(format!("channel-{port}")), frame(String::from("bench")));
        assert!(leads(&paths[0], &from, &to), "{about}: {paths:?}");
    }
}

/// Whether a line leads from the right side of one frame to the left side of another; there is room for the
/// head of an arrow at one of its ends.
fn leads(path: &[i32], from: &Cover, to: &Cover) -> bool {
    let [left, first, .., right, last] = path[..] else { return false };
    (from.right..from.right + 10).contains(&left)
        && within(first, from)
        && (to.left - 10..=to.left).contains(&right)
        && within(last, to)
}

fn within(height: i32, frame: &Cover) -> bool {
    (frame.top..=frame.bottom).contains(&height)
}

fn dot_says_the_same(expected: &Expected, dot: &str, about: &str) {
    let mut wanted = Vec::new();
    for thread in &expected.threads {
        let own = format!("thread_{}", thread.number);
        wanted.push(format!("{own} {}", dashes(thread.taken)));
        wanted.extend(thread.offers.iter().map(|offer| {
            format!("{own} -> channel_{} {}", offer.channel, if offer.sends { "forward" } else { "back" })
        }));
        wanted.extend(only_held(thread).iter().map(|channel| format!("{own} -> channel_{channel} none")));
    }
    wanted.extend(
        expected.channels.iter().map(|(channel, freed)| format!("channel_{channel} {}", dashes(*freed))),
    );
    wanted.extend((0..expected.ports).map(|port| format!("channel_{port} -> bench none")));
    wanted.extend((expected.ports > 0).then(|| String::from("bench solid")));
    let lines = dot.lines().filter_map(|line| line.trim().split_once(" [")).map(|(what, rest)| {
        let edge = rest.split_once("dir=").map(|(_, rest)| rest.split([',', ']']).next().unwrap_or(""));
        format!("{what} {}", edge.unwrap_or(dashes(rest.contains("dashed"))))
    });
    let mut lines: Vec<String> = lines.collect();
    lines.sort();
    wanted.sort();
    assert_eq!(lines, wanted, "{about}");
}

fn dashes(dashed: bool) -> &'static str {
    if dashed {
        "dashed"
    } else {
        "solid"
    }
}

/// Draws states that calls on a file lead to, one after every few calls.
fn walk(came: &mut Came, random: &mut Random, file: &File, about: &str) {
    let table = table_of(&file.rows);
    let mut state = vec![0; 6_156];
    assert_eq!(reference::start(&table, &mut state).refusal, 0);
    let most = random.pick(&[80, 4_000]);
    reference::run(&table, &mut state, &Rights::FULL.to_bytes(), 0, random.below(most) as u16);
    for _ in 0..6 {
        for _ in 0..8 {
            let call = any_call(random, &state, file.size.ports);
            ENGINE.answer(call, &table, &mut state);
        }
        came.add(&compare(file, &state, about));
    }
}

#[test]
fn random_states() {
    let mut came = Came::default();
    for place in 0..LIVELY.len() + STILL.len() + 20 {
        for seed in 0..6 {
            let seed = 40_000_000 + 1_000 * place as u64 + seed;
            let random = &mut Random::new(seed);
            let file = match LIVELY.iter().chain(&STILL).nth(place) {
                Some(profile) => profiled(random, profile),
                None => any_group(random),
            };
            walk(&mut came, random, &file, &format!("seed {seed}"));
        }
    }
    println!("{came:?}");
    let Came {
        pictures,
        few,
        many,
        ready,
        left,
        taken,
        sends,
        receives,
        no_offer,
        only_held,
        on_port,
        doubled,
    } = came;
    assert!(pictures >= 1_000 && few >= 500 && many >= 30);
    let counts = [ready, left, taken, sends, receives, no_offer, only_held, on_port, doubled];
    assert!(counts.iter().all(|count| *count >= 50), "{counts:?}");
}

#[test]
fn files_written_by_hand() {
    let mut came = Came::default();
    let mut files = standstills::all();
    files.extend([
        ("ping-pong", procedures::ping_pong()),
        ("selecting", procedures::selecting()),
        ("crowd of 60", procedures::crowd(60)),
        ("both ways", procedures::both_ways()),
        ("ports", procedures::ports()),
        ("all rows of channels", procedures::creators()),
        ("all rows of threads", procedures::spawners()),
    ]);
    for (name, file) in files {
        let table = table_of(&file.rows);
        for steps in [0, 1, 5, 20, 100, 5_000] {
            let mut state = vec![0; 6_156];
            reference::start(&table, &mut state);
            reference::run(&table, &mut state, &Rights::FULL.to_bytes(), 0, steps);
            came.add(&compare(&file, &state, &format!("{name} after {steps} steps")));
        }
    }
    assert!(came.few >= 70 && came.many >= 5, "{came:?}");
}

#[test]
fn the_heading_says_what_happened() {
    let example = |name: &str| {
        let path = format!("{}/../../examples/{name}", env!("CARGO_MANIFEST_DIR"));
        std::fs::read(path).expect("an example")
    };
    let heading = |name: &str, steps: u16| {
        let drawn = Drawn::new(&Picture::of_file(name, &example(name), steps).expect("it loads").svg());
        drawn.groups[""].labels.iter().map(|(words, _)| words.clone()).collect::<Vec<_>>()
    };
    assert_eq!(heading("listing.txt", 1), ["listing.txt after 1 step", "a collection leaves the thread"]);
    assert_eq!(heading("listing.txt", 100), ["listing.txt after 7 steps", "all threads have ended"]);
    assert_eq!(
        heading("empty_slot.txt", 0),
        ["empty_slot.txt after 0 steps", "a collection leaves the thread"]
    );
    assert_eq!(heading("empty_slot.txt", 100), ["empty_slot.txt after 1 step", "all threads have ended"]);
    assert_eq!(
        heading("doubler.txt", 100),
        ["doubler.txt after 1 step", "no thread is ready; a collection leaves the thread"]
    );
    assert_eq!(
        heading("ring_and_chain.txt", 100),
        ["ring_and_chain.txt after 23 steps", "no thread is ready; a collection takes 4 of 6 threads"]
    );
}

#[test]
fn a_name_stays_a_name() {
    let drawn = |name: &str| {
        let picture = Picture::of_file(name, &procedures::ports().text(), 9).expect("it loads");
        let drawn = Drawn::new(&picture.svg());
        nothing_is_covered(&drawn, name);
        (drawn.groups[""].labels[0].0.clone(), picture.dot())
    };
    let (title, dot) = drawn("a<b>&\"c\".txt");
    assert_eq!(title, "a<b>&\"c\".txt after 6 steps");
    assert!(dot.contains(r#"label="a<b>&\"c\".txt after 6 steps\n"#), "{dot}");
    let (title, _) = drawn("\u{1b}[31m\n\u{202e}x");
    assert_eq!(title, "\u{fffd}[31m\u{fffd}\u{fffd}x after 6 steps");
    let (_, dot) = drawn("\"]; evil [label=\"\\");
    assert!(dot.contains(r#"label="\"]; evil [label=\"\\ after 6 steps\n"#), "{dot}");
    let (title, _) = drawn(&"wide_".repeat(50));
    assert!(title.starts_with("wide_wide_") && title.ends_with('…') && title.len() < 60, "{title}");
}
