//! The ways in which threads wait, so that a search cannot pass by missing its aim.

use std::collections::BTreeMap;

use generate::{Rule, View, READY};

/// How a thread waits.
#[derive(Clone, Copy, Debug, PartialEq, Eq, PartialOrd, Ord)]
pub enum Shape {
    /// Taken: no guard is true.
    Closed,
    /// Taken: nobody else knows the channels on which it offers something.
    Alone,
    /// Taken: those who could wake it wait for others, and so on back to it.
    Ring,
    /// Taken: those who could wake it are lost themselves, and do not wait for it.
    Behind,
    /// Taken, in whichever of these ways: it also knows a port, or a channel of a thread that is left.
    Knowing,
    /// Left: it waits on a port.
    OnPort,
    /// Left: it waits for a ready thread.
    ForReady,
    /// Left: it waits for threads that wait themselves.
    ForWaiting,
}

pub const EVERY_SHAPE: [Shape; 8] = [
    Shape::Closed,
    Shape::Alone,
    Shape::Ring,
    Shape::Behind,
    Shape::Knowing,
    Shape::OnPort,
    Shape::ForReady,
    Shape::ForWaiting,
];

/// How often each shape was met.
#[derive(Debug, Default)]
pub struct Shapes {
    met: BTreeMap<Shape, usize>,
}

impl Shapes {
    /// Counts the waiting threads of a state.
    pub fn add(&mut self, view: &View) {
        let taken = view.taken(Rule::Right);
        for thread in view.waiting() {
            let shape =
                if taken.contains(&thread) { taken_shape(view, thread) } else { left_shape(view, thread) };
            self.note(shape);
            let known = |other: &usize| !taken.contains(other) && view.share(thread, *other);
            if taken.contains(&thread) && (view.knows_port(thread) || view.threads().iter().any(known)) {
                self.note(Shape::Knowing);
            }
        }
    }

    fn note(&mut self, shape: Shape) {
        *self.met.entry(shape).or_default() += 1;
    }

    /// Every one of these came at least so often.
    pub fn expect(&self, shapes: &[Shape], times: usize) {
        for shape in shapes {
            let met = self.met.get(shape).copied().unwrap_or(0);
            assert!(met >= times, "{shape:?}: {met} times, wanted {times}");
        }
    }
}

fn taken_shape(view: &View, thread: usize) -> Shape {
    if view.offered(thread).is_empty() {
        return Shape::Closed;
    }
    let mut behind = view.wakers(thread);
    if behind.is_empty() {
        return Shape::Alone;
    }
    let mut place = 0;
    while let Some(next) = behind.get(place) {
        let more = view.wakers(*next);
        if more.contains(&thread) {
            return Shape::Ring;
        }
        let new: Vec<usize> = more.into_iter().filter(|other| !behind.contains(other)).collect();
        behind.extend(new);
        place += 1;
    }
    Shape::Behind
}

fn left_shape(view: &View, thread: usize) -> Shape {
    if view.offers_on_port(thread) {
        return Shape::OnPort;
    }
    match view.wakers(thread).iter().any(|other| view.status(*other) == READY) {
        true => Shape::ForReady,
        false => Shape::ForWaiting,
    }
}
