//! How threads, channels and the bench look. What a collection takes has another colour and, for those who
//! do not see it, a dashed border.

use crate::graph::{Channel, Thread};

pub struct Look {
    pub fill: &'static str,
    pub border: &'static str,
    pub dashed: bool,
}

pub const STAYS: Look = Look { fill: "#e4f0fa", border: "#1d5b8c", dashed: false };
pub const TAKEN: Look = Look { fill: "#fdf1e3", border: "#b04a00", dashed: true };
pub const BENCH: Look = Look { fill: "#eeeeee", border: "#333333", dashed: false };
const CHANNEL: Look = Look { fill: "#ffffff", border: "#444444", dashed: false };

/// The colour of a line from somebody to a channel that is only held.
pub const HOLDS: &str = "#7a7a7a";

impl Thread {
    pub fn look(&self) -> &'static Look {
        left_or_taken(self.stays, &STAYS)
    }
}

impl Channel {
    pub fn look(&self) -> &'static Look {
        left_or_taken(self.stays, &CHANNEL)
    }
}

fn left_or_taken(stays: bool, look: &'static Look) -> &'static Look {
    if stays {
        look
    } else {
        &TAKEN
    }
}
