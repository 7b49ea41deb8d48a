//! Points and frames.

/// A point, from the left and from the top.
pub type Point = (i32, i32);

#[derive(Clone, Copy, Debug, PartialEq, Eq)]
pub struct Frame {
    pub left: i32,
    pub top: i32,
    pub width: i32,
    pub height: i32,
}

impl Frame {
    pub fn right(&self) -> i32 {
        self.left + self.width
    }

    pub fn bottom(&self) -> i32 {
        self.top + self.height
    }

    pub fn middle(&self) -> i32 {
        self.top + self.height / 2
    }

    /// The point so far below the middle.
    pub fn below_middle(&self, down: i32) -> Point {
        (self.left + self.width / 2, self.middle() + down)
    }

    /// The frame inside this one, so far from it on all sides.
    pub fn inside(&self, step: i32) -> Frame {
        let Frame { left, top, width, height } = self;
        Frame { left: left + step, top: top + step, width: width - 2 * step, height: height - 2 * step }
    }
}

/// Things that stand one below the other in a frame, with this step between two.
#[derive(Clone, Copy)]
pub struct Stack {
    pub step: i32,
    pub count: usize,
}

impl Stack {
    /// How high a frame is that has room for them, and is no lower than this.
    pub fn height(self, least: i32) -> i32 {
        least.max(16 + self.step * self.count as i32)
    }

    /// How far from the middle one of them stands.
    pub fn off_middle(self, place: usize) -> i32 {
        self.step * (2 * place as i32 + 1 - self.count as i32) / 2
    }
}
