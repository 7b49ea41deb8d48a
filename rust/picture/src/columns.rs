//! Two columns of frames, drawn towards each other.

use crate::frame::Frame;
use crate::order::Part;
use crate::spread::spread;

/// Between two frames.
const GAP: i32 = 14;

/// One end of a line: a frame of a column, and how far below its top the line ends.
pub type End = (usize, i32);

pub struct Columns {
    heights: [Vec<i32>; 2],
    tops: [Vec<i32>; 2],
    lines: Vec<[End; 2]>,
}

impl Columns {
    pub fn new(heights: [Vec<i32>; 2], lines: Vec<[End; 2]>) -> Columns {
        let tops = [vec![0; heights[0].len()], vec![0; heights[1].len()]];
        Columns { heights, tops, lines }
    }

    /// Places a part from this height on, and answers where it ends.
    pub fn place(&mut self, part: &Part, top: i32) -> i32 {
        // In turn, until little changes any more.
        for round in 0..8 {
            self.draw_together(part, round % 2);
        }
        let members = || (0..2).flat_map(|side| part[side].iter().map(move |member| (side, *member)));
        let highest = members().map(|(side, member)| self.tops[side][member]).min().unwrap_or(0);
        members().for_each(|(side, member)| self.tops[side][member] += top - highest);
        let bottoms = members().map(|(side, member)| self.tops[side][member] + self.heights[side][member]);
        bottoms.max().unwrap_or(top)
    }

    /// Places one column of a part by the other.
    fn draw_together(&mut self, part: &Part, side: usize) {
        let wanted: Vec<i32> = part[side].iter().map(|member| self.wanted(side, *member)).collect();
        let heights: Vec<i32> = part[side].iter().map(|member| self.heights[side][*member]).collect();
        for (member, top) in part[side].iter().zip(spread(&wanted, &heights, GAP)) {
            self.tops[side][*member] = top;
        }
    }

    /// Where a frame begins if its lines are level, or as nearly as can be.
    fn wanted(&self, side: usize, member: usize) -> i32 {
        let own = self.lines.iter().filter(|line| line[side].0 == member);
        let tops = own.map(|line| {
            let (other, down) = line[1 - side];
            self.tops[1 - side][other] + down - line[side].1
        });
        let (sum, count) = tops.fold((0, 0), |(sum, count), top| (sum + top, count + 1));
        sum / count.max(1)
    }

    /// The frames of one column.
    pub fn frames(&self, side: usize, left: i32, width: i32) -> Vec<Frame> {
        let places = self.tops[side].iter().zip(&self.heights[side]);
        places.map(|(top, height)| Frame { left, top: *top, width, height: *height }).collect()
    }
}
