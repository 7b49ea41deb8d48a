//! Elements of an SVG picture, each on a line of its own.

use crate::frame::{Frame, Point};
use crate::graph::Direction;
use crate::look::Look;
use crate::text::{marked_up, FONTS};

/// Which part of the words stands at their point.
#[derive(Clone, Copy)]
pub enum Anchor {
    Start,
    Middle,
    End,
}

pub struct Font {
    pub size: i32,
    pub bold: bool,
    pub colour: &'static str,
}

pub struct Canvas {
    lines: Vec<String>,
}

impl Canvas {
    /// A white one; what it shows is said in words too.
    pub fn new(width: i32, height: i32, title: &str, about: &str) -> Canvas {
        let size = format!(r#"width="{width}" height="{height}""#);
        let view = format!(r#"viewBox="0 0 {width} {height}" role="img" font-family="{FONTS}""#);
        let lines = vec![
            format!(r#"<svg xmlns="http://www.w3.org/2000/svg" {size} {view}>"#),
            format!("<title>{}</title>", marked_up(title)),
            format!("<desc>{}</desc>", marked_up(about)),
            format!(r##"<rect {size} fill="#ffffff"/>"##),
        ];
        Canvas { lines }
    }

    pub fn finish(mut self) -> String {
        self.lines.push(String::from("</svg>\n"));
        self.lines.join("\n")
    }

    /// Draws a group, which shows what it is about where the pointer rests on it.
    pub fn group(&mut self, id: &str, class: &str, about: &str, draw: impl FnOnce(&mut Canvas)) {
        self.lines.push(format!(r#"<g id="{id}" class="{class}">"#));
        self.lines.push(format!("<title>{}</title>", marked_up(about)));
        draw(self);
        self.lines.push(String::from("</g>"));
    }

    pub fn words(&mut self, (left, base): Point, font: &Font, anchor: Anchor, words: &str) {
        let Font { size, bold, colour } = font;
        let weight = if *bold { "bold" } else { "normal" };
        let anchor = match anchor {
            Anchor::Start => "start",
            Anchor::Middle => "middle",
            Anchor::End => "end",
        };
        let font =
            format!(r#"font-size="{size}" font-weight="{weight}" text-anchor="{anchor}" fill="{colour}""#);
        self.lines.push(format!(r#"<text x="{left}" y="{base}" {font}>{}</text>"#, marked_up(words)));
    }

    pub fn frame(&mut self, frame: &Frame, corner: i32, look: &Look) {
        let Frame { left, top, width, height } = frame;
        let Look { fill, border, dashed } = look;
        let dashes = if *dashed { r#" stroke-dasharray="6 4""# } else { "" };
        let place = format!(r#"x="{left}" y="{top}" width="{width}" height="{height}" rx="{corner}""#);
        self.lines
            .push(format!(r#"<rect {place} fill="{fill}" stroke="{border}" stroke-width="1.5"{dashes}/>"#));
    }

    /// A line that leaves and arrives level.
    pub fn line(&mut self, [left, right]: [Point; 2], colour: &str, width: i32) {
        let middle = (left.0 + right.0) / 2;
        let curve = format!(
            "M {} {} C {middle} {} {middle} {} {} {}",
            left.0, left.1, left.1, right.1, right.0, right.1
        );
        self.lines
            .push(format!(r#"<path d="{curve}" fill="none" stroke="{colour}" stroke-width="{width}"/>"#));
    }

    /// To the right for a send, to the left for a receive.
    pub fn arrow(&mut self, [left, right]: [Point; 2], direction: Direction, colour: &str) {
        let (tip, back, ends) = match direction {
            Direction::Send => (right, -10, [left, (right.0 - 8, right.1)]),
            Direction::Receive => (left, 10, [(left.0 + 8, left.1), right]),
        };
        self.line(ends, colour, 2);
        self.lines.push(format!(r#"<path d="M {} {} l {back} -5 v 10 z" fill="{colour}"/>"#, tip.0, tip.1));
    }
}
