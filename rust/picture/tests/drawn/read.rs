//! Reads a picture back from its text.

use std::collections::BTreeMap;

use picture::text::width;

/// What something covers: left, top, right and bottom.
#[derive(Clone, Copy, Debug, PartialEq, Eq)]
pub struct Cover {
    pub left: i32,
    pub top: i32,
    pub right: i32,
    pub bottom: i32,
}

impl Cover {
    pub fn overlaps(&self, other: &Cover) -> bool {
        self.left < other.right
            && other.left < self.right
            && self.top < other.bottom
            && other.top < self.bottom
    }

    pub fn contains(&self, other: &Cover) -> bool {
        self.left <= other.left
            && other.right <= self.right
            && self.top <= other.top
            && other.bottom <= self.bottom
    }
}

/// The elements with one id, in the order in which they stand.
#[derive(Debug, Default)]
pub struct Group {
    pub class: String,
    pub about: String,
    pub labels: Vec<(String, Cover)>,
    pub frames: Vec<(Cover, bool)>,
    /// The numbers in the paths.
    pub paths: Vec<Vec<i32>>,
}

/// A picture; what stands in no group is under the empty id.
#[derive(Debug)]
pub struct Drawn {
    pub size: Cover,
    pub groups: BTreeMap<String, Group>,
}

impl Drawn {
    pub fn new(svg: &str) -> Drawn {
        let size = svg.lines().next().expect("there is a first line");
        let size = Cover { left: 0, top: 0, right: number(size, "width"), bottom: number(size, "height") };
        let mut groups = BTreeMap::from([(String::new(), Group::default())]);
        let mut open = String::new();
        for line in svg.lines().skip(1) {
            if line.starts_with("<g ") {
                open = attribute(line, "id").expect("a group has an id").to_string();
                let class = attribute(line, "class").expect("a group has a class").to_string();
                let before = groups.insert(open.clone(), Group { class, ..Group::default() });
                assert!(before.is_none(), "{open} is drawn twice");
            } else if line == "</g>" {
                open.clear();
            } else {
                groups.get_mut(&open).expect("it was opened").add(line);
            }
        }
        Drawn { size, groups }
    }

    pub fn labels(&self) -> Vec<&(String, Cover)> {
        self.groups.values().flat_map(|group| &group.labels).collect()
    }
}

impl Group {
    fn add(&mut self, line: &str) {
        if line.starts_with("<text ") {
            self.labels.push(label(line));
        } else if line.starts_with("<title>") {
            self.about = content(line);
        } else if line.starts_with("<rect x=") {
            let [left, top] = [number(line, "x"), number(line, "y")];
            let cover = Cover {
                left,
                top,
                right: left + number(line, "width"),
                bottom: top + number(line, "height"),
            };
            self.frames.push((cover, line.contains("stroke-dasharray")));
        } else if line.starts_with("<path ") {
            let path = attribute(line, "d").expect("a path has points");
            self.paths.push(path.split(' ').filter_map(|word| word.parse().ok()).collect());
        } else {
            let known = ["<desc>", "<rect width=", "</svg>"];
            assert!(known.iter().any(|beginning| line.starts_with(beginning)), "{line}");
        }
    }
}

/// The words of a label, and what they cover at most.
fn label(line: &str) -> (String, Cover) {
    let words = content(line);
    let [left, base, size] = [number(line, "x"), number(line, "y"), number(line, "font-size")];
    let wide = width(&words, size, attribute(line, "font-weight") == Some("bold"));
    let left = match attribute(line, "text-anchor") {
        Some("start") => left,
        Some("middle") => left - wide / 2,
        Some("end") => left - wide,
        anchor => panic!("{anchor:?}"),
    };
    let cover = Cover { left, top: base - size * 8 / 10, right: left + wide, bottom: base + size / 4 };
    (words, cover)
}

fn attribute<'a>(line: &'a str, name: &str) -> Option<&'a str> {
    let (_, rest) = line.split_once(&format!(" {name}=\""))?;
    rest.split('"').next()
}

fn number(line: &str, name: &str) -> i32 {
    attribute(line, name).and_then(|number| number.parse().ok()).unwrap_or_else(|| panic!("{name} in {line}"))
}

/// What stands between the beginning and the end of an element.
fn content(line: &str) -> String {
    let (_, rest) = line.split_once('>').expect("an element begins");
    let (words, _) = rest.rsplit_once("</").expect("an element ends");
    words.replace("&lt;", "<").replace("&gt;", ">").replace("&quot;", "\"").replace("&amp;", "&")
}
