//! The order of two columns, chosen so that few of the lines between them cross.

/// A line between two members of the columns, the left one first.
pub type Line = [usize; 2];

/// The members of one part of the picture, for each column in order. No line leads to another part.
pub type Part = [Vec<usize>; 2];

/// How often each column is put in order by the other.
const ROUNDS: usize = 12;

/// The parts of two columns of these lengths, in the order of their first members on the left. Those on the
/// right that no line leads to are one part, the last.
pub fn parts(lengths: [usize; 2], lines: &[Line]) -> Vec<Part> {
    let mut parts = vec![Part::default(); lengths[0] + 1];
    for (member, first) in first_members(lengths, lines).into_iter().enumerate() {
        let part = &mut parts[first.min(lengths[0])];
        match member.checked_sub(lengths[0]) {
            None => part[0].push(member),
            Some(member) => part[1].push(member),
        }
    }
    parts.retain(|part| *part != Part::default());
    parts.into_iter().map(|part| ordered(part, lines)).collect()
}

/// For each member on the left, and then for each on the right, the first to which lines lead from it by
/// whatever way.
fn first_members(lengths: [usize; 2], lines: &[Line]) -> Vec<usize> {
    let mut first: Vec<usize> = (0..lengths[0] + lengths[1]).collect();
    let mut changed = true;
    while changed {
        changed = false;
        for line in lines {
            let ends = [line[0], lengths[0] + line[1]];
            let least = first[ends[0]].min(first[ends[1]]);
            changed |= ends.iter().any(|end| first[*end] != least);
            ends.iter().for_each(|end| first[*end] = least);
        }
    }
    first
}

/// The part in the best order that was met: in turn, the members of one column go to the mean places of
/// those that they have lines to.
fn ordered(mut part: Part, lines: &[Line]) -> Part {
    let lines: Vec<Line> = lines.iter().filter(|line| part[0].contains(&line[0])).copied().collect();
    let mut best = (crossings(&part, &lines), part.clone());
    for round in 0..2 * ROUNDS {
        sort_by_means(&mut part, (round + 1) % 2, &lines);
        let crossings = crossings(&part, &lines);
        if crossings < best.0 {
            best = (crossings, part.clone());
        }
    }
    best.1
}

/// Sorts one column by the mean place, in the other one, of those that each member has lines to.
fn sort_by_means(part: &mut Part, side: usize, lines: &[Line]) {
    let place_of = places(&part[1 - side]);
    part[side].sort_by_cached_key(|member| {
        let own = lines.iter().filter(|line| line[side] == *member);
        mean_rank(own.map(|line| place_of[line[1 - side]]))
    });
}

/// The mean of some places, in small units.
pub fn mean_rank(places: impl Iterator<Item = usize>) -> usize {
    const UNITS: usize = 1_000_000;
    let (sum, count) = places.fold((0, 0), |(sum, count), place| (sum + place, count + 1));
    sum * UNITS / count.max(1)
}

/// How many pairs of lines cross.
fn crossings(part: &Part, lines: &[Line]) -> usize {
    let [left, right] = [places(&part[0]), places(&part[1])];
    let mut placed: Vec<Line> = lines.iter().map(|line| [left[line[0]], right[line[1]]]).collect();
    placed.sort_unstable();
    let crossed = |(place, line): (usize, &Line)| {
        placed[place + 1..].iter().filter(|other| other[0] > line[0] && other[1] < line[1]).count()
    };
    placed.iter().enumerate().map(crossed).sum()
}

/// For each member of a column where it stands in it; 0 for others.
pub fn places(column: &[usize]) -> Vec<usize> {
    let mut places = vec![0; column.iter().max().map_or(0, |most| most + 1)];
    for (place, member) in column.iter().enumerate() {
        places[*member] = place;
    }
    places
}

#[cfg(test)]
mod tests {
    use super::{crossings, parts, Line};

    #[test]
    fn lines_that_need_not_cross_do_not() {
        // Upside down: the first on the left has lines to the last two on the right, and so on.
        let lines: Vec<Line> = (0..9).flat_map(|left| [[left, 8 - left], [left, 9 - left]]).collect();
        let parts = parts([9, 10], &lines);
        assert_eq!(parts.len(), 1);
        assert_eq!(crossings(&parts[0], &lines), 0);
    }

    #[test]
    fn what_no_line_joins_is_apart() {
        let parts = parts([4, 5], &[[0, 3], [2, 3], [1, 0], [3, 1]]);
        let expected = [[vec![0, 2], vec![3]], [vec![1], vec![0]], [vec![3], vec![1]], [vec![], vec![2, 4]]];
        assert_eq!(parts, expected);
    }

    #[test]
    fn crossings_are_counted_once() {
        let part = [vec![0, 1, 2], vec![0, 1, 2]];
        assert_eq!(crossings(&part, &[[0, 0], [1, 1], [2, 2]]), 0);
        assert_eq!(crossings(&part, &[[0, 2], [1, 1], [2, 0]]), 3);
        assert_eq!(crossings(&part, &[[0, 1], [0, 0], [1, 0], [1, 1]]), 1);
    }
}
