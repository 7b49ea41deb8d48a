//! Places along a column.

/// Where members of these sizes begin, in this order and with this gap between them, so that each is as near
/// as can be to where it wants to begin: the sum of the squared distances is least.
pub fn spread(wanted: &[i32], sizes: &[i32], gap: i32) -> Vec<i32> {
    // Without the room that those before take up, the places only must not fall.
    let mut before = 0;
    let mut runs: Vec<Run> = Vec::new();
    let mut rooms = Vec::new();
    for (wanted, size) in wanted.iter().zip(sizes) {
        rooms.push(before);
        runs.push(Run { sum: wanted - before, count: 1 });
        before += size + gap;
        join_falling(&mut runs);
    }
    let places = runs.iter().flat_map(|run| (0..run.count).map(|_| run.mean()));
    places.zip(rooms).map(|(place, room)| place + room).collect()
}

/// Neighbours that stand at one place, the mean of what they want.
struct Run {
    sum: i32,
    count: i32,
}

impl Run {
    fn mean(&self) -> i32 {
        self.sum.div_euclid(self.count)
    }
}

/// Joins the last run to the one before, as long as that one stands behind it.
fn join_falling(runs: &mut Vec<Run>) {
    while let [.., before, last] = &runs[..] {
        if before.sum * last.count <= last.sum * before.count {
            return;
        }
        let joined = Run { sum: before.sum + last.sum, count: before.count + last.count };
        runs.truncate(runs.len() - 2);
        runs.push(joined);
    }
}

#[cfg(test)]
mod tests {
    use super::spread;

    #[test]
    fn with_room_each_has_its_place() {
        assert_eq!(spread(&[5, 40, 100], &[10, 10, 10], 4), [5, 40, 100]);
    }

    #[test]
    fn without_room_they_move_by_the_mean() {
        assert_eq!(spread(&[50, 50, 50], &[10, 10, 10], 4), [36, 50, 64]);
        assert_eq!(spread(&[0, 100, 90], &[10, 10, 10], 0), [0, 90, 100]);
    }

    #[test]
    fn a_wrong_order_is_not_changed() {
        assert_eq!(spread(&[30, 0], &[10, 20], 5), [7, 22]);
        assert_eq!(spread(&[], &[], 5), [0; 0]);
    }
}
