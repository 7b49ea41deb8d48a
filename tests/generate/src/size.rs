//! How large a file is to be.

use crate::random::Random;

#[derive(Clone, Copy, Debug, PartialEq, Eq)]
pub struct Size {
    pub types: usize,
    pub definitions: usize,
    pub slots: usize,
    pub nodes: usize,
    pub branches: usize,
    pub ports: usize,
}

impl Size {
    /// Every count at its limit: a file of 865 lines.
    pub const LARGEST: Size =
        Size { types: 16, definitions: 16, slots: 256, nodes: 192, branches: 384, ports: 8 };

    /// Each count at its limit, where the others allow it, beside small ones.
    pub const LIMITS: [Size; 7] = [
        Size::LARGEST,
        Size { types: 16, definitions: 1, slots: 16, nodes: 4, branches: 3, ports: 8 },
        Size { types: 1, definitions: 16, slots: 8, nodes: 16, branches: 0, ports: 8 },
        Size { types: 2, definitions: 16, slots: 256, nodes: 40, branches: 30, ports: 0 },
        Size { types: 2, definitions: 1, slots: 6, nodes: 192, branches: 191, ports: 0 },
        Size { types: 2, definitions: 1, slots: 16, nodes: 192, branches: 384, ports: 1 },
        Size { types: 0, definitions: 1, slots: 3, nodes: 49, branches: 384, ports: 0 },
    ];

    /// An ordinary file of 60 lines.
    pub const TYPICAL: Size = Size { types: 2, definitions: 3, slots: 12, nodes: 18, branches: 24, ports: 2 };

    pub fn lines(&self) -> usize {
        1 + self.types + self.definitions + self.slots + self.nodes + self.branches
    }

    /// Some size that a right file can have, small ones more often.
    pub fn random(random: &mut Random) -> Size {
        if random.chance(1) {
            return Size::LARGEST;
        }
        let most_nodes = random.pick(&[1, 4, 8, 8, 16, 16, 32, 64, 192]);
        let nodes = random.within(1..=most_nodes);
        let most_definitions = random.pick(&[1, 3, 6, 16]).min(nodes);
        let definitions = random.within(1..=most_definitions);
        let most_types = random.pick(&[0, 1, 2, 4, 16]);
        let types = random.within(0..=most_types);
        let most_ports = if types == 0 { 0 } else { random.pick(&[0, 2, 8]) };
        let ports = random.within(0..=most_ports);
        let most_slots = definitions * random.pick(&[8, 8, 16]);
        let slots = random.within(ports..=most_slots.max(ports));
        Size { types, definitions, slots, nodes, branches: branches(random, nodes - definitions), ports }
    }
}

/// A count of branches for so many nodes that may be choices.
fn branches(random: &mut Random, choices: usize) -> usize {
    let each = random.pick(&[1, 2, 3, 8]);
    random.within(choices..=(choices * each).min(384).max(choices))
}
