//! A small source of pseudo-random numbers (splitmix64).

use std::ops::RangeInclusive;

pub struct Random {
    state: u64,
}

impl Random {
    pub fn new(seed: u64) -> Random {
        Random { state: seed }
    }

    pub fn bits(&mut self) -> u64 {
        self.state = self.state.wrapping_add(0x9e37_79b9_7f4a_7c15);
        let mut mixed = self.state;
        mixed = (mixed ^ (mixed >> 30)).wrapping_mul(0xbf58_476d_1ce4_e5b9);
        mixed = (mixed ^ (mixed >> 27)).wrapping_mul(0x94d0_49bb_1331_11eb);
        mixed ^ (mixed >> 31)
    }

    /// A number from 0 to one below the limit, which must not be 0.
    pub fn below(&mut self, limit: usize) -> usize {
        ((u128::from(self.bits()) * limit as u128) >> 64) as usize
    }

    pub fn within(&mut self, range: RangeInclusive<usize>) -> usize {
        let (low, high) = range.into_inner();
        low + self.below(high - low + 1)
    }

    /// True about so many times in a hundred.
    pub fn chance(&mut self, percent: usize) -> bool {
        self.below(100) < percent
    }

    pub fn byte(&mut self) -> u8 {
        self.bits().to_le_bytes()[0]
    }

    pub fn number(&mut self) -> i16 {
        let [low, high, ..] = self.bits().to_le_bytes();
        i16::from_le_bytes([low, high])
    }

    /// One of the items, or nothing if there are none.
    pub fn choose<T: Copy>(&mut self, items: &[T]) -> Option<T> {
        if items.is_empty() {
            return None;
        }
        Some(items[self.below(items.len())])
    }

    /// One of the items, of which there must be some.
    pub fn pick<T: Copy>(&mut self, items: &[T]) -> T {
        items[self.below(items.len())]
    }

    /// One of the items, each as often as its weight says. One weight at least must not be 0.
    pub fn weighted<T: Copy>(&mut self, items: &[(T, usize)]) -> T {
        let mut left = self.below(items.iter().map(|(_, weight)| weight).sum());
        let mut chosen = items[0].0;
        for (item, weight) in items {
            chosen = *item;
            if left < *weight {
                break;
            }
            left -= weight;
        }
        chosen
    }

    pub fn shuffle<T>(&mut self, items: &mut [T]) {
        for last in (1..items.len()).rev() {
            items.swap(last, self.below(last + 1));
        }
    }

    /// Raises the shares, each at most to its limit, until they add up to the total.
    pub fn share(&mut self, mut shares: Vec<usize>, limits: &[usize], total: usize) -> Vec<usize> {
        let even = self.chance(50);
        let mut left = total - shares.iter().sum::<usize>();
        while left > 0 {
            let place = self.below(shares.len());
            let room = left.min(limits[place] - shares[place]);
            let more = if room == 0 || even { room.min(1) } else { self.within(1..=room) };
            shares[place] += more;
            left -= more;
        }
        shares
    }
}
