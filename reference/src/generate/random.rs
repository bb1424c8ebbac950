//! Random numbers from a seed.

pub struct Random {
    state: u64,
}

impl Random {
    pub fn new(seed: u64) -> Random {
        Random { state: seed.wrapping_mul(0x9e37_79b9_7f4a_7c15) }
    }

    /// 64 random bits (splitmix64).
    pub fn bits(&mut self) -> u64 {
        self.state = self.state.wrapping_add(0x9e37_79b9_7f4a_7c15);
        let mut z = self.state;
        z = (z ^ z >> 30).wrapping_mul(0xbf58_476d_1ce4_e5b9);
        z = (z ^ z >> 27).wrapping_mul(0x94d0_49bb_1331_11eb);
        z ^ z >> 31
    }

    /// From `low` to `high`, both included.
    pub fn between(&mut self, low: u64, high: u64) -> u64 {
        assert!(low <= high);
        match (high - low).checked_add(1) {
            Some(size) => low + self.bits() % size,
            None => self.bits(),
        }
    }

    /// Below `size`.
    pub fn below(&mut self, size: usize) -> usize {
        self.between(0, size as u64 - 1) as usize
    }

    /// True so many times in a hundred.
    pub fn percent(&mut self, percent: u64) -> bool {
        self.between(0, 99) < percent
    }

    pub fn pick<'a, T>(&mut self, of: &'a [T]) -> &'a T {
        &of[self.below(of.len())]
    }

    /// The place of one of the weights, by weight.
    pub fn weighted(&mut self, weights: &[u64]) -> usize {
        let mut at = self.between(0, weights.iter().sum::<u64>() - 1);
        for (i, &weight) in weights.iter().enumerate() {
            if at < weight {
                return i;
            }
            at -= weight;
        }
        unreachable!("below the sum of the weights")
    }

    pub fn shuffle<T>(&mut self, of: &mut [T]) {
        for i in (1..of.len()).rev() {
            of.swap(i, self.below(i + 1));
        }
    }

    /// So many different numbers of `low` to `high`, rising.
    pub fn rising(&mut self, count: usize, low: u64, high: u64) -> Vec<u64> {
        assert!(high - low >= count as u64 - 1);
        let mut numbers = std::collections::BTreeSet::new();
        while numbers.len() < count {
            numbers.insert(self.between(low, high));
        }
        numbers.into_iter().collect()
    }
}
