//! The yardstick without pages: a map from Z addresses to counts. A search goes through all addresses between the box's corners.

use crate::order::{address, holds, point};
use crate::work::{Corners, Point, Space};
use std::collections::BTreeMap;

pub struct Map {
    space: Space,
    counts: BTreeMap<u64, u16>,
}

impl Map {
    pub fn new(space: Space) -> Map {
        Map { space, counts: BTreeMap::new() }
    }

    pub fn lodge(&mut self, x: &Point) {
        *self.counts.entry(address(self.space, x)).or_insert(0) += 1;
    }

    pub fn tally(&self, x: &Point) -> u16 {
        self.counts.get(&address(self.space, x)).copied().unwrap_or(0)
    }

    /// The finds of a box go into `finds`; answers how many.
    pub fn search(&self, corners: &Corners, finds: &mut Vec<(u64, Point, u16)>) -> usize {
        finds.clear();
        let (low, high) = (address(self.space, &corners.low), address(self.space, &corners.high));
        for (&a, &count) in self.counts.range(low..=high) {
            let x = point(self.space, a);
            if holds(corners, &x) {
                finds.push((a, x, count));
            }
        }
        finds.len()
    }
}
