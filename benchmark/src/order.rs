//! The Z order, plainly: bit i of coordinate j at place i * n + j.

use crate::work::{Corners, Point, Space};

pub fn address(space: Space, x: &Point) -> u64 {
    let n = u32::from(space.n);
    let mut a = 0;
    for i in 0..u32::from(space.p) {
        for j in 0..n {
            a |= u64::from(x[j as usize] >> i & 1) << (i * n + j);
        }
    }
    a
}

pub fn point(space: Space, a: u64) -> Point {
    let n = u32::from(space.n);
    let mut x = [0; 4];
    for i in 0..u32::from(space.p) {
        for j in 0..n {
            x[j as usize] |= ((a >> (i * n + j) & 1) as u16) << i;
        }
    }
    x
}

pub fn holds(corners: &Corners, x: &Point) -> bool {
    (0..4).all(|j| corners.low[j] <= x[j] && x[j] <= corners.high[j])
}

pub fn bits(space: Space) -> u32 {
    u32::from(space.n) * u32::from(space.p)
}

/// The least address at or above `from` whose point is in the box: blocks of addresses that begin alike, halved, the lower half first.
pub fn first(space: Space, corners: &Corners, from: u64) -> Option<u64> {
    let whole = Block { left: bits(space), c: 0, corner: [0; 4], lacks: [u32::from(space.p); 4] };
    whole.first(usize::from(space.n), corners, from)
}

#[derive(Clone, Copy)]
struct Block {
    left: u32,
    c: u64,
    corner: Point,
    lacks: [u32; 4],
}

impl Block {
    fn half(mut self, j: usize, bit: u16) -> Block {
        self.left -= 1;
        self.c = self.c * 2 + u64::from(bit);
        self.corner[j] = self.corner[j] * 2 + bit;
        self.lacks[j] -= 1;
        self
    }

    fn touches(&self, n: usize, corners: &Corners) -> bool {
        (0..n).all(|j| {
            let k = self.lacks[j];
            corners.low[j] >> k <= self.corner[j] && self.corner[j] <= corners.high[j] >> k
        })
    }

    fn first(&self, n: usize, corners: &Corners, from: u64) -> Option<u64> {
        if from >> self.left > self.c || !self.touches(n, corners) {
            return None;
        }
        if self.left == 0 {
            return Some(self.c);
        }
        let j = (self.left as usize - 1) % n;
        self.half(j, 0).first(n, corners, from).or_else(|| self.half(j, 1).first(n, corners, from))
    }
}
