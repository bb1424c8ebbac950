//! Points, spaces, boxes, and the two orders of the points of a space.

use crate::text::Refusal;

/// Four coordinates; those from n on are 0 in a point of the space.
pub type Point = [u16; 4];

/// n coordinates of p bits each.
#[derive(Clone, Copy, PartialEq, Eq, Debug)]
pub struct Space {
    pub n: u8,
    pub p: u8,
}

impl Space {
    pub fn new(n: u8, p: u8) -> Result<Space, Refusal> {
        if !(1..=4).contains(&n) || !(1..=15).contains(&p) {
            return Err(Refusal::SpaceRange);
        }
        Ok(Space { n, p })
    }

    /// The last address.
    pub fn top(&self) -> u64 {
        (1 << (self.n * self.p)) - 1
    }

    pub fn has(&self, point: &Point) -> bool {
        (0..4).all(|j| if j < self.n as usize { point[j] < 1 << self.p } else { point[j] == 0 })
    }
}

/// The points between two ends in each of the four coordinates, ends included.
#[derive(Clone, Copy, PartialEq, Eq, Debug)]
pub struct QueryBox {
    pub low: Point,
    pub high: Point,
}

impl QueryBox {
    pub fn new(low: Point, high: Point) -> Result<QueryBox, Refusal> {
        if (0..4).any(|j| low[j] > high[j]) {
            return Err(Refusal::BoxEnds);
        }
        Ok(QueryBox { low, high })
    }

    pub fn has(&self, point: &Point) -> bool {
        (0..4).all(|j| self.low[j] <= point[j] && point[j] <= self.high[j])
    }

    /// Whether there is a point that lies in both boxes.
    fn meets(&self, low: &Point, high: &Point) -> bool {
        (0..4).all(|j| self.low[j] <= high[j] && low[j] <= self.high[j])
    }
}

#[derive(Clone, Copy, PartialEq, Eq, Debug)]
pub enum Kind {
    Z,
    Row,
}

/// One of the two orders, over a space.
#[derive(Clone, Copy, PartialEq, Eq, Debug)]
pub struct Order {
    pub kind: Kind,
    pub space: Space,
}

/// Spaces of up to so many addresses are scanned for a first address.
const SCANNED: u64 = 1 << 12;

impl Order {
    pub fn z(space: Space) -> Order {
        Order { kind: Kind::Z, space }
    }

    pub fn row(space: Space) -> Order {
        Order { kind: Kind::Row, space }
    }

    /// The kind by which stored pages name the order.
    pub fn number(&self) -> u8 {
        match self.kind {
            Kind::Z => 1,
            Kind::Row => 2,
        }
    }

    pub fn address(&self, point: &Point) -> Option<u64> {
        if !self.space.has(point) {
            return None;
        }
        let (n, p) = (self.space.n as u32, self.space.p as u32);
        let mut address = 0u64;
        match self.kind {
            Kind::Z => {
                for j in 0..n {
                    for i in 0..p {
                        let bit = u64::from(point[j as usize]) >> i & 1;
                        address |= bit << (i * n + j);
                    }
                }
            }
            Kind::Row => {
                for j in 0..n {
                    address = address * (1 << p) + u64::from(point[j as usize]);
                }
            }
        }
        Some(address)
    }

    pub fn point(&self, address: u64) -> Option<Point> {
        if address > self.space.top() {
            return None;
        }
        let (n, p) = (self.space.n as u32, self.space.p as u32);
        let mut point = [0; 4];
        match self.kind {
            Kind::Z => {
                for j in 0..n {
                    for i in 0..p {
                        let bit = (address >> (i * n + j) & 1) as u16;
                        point[j as usize] |= bit << i;
                    }
                }
            }
            Kind::Row => {
                let mut rest = address;
                for j in (0..n).rev() {
                    point[j as usize] = (rest % (1 << p)) as u16;
                    rest /= 1 << p;
                }
            }
        }
        Some(point)
    }

    /// The least address at or above `from` whose point is in the box.
    pub fn first(&self, b: &QueryBox, from: u64) -> Option<u64> {
        if !self.space.has(&b.low) || !self.space.has(&b.high) {
            return None;
        }
        if self.space.top() < SCANNED {
            self.first_by_scan(b, from)
        } else {
            self.first_by_halves(b, from, 0, u32::from(self.space.n * self.space.p))
        }
    }

    fn first_by_scan(&self, b: &QueryBox, from: u64) -> Option<u64> {
        (from..=self.space.top()).find(|&a| b.has(&self.point(a).expect("not above top")))
    }

    /// The same among the 2^bits addresses from `start`, a multiple of 2^bits. Their points fill a box, from the point of
    /// the first to that of the last: an address says the high bits of each coordinate before its low ones.
    fn first_by_halves(&self, b: &QueryBox, from: u64, start: u64, bits: u32) -> Option<u64> {
        let end = start + ((1 << bits) - 1);
        let low = self.point(start).expect("not above top");
        let high = self.point(end).expect("not above top");
        if end < from || !b.meets(&low, &high) {
            return None;
        }
        if bits == 0 {
            return Some(start);
        }
        let half = bits - 1;
        self.first_by_halves(b, from, start, half).or_else(|| self.first_by_halves(b, from, start + (1 << half), half))
    }
}

#[cfg(test)]
mod tests {
    use super::*;

    fn orders() -> Vec<Order> {
        let mut orders = Vec::new();
        for n in 1..=4 {
            for p in 1..=6 / n {
                let space = Space::new(n, p).unwrap();
                orders.push(Order::z(space));
                orders.push(Order::row(space));
            }
        }
        orders
    }

    #[test]
    fn addresses_and_points_go_there_and_back() {
        for o in orders() {
            for a in 0..=o.space.top() {
                assert_eq!(o.address(&o.point(a).unwrap()), Some(a));
            }
            assert_eq!(o.point(o.space.top() + 1), None);
        }
    }

    #[test]
    fn halving_finds_what_scanning_finds() {
        for o in orders() {
            let top = o.space.top();
            for low in 0..=top {
                for high in 0..=top {
                    let ends = (o.point(low).unwrap(), o.point(high).unwrap());
                    let Ok(b) = QueryBox::new(ends.0, ends.1) else { continue };
                    for from in 0..=top + 1 {
                        let bits = u32::from(o.space.n * o.space.p);
                        assert_eq!(
                            o.first_by_halves(&b, from, 0, bits),
                            o.first_by_scan(&b, from),
                            "{o:?} {b:?} from {from}"
                        );
                    }
                }
            }
        }
    }

    #[test]
    fn the_example_of_the_format() {
        let o = Order::z(Space::new(2, 3).unwrap());
        assert_eq!(o.address(&[6, 2, 0, 0]), Some(28));
        let b = QueryBox::new([3, 3, 0, 0], [4, 4, 0, 0]).unwrap();
        assert_eq!(o.first(&b, 16), Some(26));
        assert_eq!(o.first(&b, 27), Some(37));
    }
}
