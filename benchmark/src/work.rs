//! What is measured: the events, the boxes and the numbers that choose them.

pub const PAGES: usize = 1024;
pub const PAGE: usize = 128;

/// A space of `n` coordinates of `p` bits each.
#[derive(Clone, Copy)]
pub struct Space {
    pub n: u8,
    pub p: u8,
}

pub type Point = [u16; 4];

/// The lowest and the highest point of a box, both in it.
#[repr(C)]
#[derive(Clone, Copy)]
pub struct Corners {
    pub low: Point,
    pub high: Point,
}

/// Numbers that look random, the same in every run (xorshift).
struct Numbers(u64);

impl Numbers {
    fn next(&mut self) -> u64 {
        self.0 ^= self.0 << 13;
        self.0 ^= self.0 >> 7;
        self.0 ^= self.0 << 17;
        self.0
    }

    fn below(&mut self, end: u64) -> u64 {
        (self.next() >> 11) % end
    }

    fn point(&mut self, space: Space) -> Point {
        let mut x = [0; 4];
        for c in x.iter_mut().take(space.n.into()) {
            *c = self.below(1 << space.p) as u16;
        }
        x
    }
}

/// A day of events, and boxes of three sizes.
pub struct Work {
    pub space: Space,
    pub events: Vec<Point>,
    pub asked: Vec<Point>,
    pub boxes: Vec<(&'static str, Vec<Corners>)>,
}

/// Boxes with `1 / parts` of the space's side, around events.
fn boxes(numbers: &mut Numbers, space: Space, events: &[Point], parts: u32, many: usize) -> Vec<Corners> {
    let side = (1u32 << space.p).div_ceil(parts);
    let last = (1u32 << space.p) - side;
    (0..many)
        .map(|_| {
            let at = events[numbers.below(events.len() as u64) as usize];
            let mut corners = Corners { low: [0; 4], high: [0; 4] };
            for j in 0..usize::from(space.n) {
                let low = u32::from(at[j]).saturating_sub(side / 2).min(last);
                corners.low[j] = low as u16;
                corners.high[j] = (low + side - 1) as u16;
            }
            corners
        })
        .collect()
}

/// `many` events at random points of the space.
pub fn work(space: Space, many: usize, small: u32) -> Work {
    let mut numbers = Numbers(0x9e37_79b9_7f4a_7c15);
    let events: Vec<Point> = (0..many).map(|_| numbers.point(space)).collect();
    let mut asked: Vec<Point> = (0..many / 2).map(|_| numbers.point(space)).collect();
    asked.extend((0..many / 2).map(|_| events[numbers.below(many as u64) as usize]));
    let boxes = vec![
        ("search, small box", boxes(&mut numbers, space, &events, small, 1000)),
        ("search, middling box", boxes(&mut numbers, space, &events, 2, 100)),
        ("search, all", boxes(&mut numbers, space, &events, 1, 20)),
    ];
    Work { space, events, asked, boxes }
}
