//! The tree and the map as subjects.

use crate::map::Map;
use crate::subject::{Measured, Subject};
use crate::tree::Tree;
use crate::work::{Corners, PAGES, Point, Space};
use std::time::{Duration, Instant};

type Finds = Vec<(u64, Point, u16)>;

pub struct PlainTree(Tree, Finds);

impl PlainTree {
    fn measure(&mut self, work: impl FnOnce(&mut Tree, &mut Finds) -> u64) -> Measured {
        let before = self.0.accesses();
        let start = Instant::now();
        let answer = work(&mut self.0, &mut self.1);
        Measured { time: start.elapsed(), answer, accesses: Some(self.0.accesses() - before) }
    }
}

impl Subject for PlainTree {
    fn format(space: Space) -> PlainTree {
        PlainTree(Tree::format(space, PAGES as u16), Vec::with_capacity(1 << 14))
    }

    fn lodge_all(&mut self, points: &[Point]) -> Measured {
        self.measure(|tree, _| points.iter().filter(|x| tree.lodge(x)).count() as u64)
    }

    fn tally_all(&mut self, points: &[Point]) -> Measured {
        self.measure(|tree, _| points.iter().map(|x| u64::from(tree.tally(x))).sum())
    }

    fn search_all(&mut self, boxes: &[Corners]) -> Measured {
        self.measure(|tree, finds| boxes.iter().map(|b| tree.search(b, finds) as u64).sum())
    }

    fn open(&mut self) -> Option<Duration> {
        None
    }
}

pub struct PlainMap(Map, Finds);

impl PlainMap {
    fn measure(&mut self, work: impl FnOnce(&mut Map, &mut Finds) -> u64) -> Measured {
        let start = Instant::now();
        let answer = work(&mut self.0, &mut self.1);
        Measured { time: start.elapsed(), answer, accesses: None }
    }
}

impl Subject for PlainMap {
    fn format(space: Space) -> PlainMap {
        PlainMap(Map::new(space), Vec::with_capacity(1 << 14))
    }

    fn lodge_all(&mut self, points: &[Point]) -> Measured {
        self.measure(|map, _| {
            points.iter().for_each(|x| map.lodge(x));
            points.len() as u64
        })
    }

    fn tally_all(&mut self, points: &[Point]) -> Measured {
        self.measure(|map, _| points.iter().map(|x| u64::from(map.tally(x))).sum())
    }

    fn search_all(&mut self, boxes: &[Corners]) -> Measured {
        self.measure(|map, finds| boxes.iter().map(|b| map.search(b, finds) as u64).sum())
    }

    fn open(&mut self) -> Option<Duration> {
        None
    }
}
