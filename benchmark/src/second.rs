//! The second program, written from the documents alone.

use crate::subject::{Measured, Subject};
use crate::work::{Corners, PAGE, PAGES, Point, Space};
use reference::index::Index;
use reference::order::{self, Order, QueryBox};
use reference::store::{Memory, Store};
use std::time::{Duration, Instant};

pub struct Second(Index<Memory>);

impl Second {
    fn measure(&mut self, work: impl FnOnce(&mut Index<Memory>) -> u64) -> Measured {
        self.0.grant(u32::MAX);
        let start = Instant::now();
        let answer = work(&mut self.0);
        let time = start.elapsed();
        Measured { time, answer, accesses: Some(u64::from(u32::MAX - self.0.store().charge())) }
    }
}

fn found(index: &mut Index<Memory>, corners: &Corners) -> u64 {
    let query = QueryBox::new(corners.low, corners.high).unwrap();
    index.search(&query, 0, u32::MAX).unwrap().finds.len() as u64
}

impl Subject for Second {
    fn format(space: Space) -> Second {
        let order = Order::z(order::Space::new(space.n, space.p).unwrap());
        let mut index = Index::new(Memory::new(vec![0; PAGES * PAGE]), order);
        index.grant(1);
        index.format().unwrap();
        Second(index)
    }

    fn lodge_all(&mut self, points: &[Point]) -> Measured {
        self.measure(|index| points.iter().filter(|x| index.lodge(**x).is_ok()).count() as u64)
    }

    fn tally_all(&mut self, points: &[Point]) -> Measured {
        self.measure(|index| points.iter().map(|x| u64::from(index.tally(*x).unwrap())).sum())
    }

    fn search_all(&mut self, boxes: &[Corners]) -> Measured {
        self.measure(|index| boxes.iter().map(|corners| found(index, corners)).sum())
    }

    fn open(&mut self) -> Option<Duration> {
        Some(self.measure(|index| u64::from(index.open(64).is_ok())).time)
    }
}
