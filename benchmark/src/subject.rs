//! What each of the programs that are compared does.

use crate::work::{Corners, Point, Space};
use std::time::Duration;

/// What a batch of calls took and answered, and its page accesses where they are counted.
pub struct Measured {
    pub time: Duration,
    pub answer: u64,
    pub accesses: Option<u64>,
}

pub trait Subject {
    /// An empty index over 1,024 pages.
    fn format(space: Space) -> Self;

    /// Answers how many events were lodged.
    fn lodge_all(&mut self, points: &[Point]) -> Measured;

    /// Answers the sum of the counts.
    fn tally_all(&mut self, points: &[Point]) -> Measured;

    /// Answers how many finds there were.
    fn search_all(&mut self, boxes: &[Corners]) -> Measured;

    /// The time of opening the index, where that is a call.
    fn open(&mut self) -> Option<Duration>;
}
