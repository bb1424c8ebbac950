//! The proved index, by its static library. Nothing is kept between its calls, so each call opens the index and then carries out its batch.

use crate::subject::{Measured, Subject};
use crate::work::{Corners, PAGE, PAGES, Point, Space};
use std::time::{Duration, Instant};

/// How many calls of a batch were accepted, and the refusal that ended it, or 0.
#[repr(C)]
struct Batch {
    done: usize,
    refusal: u8,
}

/// The same of searches, with the finds and the page reads of all of them.
#[repr(C)]
struct Searched {
    done: usize,
    refusal: u8,
    finds: usize,
    reads: u64,
}

#[repr(C)]
#[derive(Clone, Copy, Default)]
struct Find {
    address: u64,
    point: Point,
    count: u16,
}

unsafe extern "C" {
    fn exports_format(bytes: *mut u8, len: usize, n: u8, p: u8, charge: u32) -> Batch;
    fn exports_lodge(bytes: *mut u8, len: usize, n: u8, p: u8, charge: u32, points: *const Point, many: usize)
    -> Batch;
    fn exports_tally(
        bytes: *mut u8,
        len: usize,
        n: u8,
        p: u8,
        charge: u32,
        points: *const Point,
        many: usize,
        counts: *mut u16,
        room: usize,
    ) -> Batch;
    fn exports_search(
        bytes: *mut u8,
        len: usize,
        n: u8,
        p: u8,
        charge: u32,
        boxes: *const Corners,
        many: usize,
        finds: *mut Find,
        room: usize,
    ) -> Searched;
}

const CHARGE: u32 = u32::MAX;

pub struct Proved {
    space: Space,
    bytes: Vec<u8>,
    counts: Vec<u16>,
    finds: Vec<Find>,
}

impl Proved {
    fn lodge(&mut self, points: &[Point]) -> Batch {
        let Space { n, p } = self.space;
        // SAFETY: pointers and lengths are those of live slices, and no two overlap
        unsafe { exports_lodge(self.bytes.as_mut_ptr(), self.bytes.len(), n, p, CHARGE, points.as_ptr(), points.len()) }
    }

    fn tally(&mut self, points: &[Point]) -> Batch {
        let Space { n, p } = self.space;
        self.counts.resize(points.len(), 0);
        let counts = &mut self.counts;
        // SAFETY: as above
        unsafe {
            exports_tally(
                self.bytes.as_mut_ptr(),
                self.bytes.len(),
                n,
                p,
                CHARGE,
                points.as_ptr(),
                points.len(),
                counts.as_mut_ptr(),
                counts.len(),
            )
        }
    }

    fn search(&mut self, boxes: &[Corners]) -> Searched {
        let Space { n, p } = self.space;
        let finds = &mut self.finds;
        // SAFETY: as above; any bytes are a `Find`
        unsafe {
            exports_search(
                self.bytes.as_mut_ptr(),
                self.bytes.len(),
                n,
                p,
                CHARGE,
                boxes.as_ptr(),
                boxes.len(),
                finds.as_mut_ptr(),
                finds.len(),
            )
        }
    }

    /// The time of an opening: that of a batch of no calls.
    fn opening(&mut self) -> Duration {
        let start = Instant::now();
        let batch = self.tally(&[]);
        assert_eq!(batch.refusal, 0);
        start.elapsed()
    }
}

impl Subject for Proved {
    fn format(space: Space) -> Proved {
        let mut bytes = vec![0; PAGES * PAGE];
        // SAFETY: the pointer and the length are those of a live slice
        let batch = unsafe { exports_format(bytes.as_mut_ptr(), bytes.len(), space.n, space.p, CHARGE) };
        assert_eq!(batch.refusal, 0);
        Proved { space, bytes, counts: Vec::new(), finds: vec![Find::default(); 1 << 14] }
    }

    fn lodge_all(&mut self, points: &[Point]) -> Measured {
        let start = Instant::now();
        let batch = self.lodge(points);
        Measured { time: start.elapsed(), answer: batch.done as u64, accesses: None }
    }

    fn tally_all(&mut self, points: &[Point]) -> Measured {
        self.counts.resize(points.len(), 0);
        let opening = self.opening();
        let start = Instant::now();
        let batch = self.tally(points);
        let time = start.elapsed().saturating_sub(opening);
        assert_eq!(batch.done, points.len());
        Measured { time, answer: self.counts.iter().map(|c| u64::from(*c)).sum(), accesses: None }
    }

    fn search_all(&mut self, boxes: &[Corners]) -> Measured {
        let opening = self.opening();
        let start = Instant::now();
        let searched = self.search(boxes);
        let time = start.elapsed().saturating_sub(opening);
        assert_eq!((searched.done, searched.refusal), (boxes.len(), 0));
        Measured { time, answer: searched.finds as u64, accesses: Some(searched.reads) }
    }

    fn open(&mut self) -> Option<Duration> {
        Some(self.opening())
    }
}
