//! The same tree of pages, written plainly: no proofs, no questions that a sound memory answers yes to.

use crate::order::{address, bits, first, holds, point};
use crate::work::{Corners, PAGE, Point, Space};
use std::collections::VecDeque;

type Page = [u8; PAGE];

/// An address and its count in a leaf, a child's end and its page in an inner page.
type Entry = (u64, u16);

/// Pages, and how often they were read or written.
struct Cell {
    bytes: Vec<u8>,
    accesses: u64,
}

impl Cell {
    fn read(&mut self, page: u16) -> Page {
        self.accesses += 1;
        let start = (usize::from(page) - 1) * PAGE;
        self.bytes[start..start + PAGE].try_into().unwrap()
    }

    fn write(&mut self, page: u16, from: &Page) {
        self.accesses += 1;
        let start = (usize::from(page) - 1) * PAGE;
        self.bytes[start..start + PAGE].copy_from_slice(from);
    }
}

fn entries(page: &Page) -> Vec<Entry> {
    page[8..8 + 12 * usize::from(page[1])]
        .chunks_exact(12)
        .map(|e| (u64::from_le_bytes(e[..8].try_into().unwrap()), u16::from_le_bytes([e[8], e[9]])))
        .collect()
}

fn encoded(level: u8, number: u16, entries: &[Entry]) -> Page {
    let mut page = [0; PAGE];
    page[0] = level;
    page[1] = entries.len() as u8;
    page[2..4].copy_from_slice(&number.to_le_bytes());
    for (e, at) in entries.iter().zip(page[8..].chunks_exact_mut(12)) {
        at[..8].copy_from_slice(&e.0.to_le_bytes());
        at[8..10].copy_from_slice(&e.1.to_le_bytes());
    }
    page
}

/// The child for an address: the last one takes what lies above the other keys.
fn child(entries: &[Entry], a: u64) -> usize {
    let others = &entries[..entries.len() - 1];
    others.iter().position(|e| e.0 >= a).unwrap_or(others.len())
}

/// What stands in a page's place after a lodge.
enum Placed {
    One(u16),
    Two(u16, u64, u16),
}

pub struct Tree {
    cell: Cell,
    space: Space,
    height: u8,
    root: u16,
    total: u32,
    free: VecDeque<u16>,
}

impl Tree {
    /// An empty tree over so many pages.
    pub fn format(space: Space, pages: u16) -> Tree {
        let cell = Cell { bytes: vec![0; usize::from(pages) * PAGE], accesses: 0 };
        let mut tree = Tree { cell, space, height: 0, root: 0, total: 0, free: (2..=pages).collect() };
        tree.write_header();
        tree
    }

    pub fn accesses(&self) -> u64 {
        self.cell.accesses
    }

    fn write_header(&mut self) {
        let mut page = [0; PAGE];
        page[..8].copy_from_slice(&[b'U', b'B', b'T', b'1', 1, self.space.n, self.space.p, self.height]);
        page[8..10].copy_from_slice(&self.root.to_le_bytes());
        page[12..16].copy_from_slice(&self.total.to_le_bytes());
        self.cell.write(1, &page);
    }

    /// Whether the event was lodged: there may be too few free pages.
    pub fn lodge(&mut self, x: &Point) -> bool {
        let a = address(self.space, x);
        let mut used = 0;
        let mut path = Vec::with_capacity(6);
        let root = if self.height == 0 {
            if self.free.len() < 7 {
                return false;
            }
            self.height = 1;
            self.place(1, vec![(a, 1)], &mut used)
        } else {
            match self.copy(self.height, self.root, a, (u16::from(self.height), 1), &mut used, &mut path) {
                Some(root) => root,
                None => return false,
            }
        };
        self.root = match root {
            Placed::One(page) => page,
            Placed::Two(left, key, right) => {
                self.height += 1;
                let page = self.free[used];
                used += 1;
                self.cell.write(page, &encoded(self.height, page, &[(key, left), (0, right)]));
                page
            }
        };
        self.total += 1;
        self.write_header();
        self.free.drain(..used);
        path.into_iter().for_each(|page| self.free.push_front(page));
        true
    }

    /// Copies the path from a page down. `need` is how many pages the copy takes in any case, and how many more if this page splits.
    fn copy(
        &mut self,
        level: u8,
        page: u16,
        a: u64,
        need: (u16, u16),
        used: &mut usize,
        path: &mut Vec<u16>,
    ) -> Option<Placed> {
        let mut list = entries(&self.cell.read(page));
        if level == 1 {
            match list.iter().position(|e| e.0 >= a) {
                Some(i) if list[i].0 == a => list[i].1 += 1,
                Some(i) => list.insert(i, (a, 1)),
                None => list.push((a, 1)),
            }
            let pages = if list.len() > 10 { need.0 + 1 + need.1 } else { need.0 };
            if self.free.len() < usize::from(pages) + 6 {
                return None;
            }
        } else {
            let i = child(&list, a);
            let more = if list.len() == 10 { need.1 + 1 } else { 0 };
            match self.copy(level - 1, list[i].1, a, (need.0, more), used, path)? {
                Placed::One(new) => list[i].1 = new,
                Placed::Two(left, key, right) => {
                    list[i].1 = right;
                    list.insert(i, (key, left));
                }
            }
        }
        path.push(page);
        Some(self.place(level, list, used))
    }

    /// Writes the entries to one free page, or eleven of them to two.
    fn place(&mut self, level: u8, mut list: Vec<Entry>, used: &mut usize) -> Placed {
        let left = self.free[*used];
        if list.len() <= 10 {
            *used += 1;
            self.cell.write(left, &encoded(level, left, &list));
            return Placed::One(left);
        }
        let right = self.free[*used + 1];
        *used += 2;
        let key = list[5].0;
        if level > 1 {
            list[5].0 = 0;
        }
        self.cell.write(left, &encoded(level, left, &list[..6]));
        self.cell.write(right, &encoded(level, right, &list[6..]));
        Placed::Two(left, key, right)
    }

    pub fn tally(&mut self, x: &Point) -> u16 {
        let a = address(self.space, x);
        let mut at = self.root;
        for level in (1..=self.height).rev() {
            let list = entries(&self.cell.read(at));
            if level == 1 {
                return list.iter().find(|e| e.0 == a).map_or(0, |e| e.1);
            }
            at = list[child(&list, a)].1;
        }
        0
    }

    /// The finds of a box go into `finds`; answers how many.
    pub fn search(&mut self, corners: &Corners, finds: &mut Vec<(u64, Point, u16)>) -> usize {
        finds.clear();
        if self.height > 0 {
            let top = (1 << bits(self.space)) - 1;
            let next = first(self.space, corners, 0);
            self.walk(self.height, self.root, top, corners, next, finds);
        }
        finds.len()
    }

    /// Walks a page whose region ends at `end`; `next` is the next address of the box.
    fn walk(
        &mut self,
        level: u8,
        page: u16,
        end: u64,
        corners: &Corners,
        next: Option<u64>,
        finds: &mut Vec<(u64, Point, u16)>,
    ) -> Option<u64> {
        if next.is_none_or(|a| a > end) {
            return next;
        }
        let list = entries(&self.cell.read(page));
        if level == 1 {
            for (a, count) in list {
                let x = point(self.space, a);
                if holds(corners, &x) {
                    finds.push((a, x, count));
                }
            }
            return first(self.space, corners, end + 1);
        }
        let mut next = next;
        for (i, e) in list.iter().enumerate() {
            let end = if i + 1 < list.len() { e.0 } else { end };
            next = self.walk(level - 1, e.1, end, corners, next, finds);
        }
        next
    }
}
