//! The index: eight calls over any store and any order.

use crate::change::{leaf_of, lodged, lowered, raised, withdrawn, Step};
use crate::order::{Order, Point, QueryBox};
use crate::page::{Header, TreePage, HIGHEST};
use crate::rules::{children, sound_page, Region, Spot};
use crate::store::{Store, MOST};
use crate::text::{Fault, Refusal, Rule};

/// The work records that an opening asks for.
pub const WORK: u32 = 64;
/// The free pages that a tree leaves.
pub const RESERVE: usize = 6;

/// What an open index knows.
#[derive(Clone, PartialEq, Eq, Debug)]
pub struct Known {
    pub height: u8,
    pub root: u16,
    pub total: u32,
    /// Free pages, front first.
    pub free: Vec<u16>,
}

/// What a search finds.
#[derive(Clone, Copy, PartialEq, Eq, Debug)]
pub struct Find {
    pub address: u64,
    pub point: Point,
    pub count: u16,
}

#[derive(Clone, Copy, PartialEq, Eq, Debug)]
pub enum Ending {
    Done,
    More { address: u64 },
    Cut { page: u16, address: u64 },
}

#[derive(Clone, PartialEq, Eq, Debug)]
pub struct Found {
    pub finds: Vec<Find>,
    pub reads: u32,
    pub ending: Ending,
}

/// A box, where a search begins, and how many finds it has room for.
struct Asked<'a> {
    b: &'a QueryBox,
    start: u64,
    room: u32,
}

pub struct Index<S> {
    store: S,
    order: Order,
    known: Option<Known>,
}

impl<S: Store> Index<S> {
    pub fn new(store: S, order: Order) -> Index<S> {
        Index { store, order, known: None }
    }

    pub fn into_parts(self) -> (S, Order) {
        (self.store, self.order)
    }

    pub fn store(&self) -> &S {
        &self.store
    }

    pub fn order(&self) -> &Order {
        &self.order
    }

    pub fn known(&self) -> Option<&Known> {
        self.known.as_ref()
    }

    pub fn grant(&mut self, charge: u32) {
        self.store.grant(charge);
    }

    pub fn format(&mut self) -> Result<(), Refusal> {
        let known = Known { height: 0, root: 0, total: 0, free: (2..=self.last()).collect() };
        self.write_header(&known)?;
        self.known = Some(known);
        Ok(())
    }

    pub fn open(&mut self, work: u32) -> Result<(), Refusal> {
        self.known = None;
        if work < WORK {
            return Err(Refusal::Work);
        }
        let page = self.store.read(1).map_err(|fault| unread(fault, 1, 0))?;
        let header = Header::decode(&page).ok_or(Refusal::NoHeader)?;
        let space = self.order.space;
        if (header.kind, header.n, header.p) != (self.order.number(), space.n, space.p) {
            return Err(Refusal::OtherOrder);
        }
        let mut reached = Vec::new();
        let mut sum = 0;
        if header.root != 0 {
            sum = self.open_page(&self.root_spot(header.root, header.height), &mut reached)?;
        }
        let free: Vec<u16> = (2..=self.last()).filter(|page| !reached.contains(page)).collect();
        if sum != u64::from(header.total) || (!reached.is_empty() && free.len() < RESERVE) {
            return Err(Refusal::Unsound { page: 1, rule: Rule::F });
        }
        self.known = Some(Known { height: header.height, root: header.root, total: header.total, free });
        Ok(())
    }

    pub fn shut(&mut self) {
        self.known = None;
    }

    pub fn lodge(&mut self, point: Point) -> Result<(), Refusal> {
        let (root, address) = self.asked(point)?;
        let path = self.path(root, address)?;
        let known = self.known.as_ref().expect("open");
        let pages = raised(&path, lodged(&path, address)?, &known.free);
        let height = pages.last().expect("a leaf at least").level;
        if height > HIGHEST {
            return Err(Refusal::HeightFull);
        }
        if known.free.len() < pages.len() + RESERVE {
            return Err(Refusal::Room);
        }
        self.replace(height, known.total + 1, &path, &pages)
    }

    pub fn withdraw(&mut self, point: Point) -> Result<(), Refusal> {
        let (root, address) = self.asked(point)?;
        let path = self.path(root, address)?;
        let known = self.known.as_ref().expect("open");
        let pages = lowered(&path, withdrawn(&path, address)?, &known.free);
        let height = if pages.is_empty() { 0 } else { known.height };
        self.replace(height, known.total - 1, &path, &pages)
    }

    pub fn tally(&mut self, point: Point) -> Result<u16, Refusal> {
        let (root, address) = self.asked(point)?;
        let path = self.path(root, address)?;
        Ok(leaf_of(&path).iter().find(|e| e.key == address).map_or(0, |e| e.value))
    }

    /// The events of the box at or above `start`, at most `room` of them.
    pub fn search(&mut self, b: &QueryBox, start: u64, room: u32) -> Result<Found, Refusal> {
        let root = self.root()?;
        if !self.order.space.has(&b.low) || !self.order.space.has(&b.high) {
            return Err(Refusal::Outside);
        }
        let mut found = Found { finds: Vec::new(), reads: 0, ending: Ending::Done };
        if let Some(spot) = root {
            self.search_page(&spot, &Asked { b, start, room }, &mut found);
        }
        Ok(found)
    }

    /// L, the last page that the index uses.
    fn last(&self) -> u16 {
        self.store.size().min(MOST)
    }

    fn root_spot(&self, root: u16, height: u8) -> Spot {
        Spot { number: root, level: height, region: Region { start: 0, end: self.order.space.top() } }
    }

    fn write_header(&mut self, known: &Known) -> Result<(), Refusal> {
        let header = Header {
            kind: self.order.number(),
            n: self.order.space.n,
            p: self.order.space.p,
            height: known.height,
            root: known.root,
            total: known.total,
        };
        self.store.write(1, &header.encode()).map_err(|fault| unwritten(fault, 1, 0))
    }

    /// Reads the page and those below it, asks the rules A to E, and answers the sum of the counts.
    fn open_page(&mut self, spot: &Spot, reached: &mut Vec<u16>) -> Result<u64, Refusal> {
        let number = spot.number;
        if number < 2 || number > self.last() || reached.contains(&number) {
            return Err(Refusal::Unsound { page: number, rule: Rule::A });
        }
        reached.push(number);
        let bytes = self.store.read(number).map_err(|fault| unread(fault, number, spot.level))?;
        let page = sound_page(&bytes, spot).map_err(|rule| Refusal::Unsound { page: number, rule })?;
        if spot.level == 1 {
            return Ok(page.entries.iter().map(|e| u64::from(e.value)).sum());
        }
        let mut sum = 0;
        for child in children(&page, spot) {
            sum += self.open_page(&child, reached)?;
        }
        Ok(sum)
    }

    /// The root of an open index, if it has a tree; the question 5.
    fn root(&self) -> Result<Option<Spot>, Refusal> {
        let known = self.known.as_ref().ok_or(Refusal::Shut)?;
        Ok((known.height > 0).then(|| self.root_spot(known.root, known.height)))
    }

    /// The questions 5 and 6.
    fn asked(&self, point: Point) -> Result<(Option<Spot>, u64), Refusal> {
        let root = self.root()?;
        let address = self.order.address(&point).ok_or(Refusal::Outside)?;
        Ok((root, address))
    }

    fn read_tree_page(&mut self, spot: &Spot) -> Result<TreePage, Fault> {
        let bytes = self.store.read(spot.number)?;
        Ok(sound_page(&bytes, spot).expect("an open index has a sound tree"))
    }

    /// The pages whose region holds the address, from the root to a leaf.
    fn path(&mut self, root: Option<Spot>, address: u64) -> Result<Vec<Step>, Refusal> {
        let mut path = Vec::new();
        let Some(mut spot) = root else { return Ok(path) };
        loop {
            let page = self.read_tree_page(&spot).map_err(|fault| unread(fault, spot.number, spot.level))?;
            if spot.level == 1 {
                path.push(Step { page, child: 0 });
                return Ok(path);
            }
            let below = children(&page, &spot);
            let child = below.iter().position(|s| address <= s.region.end).expect("a region holds it");
            path.push(Step { page, child });
            spot = below[child];
        }
    }

    /// Writes the new pages and then the header; then the old path is free, each of its pages put to the front, leaf first.
    fn replace(&mut self, height: u8, total: u32, path: &[Step], pages: &[TreePage]) -> Result<(), Refusal> {
        for page in pages {
            self.store.write(page.number, &page.encode()).map_err(|fault| unwritten(fault, page.number, page.level))?;
        }
        let root = pages.last().map_or(0, |page| page.number);
        let mut free = self.known.as_ref().expect("open").free[pages.len()..].to_vec();
        for step in path.iter().rev() {
            free.insert(0, step.page.number);
        }
        let known = Known { height, root, total, free };
        self.write_header(&known)?;
        self.known = Some(known);
        Ok(())
    }

    /// Goes through the page and those below it, and answers whether the search goes on.
    fn search_page(&mut self, spot: &Spot, asked: &Asked, found: &mut Found) -> bool {
        let from = asked.start.max(spot.region.start);
        let first = self.order.first(asked.b, from);
        let Some(address) = first.filter(|&a| a <= spot.region.end) else {
            return true;
        };
        let Ok(page) = self.read_tree_page(spot) else {
            found.ending = Ending::Cut { page: spot.number, address };
            return false;
        };
        found.reads += 1;
        if spot.level == 1 {
            return self.search_leaf(&page, asked, found);
        }
        children(&page, spot).iter().all(|child| self.search_page(child, asked, found))
    }

    fn search_leaf(&self, page: &TreePage, asked: &Asked, found: &mut Found) -> bool {
        for entry in &page.entries {
            let (address, count) = (entry.key, entry.value);
            let point = self.order.point(address).expect("a leaf's keys are addresses");
            if address < asked.start || !asked.b.has(&point) {
                continue;
            }
            if found.finds.len() as u64 >= u64::from(asked.room) {
                found.ending = Ending::More { address };
                return false;
            }
            found.finds.push(Find { address, point, count });
        }
        true
    }
}

fn unread(fault: Fault, page: u16, level: u8) -> Refusal {
    match fault {
        Fault::Absent => Refusal::Absent { page, level },
        Fault::Uncharged => Refusal::Unread { page, level },
    }
}

fn unwritten(fault: Fault, page: u16, level: u8) -> Refusal {
    match fault {
        Fault::Absent => Refusal::Absent { page, level },
        Fault::Uncharged => Refusal::Unwritten { page, level },
    }
}
