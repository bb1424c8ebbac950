//! An index beside its meaning, a map from address to count. After every call that accesses pages the two are compared: the answer, the pages,
//! the free list and the charge. A disagreement panics.

use std::collections::BTreeMap;

use crate::index::{Ending, Found, Index, Known, RESERVE};
use crate::order::{Order, Point, QueryBox};
use crate::page::Header;
use crate::rules::{children, sound_page, Region, Spot};
use crate::store::{Store, MOST};
use crate::text::Refusal;

type Meaning = BTreeMap<u64, u16>;

pub struct Checked<S> {
    index: Index<S>,
    /// What the tree under page 1 holds; unknown until a format or an open, and after the pages were written past the index.
    meaning: Option<Meaning>,
}

/// The tree under page 1, as a look at its pages tells it.
struct Tree {
    meaning: Meaning,
    spots: Vec<Spot>,
}

impl<S: Store> Checked<S> {
    pub fn new(store: S, order: Order) -> Checked<S> {
        Checked { index: Index::new(store, order), meaning: None }
    }

    pub fn index(&self) -> &Index<S> {
        &self.index
    }

    pub fn grant(&mut self, charge: u32) {
        self.index.grant(charge);
        assert_eq!(self.charge(), charge, "the charge after a grant");
    }

    pub fn format(&mut self) -> Result<(), Refusal> {
        let before = self.charge();
        let known = self.index.known().cloned();
        self.index.format().inspect_err(|_| self.same(&known))?;
        self.meaning = Some(Meaning::new());
        self.compare(before, 1);
        Ok(())
    }

    pub fn open(&mut self, work: u32) -> Result<(), Refusal> {
        let before = self.charge();
        self.index.open(work).inspect_err(|_| assert!(self.index.known().is_none(), "open after a refusal"))?;
        let tree = self.tree();
        let spent = 1 + tree.spots.len() as u32;
        let filed = self.meaning.replace(tree.meaning);
        assert!(filed.is_none() || filed == self.meaning, "an opening finds other counts than were filed");
        self.compare(before, spent);
        let free = &self.known().free;
        assert!(free.windows(2).all(|w| w[0] < w[1]), "free pages do not rise after an opening");
        Ok(())
    }

    pub fn shut(&mut self) {
        self.index.shut();
    }

    pub fn lodge(&mut self, point: Point) -> Result<(), Refusal> {
        let known = self.index.known().cloned();
        let before = (self.charge(), self.used());
        let count = self.count(point);
        self.index.lodge(point).inspect_err(|refusal| {
            self.same(&known);
            assert!(*refusal != Refusal::CountFull || count == u16::MAX, "refused 14 with {count} events");
        })?;
        let address = self.address(point);
        *self.meant().entry(address).or_insert(0) += 1;
        let height = u32::from(known.expect("open").height);
        let grown = self.used() - before.1;
        // As many new pages as old ones, and those by which the tree grew, and the header.
        self.compare(before.0, height + (height + grown) + 1);
        Ok(())
    }

    pub fn withdraw(&mut self, point: Point) -> Result<(), Refusal> {
        let known = self.index.known().cloned();
        let before = (self.charge(), self.used());
        let count = self.count(point);
        self.index.withdraw(point).inspect_err(|refusal| {
            self.same(&known);
            assert!(*refusal != Refusal::NoEvent || count == 0, "refused 13 with {count} events");
        })?;
        let address = self.address(point);
        let left = count.checked_sub(1).expect("a withdrawal without an event");
        self.meant().insert(address, left);
        self.meant().retain(|_, count| *count > 0);
        let height = u32::from(known.expect("open").height);
        let shrunk = before.1 - self.used();
        self.compare(before.0, height + (height - shrunk) + 1);
        Ok(())
    }

    pub fn tally(&mut self, point: Point) -> Result<u16, Refusal> {
        let before = self.charge();
        let known = self.index.known().cloned();
        let answer = self.index.tally(point).inspect_err(|_| self.same(&known))?;
        assert_eq!(answer, self.count(point), "a tally of {point:?}");
        self.compare(before, u32::from(self.known().height));
        Ok(answer)
    }

    pub fn search(&mut self, b: &QueryBox, start: u64, room: u32) -> Result<Found, Refusal> {
        let before = self.charge();
        let known = self.index.known().cloned();
        let found = self.index.search(b, start, room).inspect_err(|_| self.same(&known))?;
        self.compare(before, found.reads);
        self.compare_search(b, start, room, before, &found);
        Ok(found)
    }

    /// The store, for an access past the index; `written` says that page contents may change. The index is shut afterwards.
    pub fn past<T>(self, written: bool, access: impl FnOnce(&mut S) -> T) -> (Checked<S>, T) {
        let meaning = if written { None } else { self.meaning };
        let (mut store, order) = self.index.into_parts();
        let answer = access(&mut store);
        (Checked { index: Index::new(store, order), meaning }, answer)
    }

    fn charge(&self) -> u32 {
        self.index.store().charge()
    }

    fn known(&self) -> &Known {
        self.index.known().expect("open")
    }

    fn last(&self) -> u16 {
        self.index.store().size().min(MOST)
    }

    /// The number of tree pages of an open index, by its free list.
    fn used(&self) -> u32 {
        match self.index.known() {
            Some(known) => u32::from(self.last()) - 1 - known.free.len() as u32,
            None => 0,
        }
    }

    fn address(&self, point: Point) -> u64 {
        self.index.order().address(&point).expect("accepted in the space")
    }

    fn meant(&mut self) -> &mut Meaning {
        self.meaning.as_mut().expect("an open index has a meaning")
    }

    fn count(&self, point: Point) -> u16 {
        let address = self.index.order().address(&point);
        let meaning = self.meaning.as_ref();
        address.and_then(|a| meaning?.get(&a)).copied().unwrap_or(0)
    }

    /// A refused call leaves what the index knew, and the tree.
    fn same(&self, known: &Option<Known>) {
        assert_eq!(self.index.known(), known.as_ref(), "a refused call changed the index");
        if known.is_some() {
            self.compare_pages();
        }
    }

    fn compare(&self, before: u32, spent: u32) {
        assert_eq!(before - self.charge(), spent, "the accesses of a call");
        self.compare_pages();
    }

    fn compare_pages(&self) {
        let known = self.known();
        let tree = self.tree();
        assert_eq!(Some(&tree.meaning), self.meaning.as_ref(), "the tree's counts");
        let header = self.header();
        assert_eq!((header.height, header.root, header.total), (known.height, known.root, known.total));
        let total: u64 = tree.meaning.values().map(|&c| u64::from(c)).sum();
        assert_eq!(total, u64::from(known.total), "the total");
        let mut pages: Vec<u16> = tree.spots.iter().map(|s| s.number).chain(known.free.clone()).collect();
        pages.sort();
        assert_eq!(pages, (2..=self.last()).collect::<Vec<u16>>(), "tree and free pages");
        assert!(tree.spots.is_empty() || known.free.len() >= RESERVE, "fewer than 6 pages are free");
    }

    fn header(&self) -> Header {
        Header::decode(&self.index.store().peek(1).expect("page 1")).expect("a header")
    }

    fn tree(&self) -> Tree {
        let header = self.header();
        let mut tree = Tree { meaning: Meaning::new(), spots: Vec::new() };
        if header.root != 0 {
            let region = Region { start: 0, end: self.index.order().space.top() };
            self.look(Spot { number: header.root, level: header.height, region }, &mut tree);
        }
        tree
    }

    fn look(&self, spot: Spot, tree: &mut Tree) {
        let bytes = self.index.store().peek(spot.number).expect("a page of the store");
        let page = sound_page(&bytes, &spot).unwrap_or_else(|rule| panic!("{spot:?} breaks rule {rule:?}"));
        tree.spots.push(spot);
        if spot.level == 1 {
            tree.meaning.extend(page.entries.iter().map(|e| (e.key, e.value)));
        } else {
            children(&page, &spot).into_iter().for_each(|child| self.look(child, tree));
        }
    }

    fn compare_search(&self, b: &QueryBox, start: u64, room: u32, charge: u32, found: &Found) {
        let order = self.index.order();
        let meaning = self.meaning.as_ref().expect("open");
        let due: Vec<(u64, u16)> = meaning
            .range(start..)
            .map(|(&address, &count)| (address, count))
            .filter(|(address, _)| b.has(&order.point(*address).expect("an address")))
            .collect();
        let got: Vec<(u64, u16)> = found.finds.iter().map(|f| (f.address, f.count)).collect();
        assert!(got.len() <= room as usize && due.starts_with(&got), "a search finds other events");
        for find in &found.finds {
            assert_eq!(order.point(find.address), Some(find.point), "the point of a find");
        }
        let meets = |region: &Region| order.first(b, start.max(region.start)).is_some_and(|first| first <= region.end);
        let spots = self.tree().spots;
        let pages: Vec<&Spot> = spots.iter().filter(|s| meets(&s.region)).collect();
        match found.ending {
            Ending::Done => {
                assert_eq!(due, got, "a search that is done");
                assert_eq!(pages.len(), found.reads as usize, "the reads of a search that is done");
            }
            Ending::More { address } => {
                assert_eq!(got.len(), room as usize, "more, with room left");
                assert_eq!(due[got.len()].0, address, "the address of a more");
            }
            Ending::Cut { page, address } => {
                assert_eq!((found.reads, self.charge()), (charge, 0), "the reads of a cut search");
                let spot = pages[found.reads as usize];
                assert_eq!(spot.number, page, "the page of a cut");
                assert_eq!(order.first(b, start.max(spot.region.start)), Some(address), "a cut's address");
            }
        }
    }
}
