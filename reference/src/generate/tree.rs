//! Random sound trees, and the pages of a memory that holds one.

use super::random::Random;
use crate::index::RESERVE;
use crate::order::Order;
use crate::page::{Entry, Header, TreePage, ENTRIES, HIGHEST};
use crate::rules::{Region, Spot};
use crate::store::{Page, PAGE};

/// A tree on its pages, in visiting order: the root first.
#[derive(Clone)]
pub struct Tree {
    pub header: Header,
    pub pages: Vec<(Spot, TreePage)>,
}

impl Tree {
    /// Puts the tree on other pages, of 2 to `last`.
    pub fn renumber(&mut self, random: &mut Random, last: u16) {
        let mut numbers: Vec<u16> = (2..=last).collect();
        random.shuffle(&mut numbers);
        let old: Vec<u16> = self.pages.iter().map(|(spot, _)| spot.number).collect();
        let new = |number: u16| numbers[old.iter().position(|&o| o == number).expect("a page of the tree")];
        self.header.root = new(self.header.root);
        for (spot, page) in &mut self.pages {
            spot.number = new(spot.number);
            page.number = spot.number;
            if spot.level > 1 {
                page.entries.iter_mut().for_each(|entry| entry.value = new(entry.value));
            }
        }
    }
}

struct Grower<'a> {
    random: &'a mut Random,
    /// Page numbers not yet used, in the order of their use.
    numbers: Vec<u16>,
    pages: Vec<(Spot, TreePage)>,
    /// About how many entries a page has.
    fill: u64,
}

fn header(order: &Order, height: u8, pages: &[(Spot, TreePage)]) -> Header {
    let total = pages.iter().filter(|(spot, _)| spot.level == 1).flat_map(|(_, page)| &page.entries);
    Header {
        kind: order.number(),
        n: order.space.n,
        p: order.space.p,
        height,
        root: pages.first().map_or(0, |(spot, _)| spot.number),
        total: total.map(|e| u32::from(e.value)).sum(),
    }
}

/// A tree on at most `most` of the pages 2 to `last`, of a random height; the empty tree where there is no page.
pub fn sound(random: &mut Random, order: &Order, last: u16, most: usize) -> Tree {
    let mut numbers: Vec<u16> = (2..=last).collect();
    if random.percent(70) {
        random.shuffle(&mut numbers);
    }
    numbers.truncate(most);
    let highest = HIGHEST.min(numbers.len().min(6) as u8);
    let height = if highest == 0 || random.percent(4) { 0 } else { random.between(1, highest.into()) as u8 };
    let fill = random.between(2, ENTRIES as u64);
    numbers.reverse();
    let mut grower = Grower { random, numbers, pages: Vec::new(), fill };
    if height > 0 {
        let spare = grower.numbers.len() - height as usize;
        grower.page(height, Region { start: 0, end: order.space.top() }, spare);
    }
    Tree { header: header(order, height, &grower.pages), pages: grower.pages }
}

/// A tree of this height that is full along one path, and an address there that has no event; the pages off the path have
/// one entry. With `short` one page of the path has nine entries.
pub fn full(random: &mut Random, order: &Order, last: u16, height: u8, short: bool) -> (Tree, u64) {
    let mut numbers: Vec<u16> = (2..=last).collect();
    random.shuffle(&mut numbers);
    let mut grower = Grower { random, numbers, pages: Vec::new(), fill: 1 };
    let lacking = if short { grower.random.between(1, height.into()) as u8 } else { 0 };
    let region = Region { start: 0, end: order.space.top() };
    let address = grower.full_path(height, region, lacking);
    (Tree { header: header(order, height, &grower.pages), pages: grower.pages }, address)
}

/// The greatest height of such a tree on the pages 2 to `last`, so that it leaves six free; 0 if there is none.
pub fn full_height(order: &Order, last: u16) -> u8 {
    let fits = |height: u64| {
        let pages = height + (ENTRIES as u64 - 1) * height * (height - 1) / 2;
        let addresses = (ENTRIES as u64 - 1) * (height - 1) + ENTRIES as u64 + 1;
        pages <= most_pages(last) as u64 && addresses - 1 <= order.space.top()
    };
    (1..=HIGHEST).take_while(|&height| fits(height.into())).count() as u8
}

impl Grower<'_> {
    /// Takes a number for a page whose entries are set later.
    fn begin(&mut self, level: u8, region: Region) -> usize {
        let number = self.numbers.pop().expect("a number is left");
        self.pages.push((Spot { number, level, region }, TreePage { level, number, entries: Vec::new() }));
        self.pages.len() - 1
    }

    fn number(&self, at: usize) -> u16 {
        self.pages[at].0.number
    }

    /// A page and those below it; beside one page for each level it may use `spare` more. Answers its number.
    fn page(&mut self, level: u8, region: Region, spare: usize) -> u16 {
        let at = self.begin(level, region);
        let entries = if level == 1 { self.leaf(region) } else { self.inner(level, region, spare) };
        self.pages[at].1.entries = entries;
        self.number(at)
    }

    fn size(&mut self, most: u64) -> u64 {
        let around = self.random.between(1, ENTRIES as u64).min(self.random.between(1, 3) + self.fill);
        if self.random.percent(15) { ENTRIES as u64 } else { around }.min(most)
    }

    fn count(&mut self) -> u16 {
        match self.random.weighted(&[60, 25, 10, 5]) {
            0 => 1,
            1 => self.random.between(1, 3) as u16,
            2 => self.random.between(65_534, 65_535) as u16,
            _ => self.random.between(1, 65_535) as u16,
        }
    }

    fn leaf(&mut self, region: Region) -> Vec<Entry> {
        let width = (region.end - region.start).saturating_add(1);
        let size = self.size(width) as usize;
        // Often close together, so that searches and lodges meet them.
        let end = if self.random.percent(50) { region.end.min(region.start + 12) } else { region.end };
        let size = size.min((end - region.start + 1) as usize);
        let keys = self.random.rising(size, region.start, end);
        keys.into_iter().map(|key| Entry { key, value: self.count() }).collect()
    }

    fn inner(&mut self, level: u8, region: Region, spare: usize) -> Vec<Entry> {
        let below = level as usize - 1;
        // The first child's pages are counted already.
        let children = 1 + (spare / below).min(ENTRIES - 1) as u64;
        let width = (region.end - region.start).saturating_add(1);
        let size = self.size(children.min(width)) as usize;
        let mut spare = spare - (size - 1) * below;
        let mut ends = Vec::new();
        if size > 1 {
            let near = self.random.percent(30) && region.end - region.start > 400;
            let end = if near { region.start + 300 } else { region.end - 1 };
            ends = self.random.rising(size - 1, region.start, end);
        }
        ends.push(region.end);
        let mut entries = Vec::new();
        let mut start = region.start;
        for (i, &end) in ends.iter().enumerate() {
            let last = i + 1 == size;
            let share = if last { spare } else { self.random.between(0, spare as u64) as usize };
            let before = self.numbers.len();
            let value = self.page(level - 1, Region { start, end }, share);
            spare -= (before - self.numbers.len()) - below;
            entries.push(Entry { key: if last { 0 } else { end }, value });
            start = end + 1;
        }
        entries
    }

    fn chain(&mut self, level: u8, region: Region) -> u16 {
        let at = self.begin(level, region);
        let entry = if level == 1 {
            Entry { key: self.random.between(region.start, region.end), value: self.count() }
        } else {
            Entry { key: 0, value: self.chain(level - 1, region) }
        };
        self.pages[at].1.entries = vec![entry];
        self.number(at)
    }

    /// Answers the free address in the path's leaf.
    fn full_path(&mut self, level: u8, region: Region, lacking: u8) -> u64 {
        let at = self.begin(level, region);
        let size = if level == lacking { ENTRIES - 1 } else { ENTRIES };
        if level == 1 {
            let mut keys = self.random.rising(size + 1, region.start, region.end);
            let free = keys.remove(self.random.below(size + 1));
            self.pages[at].1.entries = keys.into_iter().map(|key| Entry { key, value: self.count() }).collect();
            return free;
        }
        let on = self.random.below(size);
        let mut free = 0;
        let mut entries = Vec::new();
        for i in 0..size {
            // One address for each child off the path.
            let end = if i < on { region.start + i as u64 } else { region.end - (size - 1 - i) as u64 };
            let start = if i <= on { region.start + i as u64 } else { end };
            let below = Region { start, end };
            let child = self.pages.len();
            if i == on {
                free = self.full_path(level - 1, below, lacking);
            } else {
                self.chain(level - 1, below);
            }
            entries.push(Entry { key: if i + 1 == size { 0 } else { end }, value: self.number(child) });
        }
        self.pages[at].1.entries = entries;
        free
    }
}

/// The pages 1 to `last` that hold the tree; pages that are not its own hold anything.
pub fn pages(random: &mut Random, tree: &Tree, last: u16) -> Vec<Page> {
    let filled = random.percent(60);
    let mut pages: Vec<Page> = (1..=last).map(|_| if filled { garbage(random) } else { [0; PAGE] }).collect();
    if !filled {
        return with_tree(pages, tree);
    }
    // Some garbage that looks like the tree's own pages.
    for (_, page) in &tree.pages {
        if random.percent(20) && last > 1 {
            let number = random.between(2, last.into()) as u16;
            pages[number as usize - 1] = TreePage { number, ..page.clone() }.encode();
        }
    }
    with_tree(pages, tree)
}

fn with_tree(mut pages: Vec<Page>, tree: &Tree) -> Vec<Page> {
    if let Some(first) = pages.first_mut() {
        *first = tree.header.encode();
    }
    for (spot, page) in &tree.pages {
        pages[spot.number as usize - 1] = page.encode();
    }
    pages
}

pub fn garbage(random: &mut Random) -> Page {
    let mut page = [0; PAGE];
    match random.weighted(&[3, 2, 2]) {
        0 => page.iter_mut().for_each(|b| *b = random.bits() as u8),
        1 => page.iter_mut().for_each(|b| *b = random.between(0, 3) as u8),
        _ => page = [random.bits() as u8; PAGE],
    }
    page
}

/// The most pages of a sound tree on the pages 2 to `last`.
pub fn most_pages(last: u16) -> usize {
    (last as usize).saturating_sub(1 + RESERVE)
}
