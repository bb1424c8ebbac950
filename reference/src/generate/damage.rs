//! Damage to the pages of a sound tree: for each field of the header, for each rule, and for any byte.

use super::random::Random;
use super::tree::Tree;
use crate::page::TreePage;
use crate::rules::Spot;
use crate::store::{Page, MOST, PAGE};

struct Damage<'a> {
    random: &'a mut Random,
    tree: &'a Tree,
    pages: &'a mut [Page],
    /// A page that is damaged already, and may be again: it then breaks several rules.
    again: Option<(Spot, TreePage)>,
}

/// Damages the pages in one way, or rarely in several.
pub fn damage(random: &mut Random, tree: &Tree, pages: &mut [Page]) {
    if pages.is_empty() {
        return;
    }
    let times = 1 + random.weighted(&[70, 20, 10]);
    let mut damage = Damage { random, tree, pages, again: None };
    for _ in 0..times {
        damage.once();
    }
}

impl Damage<'_> {
    fn once(&mut self) {
        if self.tree.pages.is_empty() {
            return self.header();
        }
        if self.pages.len() == MOST as usize && self.random.percent(40) {
            return self.rule_a();
        }
        match self.random.weighted(&[16, 18, 5, 12, 20, 24, 3, 2]) {
            0 => self.header(),
            1 => self.rule_a(),
            2 => self.rule_b(),
            3 => self.rule_c(),
            4 => self.rule_d(),
            5 => self.rule_e(),
            6 => self.rule_f(),
            _ => self.any_byte(),
        }
    }

    fn header(&mut self) {
        let height = self.tree.header.height;
        let (at, value) = match self.random.below(16) {
            0 => (self.random.below(4), self.random.bits() as u8),
            1 => (4, 0),
            2 => (4, *self.random.pick(&[1, 2, 3, 255])),
            3 => (5, *self.random.pick(&[0, 5, 255])),
            4 => (5, self.random.between(1, 4) as u8),
            5 => (6, *self.random.pick(&[0, 16, 255])),
            6 => (6, self.random.between(1, 15) as u8),
            7 => (7, *self.random.pick(&[7, 8, 255])),
            8 => (7, *self.random.pick(&[height + 1, height.saturating_sub(1)])),
            9 => (7, if height == 0 { 1 } else { 0 }),
            10 => return self.set16(1, 8, 0),
            11 => return self.set16(1, 8, 7),
            12 => {
                self.pages[0][12..16].fill(0);
                return;
            }
            13 => (12 + self.random.below(4), 1),
            14 => (10 + self.random.below(2), self.random.between(1, 255) as u8),
            _ => (16 + self.random.below(PAGE - 16), self.random.between(1, 255) as u8),
        };
        self.pages[0][at] = value;
    }

    fn any_page(&mut self) -> (Spot, TreePage) {
        self.page_of(|_, _| true).expect("a tree with pages")
    }

    fn page_of(&mut self, which: impl Fn(&Spot, &TreePage) -> bool) -> Option<(Spot, TreePage)> {
        if let Some((spot, page)) = self.again.clone() {
            if which(&spot, &page) && self.random.percent(60) {
                return Some((spot, page));
            }
        }
        let of: Vec<&(Spot, TreePage)> = self.tree.pages.iter().filter(|(spot, page)| which(spot, page)).collect();
        if !of.is_empty() {
            self.again = Some((*self.random.pick(&of)).clone());
            return self.again.clone();
        }
        None
    }

    fn set16(&mut self, number: u16, at: usize, value: u16) {
        self.pages[number as usize - 1][at..at + 2].copy_from_slice(&value.to_le_bytes());
    }

    fn set_key(&mut self, number: u16, entry: usize, key: u64) {
        let at = 8 + 12 * entry;
        self.pages[number as usize - 1][at..at + 8].copy_from_slice(&key.to_le_bytes());
    }

    fn set_value(&mut self, number: u16, entry: usize, value: u16) {
        self.set16(number, 16 + 12 * entry, value);
    }

    fn set(&mut self, number: u16, at: usize, value: u8) {
        self.pages[number as usize - 1][at] = value;
    }

    /// A number that no page of the tree should name, or that another one names already.
    fn rule_a(&mut self) {
        let last = self.pages.len() as u16;
        let other = self.random.pick(&self.tree.pages).0.number;
        let number = match self.random.below(7) {
            0 => 0,
            1 => 1,
            2 | 3 => last.saturating_add(1),
            4 => 65_535,
            5 => self.random.between(1, last.into()) as u16,
            _ => other,
        };
        // A page of the store that the index does not use.
        let number = if last == MOST && self.random.percent(60) { MOST + 1 } else { number };
        match self.page_of(|spot, _| spot.level > 1) {
            Some((spot, page)) if self.random.percent(85) => {
                let entry = self.random.below(page.entries.len());
                let before = self.random.below(entry + 1);
                let number = if before < entry { page.entries[before].value } else { number };
                self.set_value(spot.number, entry, number);
            }
            _ => self.set16(1, 8, number),
        }
    }

    fn rule_b(&mut self) {
        let (spot, _) = self.any_page();
        match self.random.below(4) {
            0 => self.set(spot.number, 0, spot.level + 1),
            1 => self.set(spot.number, 0, spot.level - 1),
            2 => self.set16(spot.number, 2, spot.number + 1),
            _ => {
                let at = self.random.below(4);
                let value = self.random.bits() as u8;
                self.set(spot.number, at, value);
            }
        }
    }

    fn rule_c(&mut self) {
        let (spot, page) = self.any_page();
        let count = page.entries.len();
        let value = self.random.between(1, 255) as u8;
        match self.random.below(7) {
            0 => self.set(spot.number, 1, 0),
            1 => self.set(spot.number, 1, 11),
            2 => self.set(spot.number, 1, value),
            3 => self.set(spot.number, 1, (count as u8 + 1).min(11)),
            4 => {
                let at = 4 + self.random.below(4);
                self.set(spot.number, at, value);
            }
            5 => {
                let at = 18 + 12 * self.random.below(count) + self.random.below(2);
                self.set(spot.number, at, value);
            }
            _ => {
                let end = 8 + 12 * count;
                if end < PAGE {
                    let at = end + self.random.below(PAGE - end);
                    self.set(spot.number, at, value);
                }
            }
        }
    }

    fn rule_d(&mut self) {
        let kind = self.random.below(7);
        let suits = |spot: &Spot, page: &TreePage| {
            let rises = (3..6).contains(&kind);
            spot.level == 1 && (page.entries.len() > 1 || !rises) && (spot.region.start > 0 || kind != 1)
        };
        let Some((spot, page)) = self.page_of(suits) else { return self.once() };
        let last = page.entries.len() - 1;
        match kind {
            0 => {
                let entry = self.random.below(last + 1);
                self.set_value(spot.number, entry, 0);
            }
            1 => self.set_key(spot.number, 0, spot.region.start - 1),
            2 => self.set_key(spot.number, last, spot.region.end + 1),
            3..=5 => self.neighbours(&spot, &page, last + 1, kind == 3),
            _ => self.set_key(spot.number, last, u64::MAX),
        }
    }

    fn rule_e(&mut self) {
        let kind = self.random.below(8);
        let suits = |spot: &Spot, page: &TreePage| {
            let entries = if kind < 2 {
                1
            } else if kind < 6 {
                2
            } else {
                3
            };
            spot.level > 1 && page.entries.len() >= entries && (spot.region.start > 0 || kind != 4)
        };
        let Some((spot, page)) = self.page_of(suits) else { return self.once() };
        let last = page.entries.len() - 1;
        match kind {
            0 => self.set_key(spot.number, last, spot.region.end),
            1 => self.set_key(spot.number, last, 1),
            2 => self.set_key(spot.number, last - 1, spot.region.end),
            3 => self.set_key(spot.number, last - 1, spot.region.end + 1),
            4 => self.set_key(spot.number, 0, spot.region.start - 1),
            5 => self.set_key(spot.number, last - 1, u64::MAX),
            _ => self.neighbours(&spot, &page, last, kind == 6),
        }
    }

    /// Makes the keys of two neighbours among the first `count` entries equal, or swaps them.
    fn neighbours(&mut self, spot: &Spot, page: &TreePage, count: usize, equal: bool) {
        let entry = self.random.below(count - 1);
        let (key, next) = (page.entries[entry].key, page.entries[entry + 1].key);
        self.set_key(spot.number, entry, next);
        if !equal {
            self.set_key(spot.number, entry + 1, key);
        }
    }

    fn rule_f(&mut self) {
        let total = self.tree.header.total;
        let value = *self.random.pick(&[total + 1, total - 1, u32::MAX, 1]);
        self.pages[0][12..16].copy_from_slice(&value.to_le_bytes());
    }

    fn any_byte(&mut self) {
        let (spot, _) = self.any_page();
        let at = self.random.below(PAGE);
        let value = self.random.bits() as u8;
        self.set(spot.number, at, value);
    }
}
