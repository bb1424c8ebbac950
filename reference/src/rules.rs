//! The rules of a sound tree that a page can be asked by itself, B to E, and the regions of children.

use crate::page::{level_and_number, Entry, TreePage};
use crate::store::Page;
use crate::text::Rule;

/// A run of addresses, both ends included.
#[derive(Clone, Copy, PartialEq, Eq, Debug)]
pub struct Region {
    pub start: u64,
    pub end: u64,
}

/// A page of the tree, by where it hangs.
#[derive(Clone, Copy, PartialEq, Eq, Debug)]
pub struct Spot {
    pub number: u16,
    pub level: u8,
    pub region: Region,
}

/// The page as it stands at a spot, or the first rule that it breaks there.
pub fn sound_page(bytes: &Page, spot: &Spot) -> Result<TreePage, Rule> {
    if level_and_number(bytes) != (spot.level, spot.number) {
        return Err(Rule::B);
    }
    let page = TreePage::decode(bytes).ok_or(Rule::C)?;
    if spot.level == 1 && !leaf_rises(&page.entries, &spot.region) {
        return Err(Rule::D);
    }
    if spot.level > 1 && !inner_rises(&page.entries, &spot.region) {
        return Err(Rule::E);
    }
    Ok(page)
}

fn rise(entries: &[Entry]) -> bool {
    entries.windows(2).all(|w| w[0].key < w[1].key)
}

fn leaf_rises(entries: &[Entry], region: &Region) -> bool {
    rise(entries) && entries.iter().all(|e| region.start <= e.key && e.key <= region.end && e.value >= 1)
}

fn inner_rises(entries: &[Entry], region: &Region) -> bool {
    let (last, before) = entries.split_last().expect("a page has an entry");
    rise(before) && before.iter().all(|e| region.start <= e.key && e.key < region.end) && last.key == 0
}

/// Where the children of an inner page hang, lower regions first.
pub fn children(page: &TreePage, spot: &Spot) -> Vec<Spot> {
    let mut spots = Vec::new();
    let mut start = spot.region.start;
    for (i, entry) in page.entries.iter().enumerate() {
        let last = i + 1 == page.entries.len();
        let end = if last { spot.region.end } else { entry.key };
        spots.push(Spot { number: entry.value, level: spot.level - 1, region: Region { start, end } });
        start = end + 1;
    }
    spots
}
