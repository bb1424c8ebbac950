//! What a lodge and a withdrawal make of a path: the new pages, before any of them is written.

use crate::page::{Entry, TreePage, ENTRIES};
use crate::text::Refusal;

/// A page of a path, and the place of the child that the path goes on to (0 in the leaf).
pub struct Step {
    pub page: TreePage,
    pub child: usize,
}

/// The entries of the leaf; of no path, none.
pub fn leaf_of(path: &[Step]) -> Vec<Entry> {
    path.last().map(|step| step.page.entries.clone()).unwrap_or_default()
}

/// The leaf's entries with one event more; they may be eleven.
pub fn lodged(path: &[Step], address: u64) -> Result<Vec<Entry>, Refusal> {
    let mut entries = leaf_of(path);
    match entries.iter_mut().find(|e| e.key == address) {
        Some(entry) if entry.value == u16::MAX => return Err(Refusal::CountFull),
        Some(entry) => entry.value += 1,
        None => {
            entries.push(Entry { key: address, value: 1 });
            entries.sort_by_key(|e| e.key);
        }
    }
    Ok(entries)
}

/// The leaf's entries with one event less; they may be none.
pub fn withdrawn(path: &[Step], address: u64) -> Result<Vec<Entry>, Refusal> {
    let mut entries = leaf_of(path);
    let entry = entries.iter_mut().find(|e| e.key == address).ok_or(Refusal::NoEvent)?;
    entry.value -= 1;
    entries.retain(|e| e.value > 0);
    Ok(entries)
}

/// New pages, numbered from a free list, leaf first and left first.
struct Pages<'a> {
    free: &'a [u16],
    made: Vec<TreePage>,
}

impl Pages<'_> {
    fn put(&mut self, level: u8, entries: Vec<Entry>) -> u16 {
        // Where free pages run out the call is refused, and no number is looked at.
        let number = self.free.get(self.made.len()).copied().unwrap_or(0);
        self.made.push(TreePage { level, number, entries });
        number
    }

    /// Puts the entries into a page, or eleven into two, and answers the entries that stand for them in the parent; the last
    /// one's key is 0.
    fn put_split(&mut self, level: u8, mut entries: Vec<Entry>) -> Vec<Entry> {
        let mut above = Vec::new();
        if entries.len() > ENTRIES {
            let right = entries.split_off(6);
            let mut left = std::mem::replace(&mut entries, right);
            let key = left[5].key;
            if level > 1 {
                left[5].key = 0;
            }
            above.push(Entry { key, value: self.put(level, left) });
        }
        above.push(Entry { key: 0, value: self.put(level, entries) });
        above
    }
}

/// The pages of a lodge; the last is the root.
pub fn raised(path: &[Step], leaf: Vec<Entry>, free: &[u16]) -> Vec<TreePage> {
    let mut pages = Pages { free, made: Vec::new() };
    let mut level = 1;
    let mut above = pages.put_split(level, leaf);
    for Step { page, child } in path.iter().rev().skip(1) {
        let mut entries = page.entries.clone();
        above.last_mut().expect("one or two").key = entries[*child].key;
        entries.splice(*child..=*child, above);
        level += 1;
        above = pages.put_split(level, entries);
    }
    if above.len() == 2 {
        pages.put(level + 1, above);
    }
    pages.made
}

/// The pages of a withdrawal that remain; the last, if any, is the root.
pub fn lowered(path: &[Step], leaf: Vec<Entry>, free: &[u16]) -> Vec<TreePage> {
    let mut pages = Pages { free, made: Vec::new() };
    let mut level = 1;
    let mut below = leaf;
    for Step { page, child } in path.iter().rev().skip(1) {
        let mut entries = page.entries.clone();
        if below.is_empty() {
            entries.remove(*child);
            if let Some(last) = entries.last_mut() {
                last.key = 0;
            }
        } else {
            entries[*child].value = pages.put(level, below);
        }
        below = entries;
        level += 1;
    }
    if !below.is_empty() {
        pages.put(level, below);
    }
    pages.made
}
