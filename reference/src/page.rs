//! Headers and tree pages, byte for byte.

use crate::store::{Page, PAGE};

/// The most levels of a tree.
pub const HIGHEST: u8 = 6;
/// The most entries of a tree page.
pub const ENTRIES: usize = 10;

const WORD: [u8; 4] = *b"UBT1";

#[derive(Clone, Copy, PartialEq, Eq, Debug)]
pub struct Header {
    pub kind: u8,
    pub n: u8,
    pub p: u8,
    pub height: u8,
    pub root: u16,
    pub total: u32,
}

impl Header {
    pub fn encode(&self) -> Page {
        let mut page = [0; PAGE];
        page[0..4].copy_from_slice(&WORD);
        page[4] = self.kind;
        page[5] = self.n;
        page[6] = self.p;
        page[7] = self.height;
        page[8..10].copy_from_slice(&self.root.to_le_bytes());
        page[12..16].copy_from_slice(&self.total.to_le_bytes());
        page
    }

    /// None where the page is no header as laid out.
    pub fn decode(page: &Page) -> Option<Header> {
        let header = Header {
            kind: page[4],
            n: page[5],
            p: page[6],
            height: page[7],
            root: u16::from_le_bytes([page[8], page[9]]),
            total: u32::from_le_bytes([page[12], page[13], page[14], page[15]]),
        };
        let ranges =
            header.kind >= 1 && (1..=4).contains(&header.n) && (1..=15).contains(&header.p) && header.height <= HIGHEST;
        let zeros = zero(&page[10..12]) && zero(&page[16..]);
        let empty = [header.height == 0, header.root == 0, header.total == 0];
        let one_of_two = empty == [true; 3] || empty == [false; 3];
        (page[0..4] == WORD && ranges && zeros && one_of_two).then_some(header)
    }
}

#[derive(Clone, Copy, PartialEq, Eq, Debug)]
pub struct Entry {
    pub key: u64,
    pub value: u16,
}

#[derive(Clone, PartialEq, Eq, Debug)]
pub struct TreePage {
    pub level: u8,
    pub number: u16,
    pub entries: Vec<Entry>,
}

impl TreePage {
    pub fn encode(&self) -> Page {
        assert!((1..=ENTRIES).contains(&self.entries.len()), "a page of {} entries", self.entries.len());
        let mut page = [0; PAGE];
        page[0] = self.level;
        page[1] = self.entries.len() as u8;
        page[2..4].copy_from_slice(&self.number.to_le_bytes());
        for (i, entry) in self.entries.iter().enumerate() {
            let at = 8 + 12 * i;
            page[at..at + 8].copy_from_slice(&entry.key.to_le_bytes());
            page[at + 8..at + 10].copy_from_slice(&entry.value.to_le_bytes());
        }
        page
    }

    /// None where there are not 1 to 10 entries, or a byte that has to be zero is not.
    pub fn decode(page: &Page) -> Option<TreePage> {
        let count = page[1] as usize;
        if !(1..=ENTRIES).contains(&count) || !zero(&page[4..8]) || !zero(&page[8 + 12 * count..]) {
            return None;
        }
        let mut entries = Vec::new();
        for i in 0..count {
            let entry = &page[8 + 12 * i..20 + 12 * i];
            if !zero(&entry[10..12]) {
                return None;
            }
            entries.push(Entry {
                key: u64::from_le_bytes(entry[0..8].try_into().expect("8 bytes")),
                value: u16::from_le_bytes([entry[8], entry[9]]),
            });
        }
        let (level, number) = level_and_number(page);
        Some(TreePage { level, number, entries })
    }
}

/// What a tree page says of itself.
pub fn level_and_number(page: &Page) -> (u8, u16) {
    (page[0], u16::from_le_bytes([page[2], page[3]]))
}

fn zero(bytes: &[u8]) -> bool {
    bytes.iter().all(|&b| b == 0)
}
