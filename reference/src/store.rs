//! Page stores: the memory store and the slot store.

use crate::text::{Fault, Refusal};

pub const PAGE: usize = 128;
pub const SLOT: usize = 130;
/// The most pages of a slot store and of a skip layer, and the most that an index uses.
pub const MOST: u16 = 1024;

pub type Page = [u8; PAGE];

/// The four calls of a store, and three looks at it that are no calls and spend nothing.
pub trait Store {
    fn size(&self) -> u16;
    fn read(&mut self, page: u16) -> Result<Page, Fault>;
    fn write(&mut self, page: u16, bytes: &Page) -> Result<(), Fault>;
    fn grant(&mut self, charge: u32);

    fn charge(&self) -> u32;
    fn peek(&self, page: u16) -> Option<Page>;
    /// The lent memory at the bottom.
    fn lent(&self) -> &[u8];
}

impl<S: Store + ?Sized> Store for Box<S> {
    fn size(&self) -> u16 {
        (**self).size()
    }
    fn read(&mut self, page: u16) -> Result<Page, Fault> {
        (**self).read(page)
    }
    fn write(&mut self, page: u16, bytes: &Page) -> Result<(), Fault> {
        (**self).write(page, bytes)
    }
    fn grant(&mut self, charge: u32) {
        (**self).grant(charge)
    }
    fn charge(&self) -> u32 {
        (**self).charge()
    }
    fn peek(&self, page: u16) -> Option<Page> {
        (**self).peek(page)
    }
    fn lent(&self) -> &[u8] {
        (**self).lent()
    }
}

/// Absent first, then uncharged; an access that is carried takes one from the charge.
fn access(page: u16, size: u16, charge: &mut u32) -> Result<(), Fault> {
    if page == 0 || page > size {
        return Err(Fault::Absent);
    }
    if *charge == 0 {
        return Err(Fault::Uncharged);
    }
    *charge -= 1;
    Ok(())
}

fn page_at(bytes: &[u8], at: usize) -> Page {
    bytes[at..at + PAGE].try_into().expect("128 bytes")
}

/// Page k is bytes (k − 1)·128 to k·128 − 1 of the lent bytes.
pub struct Memory {
    bytes: Vec<u8>,
    charge: u32,
}

impl Memory {
    pub fn new(bytes: Vec<u8>) -> Memory {
        Memory { bytes, charge: 0 }
    }

    fn at(page: u16) -> usize {
        (page as usize - 1) * PAGE
    }
}

impl Store for Memory {
    fn size(&self) -> u16 {
        (self.bytes.len() / PAGE).min(65_535) as u16
    }

    fn read(&mut self, page: u16) -> Result<Page, Fault> {
        access(page, self.size(), &mut self.charge)?;
        Ok(page_at(&self.bytes, Memory::at(page)))
    }

    fn write(&mut self, page: u16, bytes: &Page) -> Result<(), Fault> {
        access(page, self.size(), &mut self.charge)?;
        let at = Memory::at(page);
        self.bytes[at..at + PAGE].copy_from_slice(bytes);
        Ok(())
    }

    fn grant(&mut self, charge: u32) {
        self.charge = charge;
    }

    fn charge(&self) -> u32 {
        self.charge
    }

    fn peek(&self, page: u16) -> Option<Page> {
        (1..=self.size()).contains(&page).then(|| page_at(&self.bytes, Memory::at(page)))
    }

    fn lent(&self) -> &[u8] {
        &self.bytes
    }
}

/// The number of the page in a slot, slots counted from 1.
fn slot_number(bytes: &[u8], slot: usize) -> u16 {
    let at = (slot - 1) * SLOT;
    u16::from_le_bytes([bytes[at], bytes[at + 1]])
}

/// 2: 1 to 1,024 pages, more slots than pages, and among the slots that the store uses no number above the pages and none
/// but 0 twice.
pub fn slots_allowed(bytes: &[u8], pages: u16) -> Result<(), Refusal> {
    if !(1..=MOST).contains(&pages) || bytes.len() / SLOT <= pages as usize {
        return Err(Refusal::Slots);
    }
    let numbers: Vec<u16> = (1..=pages as usize + 1).map(|s| slot_number(bytes, s)).collect();
    for (i, &number) in numbers.iter().enumerate() {
        if number > pages || (number != 0 && numbers[..i].contains(&number)) {
            return Err(Refusal::Slots);
        }
    }
    Ok(())
}

/// A page lies in a slot that has its number; a page without a slot reads as zeros.
pub struct Slots {
    bytes: Vec<u8>,
    pages: u16,
    /// Free slots, front first.
    free: Vec<usize>,
    charge: u32,
}

impl Slots {
    /// Has no page where `slots_allowed` says no.
    pub fn new(bytes: Vec<u8>, pages: u16) -> Slots {
        if slots_allowed(&bytes, pages).is_err() {
            return Slots { bytes, pages: 0, free: Vec::new(), charge: 0 };
        }
        let free = (1..=pages as usize + 1).filter(|&s| slot_number(&bytes, s) == 0).collect();
        Slots { bytes, pages, free, charge: 0 }
    }

    fn slot_of(&self, page: u16) -> Option<usize> {
        (1..=self.pages as usize + 1).find(|&s| slot_number(&self.bytes, s) == page)
    }

    fn set_number(&mut self, slot: usize, number: u16) {
        let at = (slot - 1) * SLOT;
        self.bytes[at..at + 2].copy_from_slice(&number.to_le_bytes());
    }

    fn page(&self, page: u16) -> Page {
        match self.slot_of(page) {
            Some(slot) => page_at(&self.bytes, (slot - 1) * SLOT + 2),
            None => [0; PAGE],
        }
    }
}

impl Store for Slots {
    fn size(&self) -> u16 {
        self.pages
    }

    fn read(&mut self, page: u16) -> Result<Page, Fault> {
        access(page, self.pages, &mut self.charge)?;
        Ok(self.page(page))
    }

    /// Fills and numbers the front free slot; then frees the page's old slot, to the front.
    fn write(&mut self, page: u16, bytes: &Page) -> Result<(), Fault> {
        access(page, self.pages, &mut self.charge)?;
        let old = self.slot_of(page);
        let new = self.free.remove(0);
        let at = (new - 1) * SLOT;
        self.bytes[at + 2..at + SLOT].copy_from_slice(bytes);
        self.set_number(new, page);
        if let Some(slot) = old {
            self.set_number(slot, 0);
            self.free.insert(0, slot);
        }
        Ok(())
    }

    fn grant(&mut self, charge: u32) {
        self.charge = charge;
    }

    fn charge(&self) -> u32 {
        self.charge
    }

    fn peek(&self, page: u16) -> Option<Page> {
        (1..=self.pages).contains(&page).then(|| self.page(page))
    }

    fn lent(&self) -> &[u8] {
        &self.bytes
    }
}
