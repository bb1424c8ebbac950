//! Layers: stores over a store.

use crate::store::{Page, Store, MOST};
use crate::text::{Fault, Refusal};

/// Byte b is kept below as 255 − b.
pub struct Turned<S> {
    below: S,
}

fn turn(bytes: &Page) -> Page {
    bytes.map(|b| 255 - b)
}

impl<S: Store> Turned<S> {
    pub fn new(below: S) -> Turned<S> {
        Turned { below }
    }

    pub fn into_below(self) -> S {
        self.below
    }
}

impl<S: Store> Store for Turned<S> {
    fn size(&self) -> u16 {
        self.below.size()
    }

    fn read(&mut self, page: u16) -> Result<Page, Fault> {
        self.below.read(page).map(|bytes| turn(&bytes))
    }

    fn write(&mut self, page: u16, bytes: &Page) -> Result<(), Fault> {
        self.below.write(page, &turn(bytes))
    }

    fn grant(&mut self, charge: u32) {
        self.below.grant(charge)
    }

    fn charge(&self) -> u32 {
        self.below.charge()
    }

    fn peek(&self, page: u16) -> Option<Page> {
        self.below.peek(page).map(|bytes| turn(&bytes))
    }

    fn lent(&self) -> &[u8] {
        self.below.lent()
    }
}

/// 3: 1 to 64 numbers, strictly rising, all of them pages of the store below.
pub fn skip_allowed(bad: &[u16], size: u16) -> Result<(), Refusal> {
    let rising = bad.windows(2).all(|w| w[0] < w[1]);
    let pages = bad.iter().all(|&b| 1 <= b && b <= size);
    if bad.is_empty() || bad.len() > 64 || !rising || !pages {
        return Err(Refusal::BadPages);
    }
    Ok(())
}

/// Leaves out the bad pages of the store below.
pub struct Skip<S> {
    below: S,
    /// Page k of the layer is page `good[k − 1]` below.
    good: Vec<u16>,
}

impl<S: Store> Skip<S> {
    /// Has no page where `skip_allowed` says no.
    pub fn new(below: S, bad: &[u16]) -> Skip<S> {
        let size = below.size();
        let good = if skip_allowed(bad, size).is_ok() {
            (1..=size).filter(|page| !bad.contains(page)).take(MOST as usize).collect()
        } else {
            Vec::new()
        };
        Skip { below, good }
    }

    pub fn into_below(self) -> S {
        self.below
    }

    fn page_below(&self, page: u16) -> Result<u16, Fault> {
        let place = (page as usize).checked_sub(1).ok_or(Fault::Absent)?;
        self.good.get(place).copied().ok_or(Fault::Absent)
    }
}

impl<S: Store> Store for Skip<S> {
    fn size(&self) -> u16 {
        self.good.len() as u16
    }

    fn read(&mut self, page: u16) -> Result<Page, Fault> {
        let page = self.page_below(page)?;
        self.below.read(page)
    }

    fn write(&mut self, page: u16, bytes: &Page) -> Result<(), Fault> {
        let page = self.page_below(page)?;
        self.below.write(page, bytes)
    }

    fn grant(&mut self, charge: u32) {
        self.below.grant(charge)
    }

    fn charge(&self) -> u32 {
        self.below.charge()
    }

    fn peek(&self, page: u16) -> Option<Page> {
        self.below.peek(self.page_below(page).ok()?)
    }

    fn lent(&self) -> &[u8] {
        self.below.lent()
    }
}
