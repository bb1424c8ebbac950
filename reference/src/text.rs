//! Refusals, their numbers, and how they are told.

/// What a store answers where it refuses an access.
#[derive(Clone, Copy, PartialEq, Eq, Debug)]
pub enum Fault {
    Absent,
    Uncharged,
}

impl Fault {
    pub fn text(self) -> &'static str {
        match self {
            Fault::Absent => "absent",
            Fault::Uncharged => "uncharged",
        }
    }
}

/// The rules of a sound tree.
#[derive(Clone, Copy, PartialEq, Eq, Debug)]
pub enum Rule {
    A,
    B,
    C,
    D,
    E,
    F,
}

/// The seventeen refusals, in the order of their numbers. A level is that of the page asked for, 0 for the header.
#[derive(Clone, Copy, PartialEq, Eq, Debug)]
pub enum Refusal {
    SpaceRange,
    Slots,
    BadPages,
    BoxEnds,
    Shut,
    Outside,
    Work,
    Absent { page: u16, level: u8 },
    Unread { page: u16, level: u8 },
    NoHeader,
    OtherOrder,
    Unsound { page: u16, rule: Rule },
    NoEvent,
    CountFull,
    HeightFull,
    Room,
    Unwritten { page: u16, level: u8 },
}

impl Refusal {
    pub fn number(&self) -> u8 {
        match self {
            Refusal::SpaceRange => 1,
            Refusal::Slots => 2,
            Refusal::BadPages => 3,
            Refusal::BoxEnds => 4,
            Refusal::Shut => 5,
            Refusal::Outside => 6,
            Refusal::Work => 7,
            Refusal::Absent { .. } => 8,
            Refusal::Unread { .. } => 9,
            Refusal::NoHeader => 10,
            Refusal::OtherOrder => 11,
            Refusal::Unsound { .. } => 12,
            Refusal::NoEvent => 13,
            Refusal::CountFull => 14,
            Refusal::HeightFull => 15,
            Refusal::Room => 16,
            Refusal::Unwritten { .. } => 17,
        }
    }

    fn words(&self) -> &'static str {
        match self {
            Refusal::SpaceRange => "a space has 1 to 4 coordinates of 1 to 15 bits",
            Refusal::Slots => {
                "a slot store has 1 to 1024 pages and more slots than pages, each page in one slot at most"
            }
            Refusal::BadPages => "a skip list has 1 to 64 pages of the store below, strictly rising",
            Refusal::BoxEnds => "a low end lies above its high end",
            Refusal::Shut => "the index is shut",
            Refusal::Outside => "the point lies outside the space",
            Refusal::Work => "an opening needs 64 work records",
            Refusal::Absent { .. } => "the store has no such page",
            Refusal::Unread { .. } => "the charge does not carry the read",
            Refusal::NoHeader => "page 1 is no header",
            Refusal::OtherOrder => "the header is of another order",
            Refusal::Unsound { rule, .. } => match rule {
                Rule::A => "a page number is no usable page, or is reached twice",
                Rule::B => "a page does not say its own number or level",
                Rule::C => "a page has not 1 to 10 entries, or bytes that should be zero are not",
                Rule::D => "a leaf's keys do not rise inside its region, or a count is 0",
                Rule::E => "an inner page's keys do not rise inside its region, or the last is not 0",
                Rule::F => "the counts do not sum to the total, or fewer than 6 pages are free",
            },
            Refusal::NoEvent => "the point has no event",
            Refusal::CountFull => "the count is at its greatest",
            Refusal::HeightFull => "the tree would rise above 6 levels",
            Refusal::Room => "too few free pages",
            Refusal::Unwritten { .. } => "the charge does not carry the write",
        }
    }

    /// The values that are told with the number.
    fn values(&self) -> String {
        match self {
            Refusal::Absent { page, level } => {
                format!(" page {page} level {level} {}", Fault::Absent.text())
            }
            Refusal::Unread { page, level } | Refusal::Unwritten { page, level } => {
                format!(" page {page} level {level} {}", Fault::Uncharged.text())
            }
            Refusal::Unsound { page, rule } => format!(" page {page} rule {rule:?}"),
            _ => String::new(),
        }
    }

    pub fn text(&self) -> String {
        format!("refused {}{}: {}", self.number(), self.values(), self.words())
    }
}
