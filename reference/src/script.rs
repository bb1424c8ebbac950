//! The words of the script language: what a line says, before anything is done.

use crate::order::{Kind, Order, Point, QueryBox};
use crate::text::Refusal;

/// Why a line is not understood.
#[derive(Clone, Copy, PartialEq, Eq, Debug)]
pub enum Reason {
    NoCommand,
    Words,
    Number,
    OutOfOrder,
    Layers,
}

impl Reason {
    pub fn text(self) -> &'static str {
        match self {
            Reason::NoCommand => "no such command",
            Reason::Words => "wrong number of words",
            Reason::Number => "a number is missing or does not fit",
            Reason::OutOfOrder => "a set-up line out of its order",
            Reason::Layers => "at most two layers",
        }
    }
}

pub type Word = Vec<u8>;

#[derive(Clone, PartialEq, Eq, Debug)]
pub enum StoreLine {
    Memory { pages: u16, byte: u8 },
    Image { file: Word },
    Slot { pages: u16 },
    SlotImage { pages: u16, file: Word },
}

#[derive(Clone, PartialEq, Eq, Debug)]
pub enum LayerLine {
    Turned,
    Skip { bad: Vec<u16> },
}

type MaybeBox = Result<QueryBox, Refusal>;

#[derive(Clone, PartialEq, Eq, Debug)]
pub enum Line {
    Order { kind: Kind, n: u8, p: u8 },
    Store(StoreLine),
    Layer(LayerLine),
    Dump,
    Save { file: Word },
    Address(Point),
    Point(u64),
    First { b: MaybeBox, from: u64 },
    Grant(u32),
    Format,
    Shut,
    Open { work: u32 },
    Lodge(Point),
    Withdraw(Point),
    Tally(Point),
    Search { b: MaybeBox, start: u64, room: u32 },
    Read(u16),
    Write { page: u16, byte: u8 },
}

/// The words of a line; none for a line that is passed over. A `#` counts only as the first character.
pub fn words(line: &[u8]) -> Vec<Word> {
    if line.first() == Some(&b'#') {
        return Vec::new();
    }
    line.split(|&b| b == b' ').filter(|w| !w.is_empty()).map(|w| w.to_vec()).collect()
}

/// What a line of one word or more says, where points have the coordinates of `order`.
pub fn understand(words: &[Word], order: &Order) -> Result<Line, Reason> {
    let n = order.space.n as usize;
    let rest = &words[1..];
    match words[0].as_slice() {
        b"order" => order_line(rest),
        b"store" => store_line(rest).map(Line::Store),
        b"layer" => layer_line(rest).map(Line::Layer),
        b"dump" => none(rest).map(|()| Line::Dump),
        b"save" => Ok(Line::Save { file: one(rest)?.clone() }),
        b"address" => point(rest, n).map(Line::Address),
        b"point" => number(one(rest)?).map(Line::Point),
        b"first" => first_line(rest, n),
        b"grant" => fits(one(rest)?).map(Line::Grant),
        b"format" => none(rest).map(|()| Line::Format),
        b"shut" => none(rest).map(|()| Line::Shut),
        b"open" => open_line(rest),
        b"lodge" => point(rest, n).map(Line::Lodge),
        b"withdraw" => point(rest, n).map(Line::Withdraw),
        b"tally" => point(rest, n).map(Line::Tally),
        b"search" => search_line(rest, n),
        b"read" => fits(one(rest)?).map(Line::Read),
        b"write" => match rest {
            [page, byte] => Ok(Line::Write { page: fits(page)?, byte: fits(byte)? }),
            _ => Err(Reason::Words),
        },
        _ => Err(Reason::NoCommand),
    }
}

/// Digits alone, at most 64 bits.
fn number(word: &Word) -> Result<u64, Reason> {
    if word.is_empty() || !word.iter().all(u8::is_ascii_digit) {
        return Err(Reason::Number);
    }
    let mut value = 0u64;
    for digit in word {
        let ten = value.checked_mul(10).ok_or(Reason::Number)?;
        value = ten.checked_add(u64::from(digit - b'0')).ok_or(Reason::Number)?;
    }
    Ok(value)
}

fn fits<T: TryFrom<u64>>(word: &Word) -> Result<T, Reason> {
    T::try_from(number(word)?).map_err(|_| Reason::Number)
}

fn none(words: &[Word]) -> Result<(), Reason> {
    if words.is_empty() {
        Ok(())
    } else {
        Err(Reason::Words)
    }
}

fn one(words: &[Word]) -> Result<&Word, Reason> {
    match words {
        [word] => Ok(word),
        _ => Err(Reason::Words),
    }
}

/// n coordinates or four.
fn point(words: &[Word], n: usize) -> Result<Point, Reason> {
    if words.len() != n && words.len() != 4 {
        return Err(Reason::Words);
    }
    let mut point = [0; 4];
    for (j, word) in words.iter().enumerate() {
        point[j] = fits(word)?;
    }
    Ok(point)
}

/// Twice n coordinates, or eight.
fn query_box(words: &[Word], n: usize) -> Result<MaybeBox, Reason> {
    if words.len() != 2 * n && words.len() != 8 {
        return Err(Reason::Words);
    }
    let (low, high) = words.split_at(words.len() / 2);
    Ok(QueryBox::new(point(low, n)?, point(high, n)?))
}

/// Takes a trailing `name NUMBER` off.
fn trailing<'a>(words: &'a [Word], name: &str) -> (&'a [Word], Option<&'a Word>) {
    match words {
        [before @ .., word, value] if word == name.as_bytes() => (before, Some(value)),
        _ => (words, None),
    }
}

fn order_line(rest: &[Word]) -> Result<Line, Reason> {
    let [kind, n, p] = rest else { return Err(Reason::Words) };
    let kind = match kind.as_slice() {
        b"z" => Kind::Z,
        b"row" => Kind::Row,
        _ => return Err(Reason::NoCommand),
    };
    Ok(Line::Order { kind, n: fits(n)?, p: fits(p)? })
}

fn store_line(rest: &[Word]) -> Result<StoreLine, Reason> {
    let (kind, rest) = rest.split_first().ok_or(Reason::Words)?;
    match kind.as_slice() {
        b"memory" => memory_line(rest),
        b"image" => Ok(StoreLine::Image { file: one(rest)?.clone() }),
        b"slot" => slot_line(rest),
        _ => Err(Reason::NoCommand),
    }
}

fn memory_line(rest: &[Word]) -> Result<StoreLine, Reason> {
    match rest {
        [pages] => Ok(StoreLine::Memory { pages: fits(pages)?, byte: 0 }),
        [pages, erased, byte] => {
            if erased != b"erased" {
                return Err(Reason::NoCommand);
            }
            let pages = fits(pages)?;
            if number(byte)? != 255 {
                return Err(Reason::Number);
            }
            Ok(StoreLine::Memory { pages, byte: 255 })
        }
        _ => Err(Reason::Words),
    }
}

fn slot_line(rest: &[Word]) -> Result<StoreLine, Reason> {
    match rest {
        [pages] => Ok(StoreLine::Slot { pages: fits(pages)? }),
        [pages, image, file] => {
            if image != b"image" {
                return Err(Reason::NoCommand);
            }
            Ok(StoreLine::SlotImage { pages: fits(pages)?, file: file.clone() })
        }
        _ => Err(Reason::Words),
    }
}

fn layer_line(rest: &[Word]) -> Result<LayerLine, Reason> {
    let (kind, rest) = rest.split_first().ok_or(Reason::Words)?;
    match kind.as_slice() {
        b"turned" => none(rest).map(|()| LayerLine::Turned),
        b"skip" => {
            let bad = rest.iter().map(fits).collect::<Result<Vec<u16>, Reason>>()?;
            Ok(LayerLine::Skip { bad })
        }
        _ => Err(Reason::NoCommand),
    }
}

fn open_line(rest: &[Word]) -> Result<Line, Reason> {
    match rest {
        [] => Ok(Line::Open { work: 64 }),
        [work, records] => {
            if work != b"work" {
                return Err(Reason::NoCommand);
            }
            Ok(Line::Open { work: fits(records)? })
        }
        _ => Err(Reason::Words),
    }
}

fn first_line(rest: &[Word], n: usize) -> Result<Line, Reason> {
    let (b, from) = trailing(rest, "from");
    let from = number(from.ok_or(Reason::Words)?)?;
    Ok(Line::First { b: query_box(b, n)?, from })
}

/// Where they are left out, a search begins at 0 and has room for 1,000 finds.
fn search_line(rest: &[Word], n: usize) -> Result<Line, Reason> {
    let (rest, room) = trailing(rest, "room");
    let (b, start) = trailing(rest, "from");
    let room = room.map_or(Ok(1000), fits)?;
    let start = start.map_or(Ok(0), number)?;
    Ok(Line::Search { b: query_box(b, n)?, start, room })
}
