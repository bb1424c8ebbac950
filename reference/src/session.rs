//! A script at work: set-up lines, calls, and the memory at the end.

use crate::checked::Checked;
use crate::index::{Ending, Found};
use crate::layer::{skip_allowed, Skip, Turned};
use crate::order::{Kind, Order, Point, Space};
use crate::script::{understand, words, LayerLine, Line, Reason, StoreLine, Word};
use crate::store::{slots_allowed, Memory, Slots, Store, PAGE, SLOT};
use crate::text::{Fault, Refusal};

type Pile = Box<dyn Store>;
type ReadFile = Box<dyn Fn(&[u8]) -> Option<Vec<u8>>>;

/// How far the set-up has come: what may still follow.
#[derive(Clone, Copy, PartialEq, Eq, PartialOrd, Ord, Debug)]
enum Stage {
    Start,
    Ordered,
    Stored,
    Layered,
    Calling,
}

enum Last {
    Dump,
    Save { file: Word },
}

/// What is done after the last line.
pub enum AtEnd {
    Print(Vec<u8>),
    Save { file: Word, bytes: Vec<u8> },
}

enum Standing {
    Pile(Pile),
    Index(Checked<Pile>),
    /// Only while a store is being put under a layer, or an index made or taken apart.
    Nothing,
}

pub struct Session {
    read_file: ReadFile,
    order: Order,
    stage: Stage,
    layers: u8,
    slots: bool,
    standing: Standing,
    last: Vec<Last>,
}

fn zeros(pages: u16) -> Pile {
    Box::new(Memory::new(vec![0; pages as usize * PAGE]))
}

fn ok() -> String {
    "ok".to_string()
}

fn told(answer: Result<(), Refusal>) -> String {
    answer.map_or_else(|refusal| refusal.text(), |()| ok())
}

fn faulted(fault: Fault) -> String {
    fault.text().to_string()
}

fn or_none<T: ToString>(answer: Option<T>) -> String {
    answer.map_or("none".to_string(), |a| a.to_string())
}

fn hex(bytes: &[u8]) -> String {
    bytes.iter().map(|b| format!("{b:02x}")).collect()
}

fn point_text(point: &Point, n: u8) -> String {
    let coordinates: Vec<String> = point[..n as usize].iter().map(u16::to_string).collect();
    format!("({})", coordinates.join(", "))
}

fn found_text(found: &Found, n: u8) -> String {
    let ending = match found.ending {
        Ending::Done => "done".to_string(),
        Ending::More { address } => format!("more at {address}"),
        Ending::Cut { page, address } => format!("cut at {address} page {page}"),
    };
    let mut text = format!("{ending}, {} reads, {} finds", found.reads, found.finds.len());
    for find in &found.finds {
        text += &format!("\n    {} {} x{}", find.address, point_text(&find.point, n), find.count);
    }
    text
}

impl Session {
    /// A session begins with the order of a door unit and 1,024 pages. `read_file` gives a file's bytes by its name.
    pub fn new(read_file: impl Fn(&[u8]) -> Option<Vec<u8>> + 'static) -> Session {
        Session {
            read_file: Box::new(read_file),
            order: Order::z(Space::new(4, 15).expect("a space")),
            stage: Stage::Start,
            layers: 0,
            slots: false,
            standing: Standing::Pile(zeros(1024)),
            last: Vec::new(),
        }
    }

    pub fn order(&self) -> &Order {
        &self.order
    }

    pub fn index(&self) -> Option<&crate::index::Index<Pile>> {
        match &self.standing {
            Standing::Index(checked) => Some(checked.index()),
            _ => None,
        }
    }

    pub fn store(&self) -> &dyn Store {
        match &self.standing {
            Standing::Pile(pile) => pile,
            Standing::Index(checked) => checked.index().store(),
            Standing::Nothing => unreachable!("something stands between two lines"),
        }
    }

    /// What a line prints, with a newline at each end of line; nothing for a line that is passed over.
    pub fn line(&mut self, line: &[u8]) -> Vec<u8> {
        let words = words(line);
        if words.is_empty() {
            return Vec::new();
        }
        let answer = match understand(&words, &self.order).and_then(|line| self.set_up_or_call(line)) {
            Ok(answer) => answer,
            Err(reason) => format!("not understood: {}", reason.text()).into_bytes(),
        };
        [&words.join(&b' '), b" -> ".as_slice(), &answer, b"\n"].concat()
    }

    /// What is done after the last line, in the order of the lines that asked for it.
    pub fn end(self) -> Vec<AtEnd> {
        let lent = self.store().lent();
        self.last
            .iter()
            .map(|last| match last {
                Last::Dump => AtEnd::Print(self.dump(lent).into_bytes()),
                Last::Save { file } => AtEnd::Save { file: file.clone(), bytes: lent.to_vec() },
            })
            .collect()
    }

    /// Pages of a memory store, or slots of a slot store, that are not all zeros.
    fn dump(&self, lent: &[u8]) -> String {
        // A memory store has 65,535 pages at most; of slots all are lent.
        let (name, size, most) = if self.slots { ("slot", SLOT, usize::MAX) } else { ("page", PAGE, 65_535) };
        let mut text = String::new();
        for (i, bytes) in lent.chunks_exact(size).take(most).enumerate() {
            if bytes.iter().any(|&b| b != 0) {
                text += &format!("{name} {}: {}\n", i + 1, hex(bytes));
            }
        }
        text
    }

    fn set_up_or_call(&mut self, line: Line) -> Result<Vec<u8>, Reason> {
        match line {
            Line::Order { kind, n, p } => {
                self.in_order(Stage::Start)?;
                Ok(self.set_order(kind, n, p).into_bytes())
            }
            Line::Store(line) => {
                self.in_order(Stage::Ordered)?;
                Ok(self.set_store(line))
            }
            Line::Layer(line) => {
                self.in_order(Stage::Layered)?;
                if self.layers == 2 {
                    return Err(Reason::Layers);
                }
                Ok(self.set_layer(line).into_bytes())
            }
            Line::Dump => {
                self.last.push(Last::Dump);
                Ok(ok().into_bytes())
            }
            Line::Save { file } => {
                self.last.push(Last::Save { file });
                Ok(ok().into_bytes())
            }
            call => Ok(self.call(call).into_bytes()),
        }
    }

    fn in_order(&self, latest: Stage) -> Result<(), Reason> {
        if self.stage > latest {
            return Err(Reason::OutOfOrder);
        }
        Ok(())
    }

    fn set_order(&mut self, kind: Kind, n: u8, p: u8) -> String {
        match Space::new(n, p) {
            Ok(space) => {
                self.order = Order { kind, space };
                self.stage = Stage::Ordered;
                ok()
            }
            Err(refusal) => refusal.text(),
        }
    }

    fn set_store(&mut self, line: StoreLine) -> Vec<u8> {
        let (pile, answer): (Pile, String) = match line {
            StoreLine::Memory { pages, byte } => (Box::new(Memory::new(vec![byte; pages as usize * PAGE])), ok()),
            StoreLine::Image { file } => match (self.read_file)(&file) {
                Some(bytes) => (Box::new(Memory::new(bytes)), ok()),
                None => return [b"cannot read ", file.as_slice()].concat(),
            },
            StoreLine::Slot { pages } => {
                self.slots = true;
                slot_store(vec![0; (pages as usize + 1) * SLOT], pages)
            }
            StoreLine::SlotImage { pages, file } => match (self.read_file)(&file) {
                Some(bytes) => {
                    self.slots = true;
                    slot_store(bytes, pages)
                }
                None => return [b"cannot read ", file.as_slice()].concat(),
            },
        };
        self.standing = Standing::Pile(pile);
        self.stage = Stage::Stored;
        answer.into_bytes()
    }

    fn set_layer(&mut self, line: LayerLine) -> String {
        let Standing::Pile(below) = std::mem::replace(&mut self.standing, Standing::Nothing) else {
            unreachable!("no index stands before a call");
        };
        let answer;
        let pile: Pile = match line {
            LayerLine::Turned => {
                answer = ok();
                Box::new(Turned::new(below))
            }
            LayerLine::Skip { bad } => {
                answer = told(skip_allowed(&bad, below.size()));
                Box::new(Skip::new(below, &bad))
            }
        };
        self.standing = Standing::Pile(pile);
        self.stage = Stage::Layered;
        self.layers += 1;
        answer
    }

    /// The first call makes the index.
    fn made(&mut self) -> &mut Checked<Pile> {
        self.stage = Stage::Calling;
        if let Standing::Pile(_) = self.standing {
            let Standing::Pile(pile) = std::mem::replace(&mut self.standing, Standing::Nothing) else {
                unreachable!("a pile stands");
            };
            self.standing = Standing::Index(Checked::new(pile, self.order));
        }
        match &mut self.standing {
            Standing::Index(checked) => checked,
            _ => unreachable!("an index stands"),
        }
    }

    /// An access past the index leaves it shut.
    fn past<T>(&mut self, written: bool, access: impl FnOnce(&mut Pile) -> T) -> T {
        self.made();
        let Standing::Index(checked) = std::mem::replace(&mut self.standing, Standing::Nothing) else {
            unreachable!("an index stands");
        };
        let (checked, answer) = checked.past(written, access);
        self.standing = Standing::Index(checked);
        answer
    }

    fn call(&mut self, line: Line) -> String {
        let order = self.order;
        let n = order.space.n;
        let index = self.made();
        match line {
            Line::Address(point) => or_none(order.address(&point)),
            Line::Point(address) => or_none(order.point(address).map(|point| point_text(&point, n))),
            Line::First { b, from } => match b {
                Ok(b) => or_none(order.first(&b, from)),
                Err(refusal) => refusal.text(),
            },
            Line::Grant(charge) => {
                index.grant(charge);
                ok()
            }
            Line::Format => told(index.format()),
            Line::Shut => {
                index.shut();
                ok()
            }
            Line::Open { work } => told(index.open(work)),
            Line::Lodge(point) => told(index.lodge(point)),
            Line::Withdraw(point) => told(index.withdraw(point)),
            Line::Tally(point) => {
                index.tally(point).map_or_else(|refusal| refusal.text(), |count| format!("count {count}"))
            }
            Line::Search { b, start, room } => match b.and_then(|b| index.search(&b, start, room)) {
                Ok(found) => found_text(&found, n),
                Err(refusal) => refusal.text(),
            },
            Line::Read(page) => self.past(false, |store| store.read(page)).map_or_else(faulted, |bytes| hex(&bytes)),
            Line::Write { page, byte } => {
                self.past(true, |store| store.write(page, &[byte; PAGE])).map_or_else(faulted, |()| ok())
            }
            Line::Order { .. } | Line::Store(_) | Line::Layer(_) | Line::Dump | Line::Save { .. } => {
                unreachable!("no call")
            }
        }
    }
}

fn slot_store(bytes: Vec<u8>, pages: u16) -> (Pile, String) {
    let answer = told(slots_allowed(&bytes, pages));
    (Box::new(Slots::new(bytes, pages)), answer)
}
