//! A script being written: each line is run at once, so that the next can follow from its answer.

use std::cell::RefCell;
use std::collections::HashMap;
use std::rc::Rc;

use super::random::Random;
use super::Script;
use crate::order::{Order, Point};
use crate::session::Session;

type Files = Rc<RefCell<HashMap<Vec<u8>, Vec<u8>>>>;

pub struct Writer {
    pub random: Random,
    pub session: Session,
    /// The points that were lodged and not withdrawn, as far as the answers told it; a point with two events stands twice.
    pub events: Vec<Point>,
    /// Lines written so far.
    pub lines: usize,
    /// What stands: a store and its layers.
    pub stack: Vec<&'static str>,
    seed: u64,
    text: Vec<u8>,
    answers: Vec<u8>,
    images: Vec<(String, Vec<u8>)>,
    files: Files,
    notes: Vec<String>,
}

impl Writer {
    pub fn new(seed: u64) -> Writer {
        let files = Files::default();
        let lent = files.clone();
        Writer {
            random: Random::new(seed),
            session: Session::new(move |name| lent.borrow().get(name).cloned()),
            events: Vec::new(),
            lines: 0,
            stack: vec!["default"],
            seed,
            text: Vec::new(),
            answers: Vec::new(),
            images: Vec::new(),
            files,
            notes: Vec::new(),
        }
    }

    /// Writes a line, runs it, and answers what it printed behind ` -> `.
    pub fn say(&mut self, line: impl AsRef<[u8]>) -> String {
        let line = line.as_ref();
        assert!(!line.contains(&b'\n'));
        self.text.extend_from_slice(line);
        self.text.push(b'\n');
        self.lines += 1;
        // A carriage return before the line feed belongs to the end of the line.
        let before = self.known();
        let printed = self.session.line(line.strip_suffix(b"\r").unwrap_or(line));
        self.note(line, before);
        self.answers.extend_from_slice(&printed);
        let text = String::from_utf8_lossy(&printed).into_owned();
        text.rsplit_once(" -> ").map_or(String::new(), |(_, answer)| answer.trim_end().to_string())
    }

    /// The height of an open index, and how many pages are free.
    fn known(&self) -> Option<(u8, usize)> {
        self.session.index()?.known().map(|known| (known.height, known.free.len()))
    }

    /// Notes an opening's height, and how a lodge or withdrawal changed the tree's pages.
    fn note(&mut self, line: &[u8], before: Option<(u8, usize)>) {
        let Some((height, free)) = self.known() else { return };
        let call = String::from_utf8_lossy(line).split(' ').next().unwrap_or("").to_string();
        match before {
            None => self.notes.push(format!("opened at height {height}")),
            Some((was, had)) if had != free => {
                let pages = had as i64 - free as i64;
                self.notes.push(format!("{call} at height {was}: {pages:+} pages, height {height}"));
            }
            _ => {}
        }
    }

    /// Names the bytes as a file that lies beside the script.
    pub fn image(&mut self, bytes: Vec<u8>) -> String {
        let name = format!("{}-{}.img", self.seed, self.images.len() + 1);
        self.files.borrow_mut().insert(name.clone().into_bytes(), bytes.clone());
        self.images.push((name.clone(), bytes));
        name
    }

    pub fn order(&self) -> Order {
        *self.session.order()
    }

    pub fn open(&self) -> bool {
        self.session.index().is_some_and(|index| index.known().is_some())
    }

    pub fn height(&self) -> u64 {
        self.session.index().and_then(|index| index.known()).map_or(0, |known| u64::from(known.height))
    }

    pub fn charge(&self) -> u64 {
        self.session.store().charge().into()
    }

    pub fn done(mut self) -> Script {
        if self.random.percent(1) {
            // A byte that makes the script no text.
            let at = self.random.below(self.text.len());
            self.text.insert(at, 0xff);
        }
        Script {
            seed: self.seed,
            text: self.text,
            images: self.images,
            answers: self.answers,
            stack: self.stack.join(" "),
            notes: self.notes,
        }
    }
}

/// A point as its n coordinates, or all four.
pub fn point_words(order: &Order, point: &Point, four: bool) -> String {
    let n = if four { 4 } else { order.space.n as usize };
    point[..n].iter().map(u16::to_string).collect::<Vec<_>>().join(" ")
}
