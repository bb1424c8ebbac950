//! What the scripts of many seeds cover, counted on what they print.

use std::collections::BTreeMap;

use super::Script;

#[derive(Default)]
pub struct Census {
    scripts: u64,
    lines: u64,
    images: u64,
    least: usize,
    most: usize,
    counts: BTreeMap<String, u64>,
}

impl Census {
    pub fn add(&mut self, script: &Script) {
        let lines = script.text.iter().filter(|&&b| b == b'\n').count();
        self.least = if self.scripts == 0 { lines } else { self.least.min(lines) };
        self.most = self.most.max(lines);
        self.scripts += 1;
        self.lines += lines as u64;
        self.images += script.images.len() as u64;
        self.count(format!("stack {}", script.stack));
        script.notes.iter().for_each(|note| self.count(note.clone()));
        for line in String::from_utf8_lossy(&script.answers).lines() {
            if let Some((command, answer)) = line.rsplit_once(" -> ") {
                self.answer(command, answer);
            }
        }
    }

    fn count(&mut self, what: String) {
        *self.counts.entry(what).or_insert(0) += 1;
    }

    fn answer(&mut self, command: &str, answer: &str) {
        let call = command.split(' ').next().unwrap_or("");
        if let Some(reason) = answer.strip_prefix("not understood: ") {
            return self.count(format!("not understood: {reason}"));
        }
        if let Some(refusal) = answer.strip_prefix("refused ") {
            return self.refusal(call, refusal);
        }
        if call == "search" {
            let ending = answer.split([' ', ',']).next().unwrap_or("");
            let resumed = if command.contains(" from ") { " from an address" } else { "" };
            return self.count(format!("search {ending}{resumed}"));
        }
        if answer.starts_with("cannot read") {
            return self.count("cannot read".to_string());
        }
        self.count(format!("accepted {call}"));
    }

    fn refusal(&mut self, call: &str, refusal: &str) {
        let number = refusal.split([' ', ':']).next().unwrap_or("");
        self.count(format!("refused {number:0>2}"));
        self.count(format!("refused {number:0>2} {call}"));
        if let Some((_, rest)) = refusal.split_once("rule ") {
            self.count(format!("refused 12, rule {}", &rest[..1]));
        }
    }

    pub fn text(&self) -> String {
        let mut text = format!(
            "{} scripts, {} lines, {} to {} in one, {} images\n",
            self.scripts, self.lines, self.least, self.most, self.images
        );
        for (what, count) in &self.counts {
            text += &format!("{count:8} {what}\n");
        }
        text
    }
}
