//! Times the proved index beside other programs that do the same work, in one run, and prints a table.

mod map;
mod order;
mod plain;
mod proved;
mod second;
mod subject;
mod tree;
mod work;

use plain::{PlainMap, PlainTree};
use proved::Proved;
use second::Second;
use std::time::Duration;
use subject::{Measured, Subject};
use work::{Space, Work, work};

/// One operation of one program: its answers must be the same in every program and every round.
struct Row {
    operation: &'static str,
    calls: usize,
    times: Vec<Duration>,
    answer: u64,
    accesses: Option<u64>,
}

fn note(rows: &mut Vec<Row>, operation: &'static str, calls: usize, measured: Measured) {
    let Measured { time, answer, accesses } = measured;
    match rows.iter_mut().find(|row| row.operation == operation) {
        Some(row) => {
            assert_eq!((row.answer, row.accesses), (answer, accesses), "{operation} in two rounds");
            row.times.push(time);
        }
        None => rows.push(Row { operation, calls, times: vec![time], answer, accesses }),
    }
}

/// One round of all operations.
fn round<S: Subject>(work: &Work, rows: &mut Vec<Row>) {
    let mut subject = S::format(work.space);
    note(rows, "lodge", work.events.len(), subject.lodge_all(&work.events));
    note(rows, "tally", work.asked.len(), subject.tally_all(&work.asked));
    for (name, boxes) in &work.boxes {
        note(rows, name, boxes.len(), subject.search_all(boxes));
    }
    if let Some(time) = subject.open() {
        note(rows, "open", 1, Measured { time, answer: 0, accesses: None });
    }
}

impl Row {
    /// The median time of a call, in nanoseconds.
    fn nanoseconds(&self) -> f64 {
        let mut times = self.times.clone();
        times.sort();
        times[times.len() / 2].as_nanos() as f64 / self.calls as f64
    }

    fn accesses_per_call(&self) -> Option<f64> {
        self.accesses.map(|n| n as f64 / self.calls as f64)
    }
}

fn time(row: Option<&Row>) -> String {
    row.map_or("".into(), |row| format!("{:.0}", row.nanoseconds()))
}

fn ratio(ours: &Row, other: Option<&Row>) -> String {
    other.map_or("".into(), |row| format!("{:.2}", ours.nanoseconds() / row.nanoseconds()))
}

/// The others' rows of the same operation. All programs must give the same answer, and make the same page accesses where they make any.
fn beside<'a>(ours: &'a Row, others: [&'a [Row]; 3]) -> [Option<&'a Row>; 3] {
    let rows = others.map(|rows| rows.iter().find(|row| row.operation == ours.operation));
    let mut accesses = ours.accesses;
    for row in rows.iter().flatten() {
        assert_eq!(ours.answer, row.answer, "{}: two programs answer differently", ours.operation);
        accesses = accesses.or(row.accesses);
        assert!(
            row.accesses.is_none() || row.accesses == accesses,
            "{}: two programs make different page accesses",
            ours.operation
        );
    }
    rows
}

fn print_row(ours: &Row, others: [Option<&Row>; 3]) {
    let [second, tree, map] = others;
    let accesses = ours.accesses_per_call().or(second.and_then(Row::accesses_per_call));
    let finds = if ours.operation.starts_with("search") {
        format!("{:.1}", ours.answer as f64 / ours.calls as f64)
    } else {
        "".into()
    };
    println!(
        "| {} | {} | {finds} | {} | {} | {} | {} | {} | {} | {} |",
        ours.operation,
        accesses.map_or("".into(), |a| format!("{a:.1}")),
        time(Some(ours)),
        time(second),
        time(tree),
        time(map),
        ratio(ours, second),
        ratio(ours, tree),
        ratio(ours, map),
    );
}

fn compare(work: &Work, rounds: usize) {
    let (mut ours, mut second, mut tree, mut map) = (vec![], vec![], vec![], vec![]);
    for _ in 0..rounds {
        round::<Proved>(work, &mut ours);
        round::<Second>(work, &mut second);
        round::<PlainTree>(work, &mut tree);
        round::<PlainMap>(work, &mut map);
    }
    let Space { n, p } = work.space;
    println!(
        "n = {n}, p = {p}; {} events lodged in 1,024 pages; nanoseconds a call, the median of {rounds} rounds\n",
        work.events.len()
    );
    println!(
        "| call | page accesses | finds | index | second program | plain tree | map | index / second | index / tree | index / map |"
    );
    println!("|---|---|---|---|---|---|---|---|---|---|");
    for row in &ours {
        print_row(row, beside(row, [&second, &tree, &map]));
    }
    println!();
}

fn main() {
    let rounds = std::env::args().nth(1).and_then(|word| word.parse().ok()).unwrap_or(15);
    compare(&work(Space { n: 4, p: 15 }, 5000, 8), rounds);
    compare(&work(Space { n: 2, p: 3 }, 5000, 4), rounds);
}
