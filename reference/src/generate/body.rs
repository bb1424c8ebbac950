//! The calls of a script.

use super::garbage;
use super::set_up::{Image, Start};
use super::writer::{point_words, Writer};
use crate::order::Point;

/// Writes calls until the script has about so many lines.
pub fn body(w: &mut Writer, start: &Start, lines: usize) {
    match start.image {
        Image::None => begin_blank(w),
        Image::Sound => begin_sound(w, start),
        Image::Damaged => begin_damaged(w, start),
    }
    while w.lines < lines {
        action(w);
    }
    finish(w);
}

fn begin_blank(w: &mut Writer) {
    if w.random.percent(30) {
        few(w, 3);
    }
    if w.random.percent(90) {
        grant_much(w);
        if w.random.percent(30) {
            open(w);
        }
        w.say("format");
        w.events.clear();
    }
}

fn begin_sound(w: &mut Writer, start: &Start) {
    if w.random.percent(25) {
        few(w, 2);
    }
    if w.random.percent(30) {
        open_short(w, start);
    }
    grant_much(w);
    open(w);
    if let Some(point) = start.full.and_then(|address| w.order().point(address)) {
        full(w, point);
    }
}

/// Lodgings in the full leaf, with every charge that a refusal may turn on.
fn full(w: &mut Writer, point: Point) {
    let height = w.height();
    for charge in
        [height.saturating_sub(1), height, height + 1, 2 * height, 2 * height + 1, 3 * height + 1, 3 * height + 2, 100]
    {
        if w.random.percent(40) {
            w.say(format!("grant {charge}"));
            lodge(w, point);
        }
    }
    grant_much(w);
    if w.random.percent(50) {
        search(w);
    }
    if w.random.percent(40) {
        let event = event(w);
        withdraw(w, event);
        lodge(w, point);
    }
}

/// An opening that the charge may not carry.
fn open_short(w: &mut Writer, start: &Start) {
    let charge = if w.random.percent(50) { w.random.between(0, 5) } else { w.random.between(0, start.accesses) };
    w.say(format!("grant {charge}"));
    open(w);
}

fn begin_damaged(w: &mut Writer, start: &Start) {
    for _ in 0..w.random.between(0, 3) {
        open_short(w, start);
    }
    grant_much(w);
    open(w);
    if w.open() {
        return;
    }
    few(w, 3);
    if w.random.percent(70) {
        w.say("format");
        w.events.clear();
    }
}

fn few(w: &mut Writer, most: u64) {
    for _ in 0..w.random.between(1, most) {
        let line = any_line(w);
        w.say(line);
    }
}

fn action(w: &mut Writer) {
    if !w.open() && w.random.percent(60) {
        return reopen(w);
    }
    if w.charge() == 0 && w.random.percent(50) {
        return grant_much(w);
    }
    match w.random.weighted(&[22, 8, 10, 8, 14, 6, 8, 5, 5, 5, 3, 3, 8, 1, 2, 2]) {
        0 => {
            let point = point(w);
            lodge(w, point);
        }
        1 => burst(w),
        2 => {
            let event = event(w);
            withdraw(w, event);
        }
        3 => {
            let point = if w.random.percent(70) { event(w) } else { point(w) };
            one(w, "tally", point);
        }
        4 => search(w),
        5 => resume(w),
        6 => sweep(w),
        7 => questions(w),
        8 => grant_few(w),
        9 => open(w),
        10 => {
            w.say("shut");
        }
        11 => past(w),
        12 => {
            let line = garbage::garbage(w);
            w.say(line);
        }
        13 => {
            if w.say("format") == "ok" {
                w.events.clear();
            }
        }
        14 => clear(w),
        _ => at_end(w),
    }
}

fn reopen(w: &mut Writer) {
    if w.charge() < 50 {
        grant_much(w);
    }
    if w.random.percent(85) {
        open(w);
    }
    if !w.open() && w.random.percent(60) && w.say("format") == "ok" {
        w.events.clear();
    }
}

fn finish(w: &mut Writer) {
    if w.random.percent(70) {
        grant_much(w);
        open(w);
        if w.open() {
            let all = whole(w);
            w.say(format!("search {all}"));
        }
    }
    if w.random.percent(60) {
        at_end(w);
    }
}

fn at_end(w: &mut Writer) {
    let file = w.random.below(3);
    if w.random.percent(60) {
        w.say("dump");
    } else {
        w.say(format!("save out-{file}"));
    }
}

fn grant_much(w: &mut Writer) {
    let charge = match w.random.weighted(&[60, 35, 5]) {
        0 => w.random.between(60, 400),
        1 => 5000,
        _ => 4_294_967_295,
    };
    w.say(format!("grant {charge}"));
}

fn near_cost(w: &mut Writer) -> u64 {
    let height = w.height();
    w.random.between(0, 2 * height + 4)
}

fn grant_few(w: &mut Writer) {
    let charge = near_cost(w);
    w.say(format!("grant {charge}"));
}

fn open(w: &mut Writer) {
    match w.random.weighted(&[80, 10, 10]) {
        0 => w.say("open"),
        1 => w.say("open work 64"),
        _ => {
            let work = *w.random.pick(&[0, 1, 63, 63, 65, 4_294_967_295u64]);
            w.say(format!("open work {work}"))
        }
    };
}

/// Any point of the space, often one near its corner or an event's.
fn point(w: &mut Writer) -> Point {
    let order = w.order();
    let top = order.space.top();
    let address = match w.random.weighted(&[35, 20, 25, 15, 3]) {
        0 => w.random.between(0, top.min(40)),
        1 => w.random.between(top - top.min(40), top),
        2 => w.random.between(0, top),
        3 => {
            let near = event(w);
            let address = order.address(&near).unwrap_or(0);
            (address + w.random.between(0, 3)).min(top)
        }
        _ => return outside(w),
    };
    order.point(address).expect("not above top")
}

fn outside(w: &mut Writer) -> Point {
    let order = w.order();
    let address = w.random.between(0, order.space.top());
    let mut point = order.point(address).expect("not above top");
    let j = w.random.below(4);
    point[j] = match w.random.below(3) {
        0 => 1 << order.space.p,
        1 => 65_535,
        _ => w.random.between(0, 65_535) as u16,
    };
    point
}

fn event(w: &mut Writer) -> Point {
    if w.events.is_empty() {
        let address = w.random.between(0, w.order().space.top());
        return w.order().point(address).expect("not above top");
    }
    *w.random.pick(&w.events)
}

/// The point's words, now and then with all four coordinates or leading zeros.
fn said(w: &mut Writer, point: &Point) -> String {
    let order = w.order();
    let beyond = (order.space.n as usize..4).any(|j| point[j] != 0);
    let four = beyond || w.random.percent(10);
    let words = point_words(&order, point, four);
    if w.random.percent(2) {
        return format!("00{words}");
    }
    words
}

fn one(w: &mut Writer, call: &str, point: Point) -> String {
    let space = if w.random.percent(2) { "   " } else { " " };
    let words = said(w, &point);
    w.say(format!("{call}{space}{words}"))
}

fn lodge(w: &mut Writer, point: Point) -> String {
    let answer = one(w, "lodge", point);
    if answer == "ok" {
        w.events.push(point);
    }
    answer
}

fn withdraw(w: &mut Writer, point: Point) -> String {
    let answer = one(w, "withdraw", point);
    let place = w.events.iter().position(|&e| e == point);
    if answer == "ok" {
        place.map(|place| w.events.swap_remove(place));
    }
    answer
}

/// Many lodgings: rising, falling or anywhere.
fn burst(w: &mut Writer) {
    let order = w.order();
    let top = order.space.top();
    let count = w.random.between(5, 45);
    let step = w.random.between(1, 3);
    let first = if w.random.percent(50) { 0 } else { w.random.between(0, top) };
    let way = w.random.below(3);
    for i in 0..count {
        if w.charge() < 3 * w.height() + 2 && w.random.percent(90) {
            grant_much(w);
        }
        let address = match way {
            0 => first.saturating_add(i * step).min(top),
            1 => (top - first).saturating_sub(i * step),
            _ => w.random.between(0, top),
        };
        let answer = lodge(w, order.point(address).expect("not above top"));
        let go_on = answer == "ok" || w.random.percent(40);
        if !go_on || w.lines > 170 {
            return;
        }
    }
}

/// Withdrawals, down to the empty tree if the events are few enough.
fn clear(w: &mut Writer) {
    let mut events = w.events.clone();
    w.random.shuffle(&mut events);
    if w.random.percent(50) {
        events.sort();
    }
    for point in events {
        if w.charge() < 2 * w.height() + 2 && w.random.percent(95) {
            grant_much(w);
        }
        if w.lines > 180 || !withdraw(w, point).starts_with("ok") && w.random.percent(30) {
            return;
        }
    }
}

/// The same call with a charge of one more each time, until the charge is enough.
fn sweep(w: &mut Writer) {
    let point = point(w);
    let height = w.height();
    let mut charge = w.random.between(0, height + 1);
    let lodges = w.random.percent(60);
    let event = event(w);
    loop {
        w.say(format!("grant {charge}"));
        let answer = if lodges { lodge(w, point) } else { withdraw(w, event) };
        charge += 1;
        if !answer.contains("uncharged") || w.lines > 180 {
            return;
        }
    }
}

/// A page read or written past the index, and an opening.
fn past(w: &mut Writer) {
    let pages = u64::from(w.session.store().size());
    let last = pages.min(20);
    let page = match w.random.weighted(&[70, 12, 18]) {
        0 => w.random.between(0, last + 1),
        1 => w.random.between(0, pages),
        _ => pages + 1,
    };
    let page = page.min(65_535);
    if w.random.percent(50) {
        w.say(format!("read {page}"));
    } else {
        let byte = *w.random.pick(&[0, 1, 2, 255]);
        w.say(format!("write {page} {byte}"));
    }
    if w.random.percent(80) {
        open(w);
    }
}

/// The box of the whole space.
fn whole(w: &Writer) -> String {
    let order = w.order();
    let high = order.point(order.space.top()).expect("top");
    format!("{} {}", point_words(&order, &[0; 4], false), point_words(&order, &high, false))
}

/// A box's words; sometimes no box, and sometimes one that leaves the space.
fn query(w: &mut Writer) -> String {
    let order = w.order();
    if w.random.percent(25) {
        return whole(w);
    }
    let (mut low, mut high) = match w.random.weighted(&[40, 30, 25, 5]) {
        0 => (point(w), point(w)),
        1 => (event(w), event(w)),
        2 => {
            let point = event(w);
            (point, point)
        }
        _ => (point(w), outside(w)),
    };
    let swapped = w.random.percent(93);
    if swapped {
        for j in 0..4 {
            (low[j], high[j]) = (low[j].min(high[j]), low[j].max(high[j]));
        }
    }
    if w.random.percent(30) {
        let wider = w.random.between(0, 3) as u16;
        let side = (1 << order.space.p) - 1;
        for j in 0..order.space.n as usize {
            low[j] = low[j].saturating_sub(wider);
            if high[j] <= side {
                high[j] = (high[j] + wider).min(side);
            }
        }
    }
    let beyond = (order.space.n as usize..4).any(|j| low[j] != 0 || high[j] != 0);
    let four = beyond || w.random.percent(8);
    format!("{} {}", point_words(&order, &low, four), point_words(&order, &high, four))
}

fn from(w: &mut Writer) -> u64 {
    let order = w.order();
    let top = order.space.top();
    match w.random.weighted(&[35, 25, 25, 5, 5, 3, 2]) {
        0 => w.random.between(0, top),
        1 => {
            let event = event(w);
            order.address(&event).unwrap_or(0)
        }
        2 => {
            let event = event(w);
            order.address(&event).unwrap_or(0) + 1
        }
        3 => top,
        4 => top + 1,
        5 => u64::MAX,
        _ => 0,
    }
}

fn search(w: &mut Writer) {
    if w.random.percent(30) {
        grant_few(w);
    }
    let line = search_line(w);
    w.say(line);
}

fn search_line(w: &mut Writer) -> String {
    let mut line = format!("search {}", query(w));
    if w.random.percent(40) {
        line += &format!(" from {}", from(w));
    }
    if w.random.percent(45) {
        let room = *w.random.pick(&[0, 1, 2, 3, 5, 8, 10, 1000, 4_294_967_295u64]);
        line += &format!(" room {room}");
    }
    line
}

/// The address at which a search's answer says that it may be resumed.
fn resumed_at(answer: &str) -> Option<u64> {
    let rest = answer.strip_prefix("more at ").or_else(|| answer.strip_prefix("cut at "))?;
    let digits: String = rest.chars().take_while(char::is_ascii_digit).collect();
    digits.parse().ok()
}

/// A search with little room or charge, resumed until it is done.
fn resume(w: &mut Writer) {
    let all = w.random.percent(60);
    let query = if all { whole(w) } else { query(w) };
    let height = w.height();
    let charge = w.random.between(height, height + 4);
    let charge = if w.random.percent(70) { charge } else { 5000 };
    let room = if charge == 5000 || w.random.percent(50) { w.random.between(1, 9) } else { 1000 };
    let mut from = None;
    for _ in 0..w.random.between(3, 14) {
        w.say(format!("grant {charge}"));
        let start = from.map_or(String::new(), |address| format!(" from {address}"));
        let answer = w.say(format!("search {query}{start} room {room}"));
        let Some(address) = resumed_at(&answer) else { return };
        from = Some(address);
    }
}

/// A question to the order.
fn question(w: &mut Writer) -> String {
    match w.random.below(3) {
        0 => {
            let point = if w.random.percent(80) { point(w) } else { outside(w) };
            format!("address {}", said(w, &point))
        }
        1 => format!("point {}", from(w)),
        _ => format!("first {} from {}", query(w), from(w)),
    }
}

fn questions(w: &mut Writer) {
    for _ in 0..w.random.between(1, 4) {
        let line = question(w);
        w.say(line);
    }
}

/// Some line of the language that is no set-up line.
pub fn any_line(w: &mut Writer) -> String {
    let point = point(w);
    match w.random.below(14) {
        0 => format!("lodge {}", said(w, &point)),
        1 => format!("withdraw {}", said(w, &point)),
        2 => format!("tally {}", said(w, &point)),
        3 | 4 => question(w),
        5 => search_line(w),
        6 => "open".to_string(),
        7 => format!("open work {}", w.random.between(0, 100)),
        8 => format!("grant {}", near_cost(w)),
        9 => "shut".to_string(),
        10 => format!("read {}", w.random.between(0, 12)),
        11 => format!("write {} {}", w.random.between(0, 12), w.random.between(0, 255)),
        12 => "save out-1".to_string(),
        _ => "dump".to_string(),
    }
}
