//! The set-up lines of a script: an order, a store with or without an image, and layers.

use super::damage::damage;
use super::garbage;
use super::random::Random;
use super::tree::{self, Tree};
use super::writer::Writer;
use crate::layer::{skip_allowed, Skip, Turned};
use crate::order::{Kind, Order, Space};
use crate::script::LayerLine;
use crate::store::{Memory, Page, Slots, Store, MOST, PAGE, SLOT};

/// What the body of a script should know of what stands.
pub struct Start {
    pub image: Image,
    /// The accesses that an opening makes at most.
    pub accesses: u64,
    /// An address whose lodging splits a path that is full, or nearly.
    pub full: Option<u64>,
}

#[derive(Clone, Copy, PartialEq, Eq)]
pub enum Image {
    None,
    Sound,
    Damaged,
}

#[derive(Clone, Copy, PartialEq, Eq)]
enum Base {
    Default,
    Memory,
    Erased,
    Image,
    Slot,
    SlotImage,
}

pub fn set_up(w: &mut Writer) -> Start {
    noise(w);
    let tall = w.random.percent(9);
    order(w, tall);
    noise(w);
    let base = base(w, tall);
    let start = match base {
        Base::Image | Base::SlotImage => with_image(w, base, tall),
        _ => without_image(w, base),
    };
    noise(w);
    start
}

/// A line that is no set-up line of this place, now and then.
fn noise(w: &mut Writer) {
    while w.random.percent(20) {
        let line = match w.random.below(6) {
            0 => b"dump".to_vec(),
            1 => format!("save out-{}", w.random.below(3)).into_bytes(),
            2 => b"# a remark".to_vec(),
            _ => garbage::misspelt(w),
        };
        // A line that would be understood as a call or as a set-up line would end this part.
        if garbage::harmless(w, &line) {
            w.say(line);
        }
    }
}

fn order(w: &mut Writer, tall: bool) {
    while w.random.percent(8) {
        let kind = *w.random.pick(&["z", "row"]);
        let (n, p) = *w.random.pick(&[(0, 3), (5, 3), (2, 0), (2, 16), (255, 255), (0, 0)]);
        w.say(format!("order {kind} {n} {p}"));
    }
    if w.random.percent(12) {
        return;
    }
    let kind = *w.random.pick(&["z", "z", "row"]);
    let (n, p) =
        if tall { *w.random.pick(&[(1, 10), (2, 4), (2, 15), (3, 3), (4, 2), (4, 15)]) } else { space(&mut w.random) };
    w.say(format!("order {kind} {n} {p}"));
}

fn space(random: &mut Random) -> (u64, u64) {
    let small = [
        (1, 1),
        (1, 4),
        (1, 8),
        (2, 1),
        (2, 2),
        (2, 3),
        (2, 3),
        (2, 4),
        (2, 5),
        (3, 2),
        (3, 3),
        (4, 1),
        (4, 2),
        (4, 3),
    ];
    let large = [(1, 15), (2, 10), (2, 15), (3, 15), (4, 15), (4, 15), (4, 14), (3, 7)];
    match random.weighted(&[50, 30, 20]) {
        0 => *random.pick(&small),
        1 => *random.pick(&large),
        _ => (random.between(1, 4), random.between(1, 15)),
    }
}

fn base(w: &mut Writer, tall: bool) -> Base {
    if tall {
        return if w.random.percent(20) { Base::SlotImage } else { Base::Image };
    }
    let all = [Base::Default, Base::Memory, Base::Erased, Base::Image, Base::Slot, Base::SlotImage];
    all[w.random.weighted(&[5, 15, 9, 43, 12, 16])]
}

/// How many pages the store has.
fn size(random: &mut Random, tall: bool) -> u16 {
    if tall {
        let (low, high) = *random.pick(&[(44, 70), (72, 100), (108, 145), (155, 230), (155, 230), (155, 230)]);
        return random.between(low, high) as u16;
    }
    match random.weighted(&[6, 55, 25, 5, 5, 4]) {
        0 => random.between(0, 8) as u16,
        1 => random.between(9, 30) as u16,
        2 => random.between(30, 90) as u16,
        3 => random.between(90, 300) as u16,
        4 => random.between(1020, 1040) as u16,
        _ => random.between(1020, 3000) as u16,
    }
}

/// Up to two layers over a store of `size` pages, and how many pages are left.
fn layers(random: &mut Random, size: u16) -> (Vec<LayerLine>, u16) {
    let mut layers = Vec::new();
    let mut size = size;
    for _ in 0..random.weighted(&[35, 33, 32]) {
        if random.percent(50) {
            layers.push(LayerLine::Turned);
            continue;
        }
        let bad = if random.percent(7) { wrong_list(random, size) } else { right_list(random, size) };
        let left = size.saturating_sub(bad.len() as u16).min(MOST);
        size = if skip_allowed(&bad, size).is_ok() { left } else { 0 };
        layers.push(LayerLine::Skip { bad });
    }
    (layers, size)
}

fn right_list(random: &mut Random, size: u16) -> Vec<u16> {
    if size == 0 {
        return vec![1];
    }
    let most = if random.percent(3) { size.min(64) } else { size.div_ceil(8).min(5) };
    let count = random.between(1, most.into()) as usize;
    let front = if random.percent(60) { size } else { size.min(count as u16 + 3) };
    random.rising(count, 1, front.into()).into_iter().map(|page| page as u16).collect()
}

fn wrong_list(random: &mut Random, size: u16) -> Vec<u16> {
    match random.below(7) {
        0 => vec![],
        1 => vec![0, 1],
        2 => vec![size.saturating_add(1)],
        3 => vec![3, 2],
        4 => vec![2, 2],
        5 => (1..=65).collect(),
        _ => vec![1, 65_535],
    }
}

fn say_layers(w: &mut Writer, layers: &[LayerLine]) {
    for layer in layers {
        match layer {
            LayerLine::Turned => {
                w.stack.push("turned");
                w.say("layer turned");
            }
            LayerLine::Skip { bad } => {
                w.stack.push("skip");
                let pages: String = bad.iter().map(|page| format!(" {page}")).collect();
                w.say(format!("layer skip{pages}"));
            }
        }
    }
    if layers.len() == 2 && w.random.percent(20) {
        let line = *w.random.pick(&["layer turned", "layer skip 1", "layer skip"]);
        w.say(line);
    }
}

fn without_image(w: &mut Writer, base: Base) -> Start {
    let size = match base {
        Base::Default => 1024,
        Base::Slot => slot_size(&mut w.random, false),
        _ => size(&mut w.random, false),
    };
    let word = match base {
        Base::Default => "default",
        Base::Memory => "memory",
        Base::Erased => "erased",
        _ => "slot",
    };
    w.stack = vec![word];
    let size = match base {
        Base::Slot if size == 0 || size > MOST => 0,
        _ => size,
    };
    match base {
        Base::Default => String::new(),
        Base::Memory => w.say(format!("store memory {size}")),
        Base::Erased => w.say(format!("store memory {size} erased 255")),
        _ if size == 0 => {
            let pages = *w.random.pick(&[0, 1025, 65_535]);
            w.say(format!("store slot {pages}"))
        }
        _ => w.say(format!("store slot {size}")),
    };
    let (layers, _) = layers(&mut w.random, size);
    say_layers(w, &layers);
    Start { image: Image::None, accesses: 1, full: None }
}

fn slot_size(random: &mut Random, tall: bool) -> u16 {
    match random.weighted(&[90, 6, 4]) {
        0 => size(random, tall).min(MOST),
        1 => *random.pick(&[0, 1025]),
        _ => *random.pick(&[1, 2, 1024]),
    }
}

fn pile(store: Box<dyn Store>, layers: &[LayerLine]) -> Box<dyn Store> {
    let mut pile = store;
    for layer in layers {
        pile = match layer {
            LayerLine::Turned => Box::new(Turned::new(pile)),
            LayerLine::Skip { bad } => Box::new(Skip::new(pile, bad)),
        };
    }
    pile
}

/// The lent memory of a store that reads these pages through the layers.
fn laid(random: &mut Random, store: Box<dyn Store>, layers: &[LayerLine], pages: &[Page]) -> Vec<u8> {
    let mut pile = pile(store, layers);
    pile.grant(u32::MAX);
    let mut numbers: Vec<u16> = (1..=pages.len() as u16).collect();
    if random.percent(50) {
        random.shuffle(&mut numbers);
    }
    for number in numbers {
        if random.percent(10) {
            pile.write(number, &tree::garbage(random)).expect("charged");
        }
        pile.write(number, &pages[number as usize - 1]).expect("charged");
    }
    pile.lent().to_vec()
}

fn with_image(w: &mut Writer, base: Base, tall: bool) -> Start {
    let slot = base == Base::SlotImage;
    let random = &mut w.random;
    let below = if slot { slot_size(random, tall).clamp(1, MOST) } else { size(random, tall) };
    // A larger memory, mostly, for a tree with more pages.
    let below = if tall { below } else { below.max(size(random, false).min(90)) };
    let (layers, size) = layers(random, below);
    let last = size.min(MOST);
    let order = w.session.order();
    let order = if random.percent(5) { other_order(random, order) } else { *order };
    let (mut sound, address) = grown(random, &order, last, tall);
    let (below, last) =
        if tall && random.percent(80) { (below, last) } else { tightened(random, &mut sound, below, last, &layers) };
    let mut pages = tree::pages(random, &sound, last);
    let mut image = Image::Sound;
    if random.percent(if tall { 10 } else { 72 }) {
        damage(random, &sound, &mut pages);
        image = Image::Damaged;
    }
    let mut bytes = lent(random, slot, below, &layers, &pages);
    let mut asked = below;
    if slot && random.percent(30) {
        asked = spoil_slots(random, &mut bytes, below);
        image = Image::Damaged;
    }
    remember(w, &order, &sound);
    say_image(w, slot, asked, bytes);
    say_layers(w, &layers);
    Start { image, accesses: 1 + sound.pages.len() as u64, full: address }
}

fn other_order(random: &mut Random, order: &Order) -> Order {
    let Space { n, p } = order.space;
    let space = match random.below(3) {
        0 => Space { n: n % 4 + 1, p },
        1 => Space { n, p: p % 15 + 1 },
        _ => return Order { kind: if order.kind == Kind::Z { Kind::Row } else { Kind::Z }, ..*order },
    };
    Order { space, ..*order }
}

/// A tree for the pages 2 to `last`. Sometimes it has more pages than leave six free.
fn grown(random: &mut Random, order: &Order, last: u16, tall: bool) -> (Tree, Option<u64>) {
    let highest = tree::full_height(order, last);
    if highest > 0 && (tall || random.percent(30)) {
        let height = if tall { highest } else { random.between(1, highest.into()) as u8 };
        let short = random.percent(40);
        let (tree, address) = tree::full(random, order, last, height, short);
        return (tree, Some(address));
    }
    let sound = tree::most_pages(last);
    let most = match random.weighted(&[80, 8, 5, 7]) {
        0 => sound.min(40),
        1 => sound.min(5),
        2 => sound.min(400),
        _ => (sound + random.between(1, 6) as usize).min((last as usize).saturating_sub(1)),
    };
    (tree::sound(random, order, last, most), None)
}

/// Sometimes the memory is made smaller, so that about six pages are left free.
fn tightened(random: &mut Random, tree: &mut Tree, below: u16, last: u16, layers: &[LayerLine]) -> (u16, u16) {
    let less = 1 + tree.pages.len() as u16 + *random.pick(&[4, 5, 6, 6, 7, 8, 12]);
    if tree.pages.is_empty() || less >= last || below > MOST || random.percent(50) {
        return (below, last);
    }
    let below_less = below - (last - less);
    let zeros = Box::new(Memory::new(vec![0; below_less as usize * PAGE]));
    if pile(zeros, layers).size() != less {
        return (below, last);
    }
    tree.renumber(random, less);
    (below_less, less)
}

fn lent(random: &mut Random, slot: bool, below: u16, layers: &[LayerLine], pages: &[Page]) -> Vec<u8> {
    let (mut bytes, unit) = if slot {
        let slots = vec![0; (below as usize + 1) * SLOT];
        (laid(random, Box::new(Slots::new(slots, below)), layers, pages), SLOT)
    } else {
        let memory = (0..below).flat_map(|_| if random.percent(50) { [0; PAGE] } else { tree::garbage(random) });
        let memory: Vec<u8> = memory.collect();
        (laid(random, Box::new(Memory::new(memory)), layers, pages), PAGE)
    };
    if random.percent(25) {
        // Bytes that make no whole page; over a slot store, whole slots that it does not use too.
        let most = if slot { 3 * unit } else { unit - 1 };
        let more = random.between(1, most as u64);
        bytes.extend((0..more).map(|_| random.bits() as u8));
    }
    bytes
}

/// Answers the number of pages to ask for.
fn spoil_slots(random: &mut Random, bytes: &mut Vec<u8>, pages: u16) -> u16 {
    let slot = random.below(pages as usize + 1) * SLOT;
    let other = random.below(pages as usize + 1) * SLOT;
    match random.below(6) {
        0 => bytes.copy_within(other..other + 2, slot),
        1 => bytes[slot..slot + 2].copy_from_slice(&(pages + 1).to_le_bytes()),
        2 => bytes[slot..slot + 2].copy_from_slice(&random.between(0, 65_535).to_le_bytes()[..2]),
        // Too few slots, often by one or by a byte.
        3 if random.percent(40) => bytes.truncate(random.below(bytes.len())),
        3 => bytes.truncate((pages as usize + random.below(2)) * SLOT + random.below(2) * (SLOT - 1)),
        4 => return *random.pick(&[0, 1025, 65_535, pages + 1]),
        _ => return random.between(1, pages.into()) as u16,
    }
    pages
}

/// The first events of the tree, for the body of the script.
fn remember(w: &mut Writer, order: &Order, tree: &Tree) {
    for (spot, page) in &tree.pages {
        if spot.level == 1 {
            let points = page.entries.iter().filter_map(|entry| order.point(entry.key));
            w.events.extend(points.filter(|point| w.session.order().space.has(point)));
        }
    }
}

fn say_image(w: &mut Writer, slot: bool, pages: u16, bytes: Vec<u8>) {
    while w.random.percent(5) {
        let line =
            if slot { format!("store slot {pages} image no-such-file") } else { "store image no-such-file".into() };
        w.say(line);
    }
    let name = w.image(bytes);
    w.stack = vec![if slot { "slot-image" } else { "image" }];
    if slot {
        w.say(format!("store slot {pages} image {name}"));
    } else {
        w.say(format!("store image {name}"));
    }
}
