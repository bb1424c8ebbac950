//! The examples of docs/FORMAT.md and docs/CALLS.md.

use reference::index::{Ending, Index};
use reference::layer::{skip_allowed, Skip, Turned};
use reference::order::{Order, QueryBox, Space};
use reference::page::{Entry, Header, TreePage};
use reference::store::{slots_allowed, Memory, Slots, Store, PAGE, SLOT};
use reference::text::{Fault, Refusal, Rule};

fn eight_by_eight() -> Order {
    Order::z(Space::new(2, 3).unwrap())
}

fn memory(pages: usize) -> Memory {
    Memory::new(vec![0; pages * PAGE])
}

/// The addresses 0 to 10, once each, over 16 pages.
fn eleven(charge: u32) -> (Index<Memory>, Result<(), Refusal>) {
    let order = eight_by_eight();
    let mut index = Index::new(memory(16), order);
    index.grant(charge);
    index.format().unwrap();
    for address in 0..10 {
        index.lodge(order.point(address).unwrap()).unwrap();
    }
    let last = index.lodge(order.point(10).unwrap());
    (index, last)
}

fn entries(keys: std::ops::RangeInclusive<u64>) -> Vec<Entry> {
    keys.map(|key| Entry { key, value: 1 }).collect()
}

#[test]
fn the_example_byte_by_byte() {
    let (index, last) = eleven(35);
    assert_eq!((last, index.store().charge()), (Ok(()), 0));
    let header = Header { kind: 1, n: 2, p: 3, height: 2, root: 5, total: 11 };
    let root = vec![Entry { key: 5, value: 2 }, Entry { key: 0, value: 4 }];
    let page = |number| index.store().peek(number).unwrap();
    assert_eq!(page(1), header.encode());
    assert_eq!(page(5), TreePage { level: 2, number: 5, entries: root }.encode());
    assert_eq!(page(2), TreePage { level: 1, number: 2, entries: entries(0..=5) }.encode());
    assert_eq!(page(4), TreePage { level: 1, number: 4, entries: entries(6..=10) }.encode());
    assert_eq!(page(1)[0..16], [0x55, 0x42, 0x54, 0x31, 1, 2, 3, 2, 5, 0, 0, 0, 0x0b, 0, 0, 0]);
    assert_eq!(page(5)[8..20], [5, 0, 0, 0, 0, 0, 0, 0, 2, 0, 0, 0]);
}

#[test]
fn one_access_less_refuses_the_eleventh() {
    let (mut index, last) = eleven(34);
    assert_eq!(last, Err(Refusal::Unwritten { page: 1, level: 0 }));
    index.grant(9);
    assert_eq!(index.known().unwrap().total, 10);
    assert_eq!(index.open(64), Ok(()));
    assert_eq!(index.tally([0, 3, 0, 0]), Ok(0));
}

#[test]
fn searches_end_in_three_ways() {
    let (mut index, _) = eleven(35);
    let all = QueryBox::new([0; 4], [7, 7, 0, 0]).unwrap();
    let mut search = |charge, start, room| {
        index.grant(charge);
        let found = index.search(&all, start, room).unwrap();
        (found.finds.len(), found.reads, found.ending)
    };
    assert_eq!(search(3, 0, 11), (11, 3, Ending::Done));
    assert_eq!(search(2, 0, 11), (6, 2, Ending::Cut { page: 4, address: 6 }));
    assert_eq!(search(3, 6, 11), (5, 2, Ending::Done));
    assert_eq!(search(9, 0, 7), (7, 3, Ending::More { address: 7 }));
    assert_eq!(search(9, 64, 7), (0, 0, Ending::Done));
}

#[test]
fn an_opening_names_the_page() {
    let (index, _) = eleven(35);
    let mut store = index.into_parts().0;
    store.grant(100);
    let mut leaf = store.read(4).unwrap();
    leaf[16] = 0;
    store.write(4, &leaf).unwrap();
    let mut index = Index::new(store, eight_by_eight());
    assert_eq!(index.open(64), Err(Refusal::Unsound { page: 4, rule: Rule::D }));
}

#[test]
fn bad_pages_2_and_5_of_6() {
    let mut skip = Skip::new(memory(6), &[2, 5]);
    assert_eq!(skip.size(), 4);
    assert_eq!(skip.write(5, &[7; PAGE]), Err(Fault::Absent));
    assert_eq!(skip.write(2, &[7; PAGE]), Err(Fault::Uncharged));
    skip.grant(1);
    skip.write(2, &[7; PAGE]).unwrap();
    assert_eq!(skip.into_below().peek(3), Some([7; PAGE]));
    assert_eq!(skip_allowed(&[2, 5], 4), Err(Refusal::BadPages));
}

#[test]
fn erased_memory_turned_reads_as_zeros() {
    let turned = Turned::new(Memory::new(vec![255; 2 * PAGE]));
    assert_eq!(turned.peek(2), Some([0; PAGE]));
}

#[test]
fn a_write_never_touches_the_slot_of_its_page() {
    let mut slots = Slots::new(vec![0; 4 * SLOT], 3);
    slots.grant(9);
    let numbers = |slots: &Slots| -> Vec<u8> { slots.lent().chunks(SLOT).map(|slot| slot[0]).collect() };
    for page in [1, 2, 3] {
        slots.write(page, &[page as u8; PAGE]).unwrap();
    }
    assert_eq!(numbers(&slots), [1, 2, 3, 0]);
    slots.write(2, &[9; PAGE]).unwrap();
    assert_eq!(numbers(&slots), [1, 0, 3, 2]);
    assert_eq!(slots.lent()[SLOT + 2], 2);
    slots.write(1, &[8; PAGE]).unwrap();
    assert_eq!(numbers(&slots), [0, 1, 3, 2]);
    assert_eq!((slots.read(1), slots.read(2)), (Ok([8; PAGE]), Ok([9; PAGE])));
}

#[test]
fn slots_of_a_slot_store() {
    let slots = |numbers: &[u8]| -> Vec<u8> {
        numbers.iter().flat_map(|&number| [[number; 1].as_slice(), &[0; SLOT - 1]].concat()).collect()
    };
    assert_eq!(slots_allowed(&slots(&[2, 0, 1]), 2), Ok(()));
    for (numbers, pages) in [(&[0, 0][..], 2), (&[3, 0, 0], 2), (&[1, 1, 0], 2), (&[0, 0], 0)] {
        assert_eq!(slots_allowed(&slots(numbers), pages), Err(Refusal::Slots));
    }
    // Slots past those in use may have any number.
    assert_eq!(slots_allowed(&slots(&[1, 0, 0, 1, 9]), 2), Ok(()));
}
