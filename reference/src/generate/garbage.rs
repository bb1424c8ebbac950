//! Lines that are not understood, or hardly.

use super::body;
use super::random::Random;
use super::writer::Writer;
use crate::script::{understand, words, Line};

const LINES: &[&str] = &[
    "hello",
    "lodges 1 2",
    "Format",
    "order",
    "order z",
    "order z 2",
    "order z 2 3 4",
    "order spiral 2 3",
    "order spiral 2",
    "order z 256 3",
    "order z 2 300",
    "order z two 3",
    "store",
    "store tape",
    "store tape 3",
    "store memory",
    "store memory x",
    "store memory 65536",
    "store memory 4 5",
    "store memory 4 blank 255",
    "store memory x blank 255",
    "store memory 4 erased 254",
    "store memory 4 erased 256",
    "store memory 4 erased 99999999999999999999",
    "store memory 4 erased 255 1",
    "store image",
    "store image a b",
    "store slot",
    "store slot 1 2",
    "store slot x",
    "store slot 65536",
    "store slot 4 image",
    "store slot 4 picture a",
    "store slot x picture a",
    "store slot x image a",
    "store slot 4 image a b",
    "layer",
    "layer mirrored",
    "layer mirrored 1",
    "layer turned 1",
    "layer skip x",
    "layer skip 1 65536",
    "layer skip -1",
    "dump now",
    "save",
    "save a b",
    "address",
    "point",
    "point 1 2",
    "point 18446744073709551616",
    "first 1 1 1 1",
    "first from 3",
    "first 0 0 1 1 from",
    "first 0 0 1 1 up 3",
    "first 0 0 1 1 from x",
    "grant",
    "grant x",
    "grant 4294967296",
    "grant 1 2",
    "format 1",
    "shut 1",
    "open 64",
    "open now 64",
    "open work",
    "open work x",
    "open work 4294967296",
    "open work 1 2",
    "lodge",
    "withdraw",
    "tally",
    "read",
    "read 65536",
    "read 1 2",
    "read x",
    "write 1",
    "write 1 256",
    "write 65536 1",
    "write 1 2 3",
    "search",
    "search from 3",
    "search room 3",
    "search from 3 room 5",
    "search 0 0 1 1 room",
    "search 0 0 1 1 room 5 from 3",
    "search 0 0 1 1 from 3 from 4",
    "search 0 0 1 1 from x",
    "search 0 0 1 1 room 4294967296",
    "search 0 0 1 1 from 18446744073709551616",
    "search 0 0 1",
];

const WORDS: &[&str] = &[
    "65535",
    "65536",
    "256",
    "255",
    "4294967295",
    "4294967296",
    "18446744073709551615",
    "18446744073709551616",
    "-1",
    "+1",
    "0x10",
    "1.0",
    "1e3",
    "x",
    "007",
    "00000000000000000000000000000000000000001",
    "0",
    "1",
    "from",
    "room",
    "work",
    "work\t64",
    "1\t2",
    "\t",
    "\r",
    "1\r",
    "\u{a0}",
    "\u{e9}",
    "\u{665}",
    "\u{ff11}",
    "image",
    "skip",
    "z",
    "#",
    "->",
    "\u{1}",
];

/// A line that is passed over, is not understood, or asks for something at a wrong place.
pub fn garbage(w: &mut Writer) -> Vec<u8> {
    match w.random.weighted(&[15, 25, 20, 40]) {
        0 => empty(&mut w.random),
        1 => w.random.pick(LINES).as_bytes().to_vec(),
        2 => late(&mut w.random),
        _ => misspelt(w),
    }
}

fn empty(random: &mut Random) -> Vec<u8> {
    let lines: &[&[u8]] = &[
        b"",
        b" ",
        b"     ",
        b"# a remark",
        b"#",
        b"#lodge 1 1",
        b" # no remark",
        b"\t",
        b"\r",
        "## \u{e9}\u{2028}".as_bytes(),
        b" \t ",
    ];
    random.pick(lines).to_vec()
}

/// A set-up line, which stands at a wrong place after the set-up.
fn late(random: &mut Random) -> Vec<u8> {
    let lines = [
        "order z 2 3",
        "order row 9 9",
        "order z 4 15",
        "store memory 8",
        "store memory 8 erased 255",
        "store image no-such-file",
        "store slot 8",
        "store slot 0",
        "store slot 8 image no-such-file",
        "layer turned",
        "layer skip",
        "layer skip 1 2",
        "layer skip 3 2",
    ];
    random.pick(&lines).as_bytes().to_vec()
}

/// A line of the language with something wrong in it, mostly.
pub fn misspelt(w: &mut Writer) -> Vec<u8> {
    let line = body::any_line(w);
    let mut words: Vec<Vec<u8>> = line.split(' ').map(|word| word.as_bytes().to_vec()).collect();
    let at = w.random.below(words.len());
    match w.random.below(8) {
        0 if words.len() > 1 => {
            words.remove(at);
        }
        1 => words.insert(at + 1, words[at].clone()),
        2 => words.push(w.random.pick(WORDS).as_bytes().to_vec()),
        3 => words[at].extend(*w.random.pick(&[
            b"\t".as_slice(),
            "\u{e9}".as_bytes(),
            "\u{2028}".as_bytes(),
            b"\r",
            b"x",
            b"#",
        ])),
        4 => words[at].insert(0, *w.random.pick(b" \t0+-#")),
        5 => return words.join(b"  ".as_slice()),
        _ => words[at] = w.random.pick(WORDS).as_bytes().to_vec(),
    }
    words.join(&b' ')
}

/// Whether a line leaves the set-up where it is.
pub fn harmless(w: &Writer, line: &[u8]) -> bool {
    let words = words(line);
    if words.is_empty() {
        return true;
    }
    matches!(understand(&words, &w.order()), Err(_) | Ok(Line::Dump | Line::Save { .. }))
}
