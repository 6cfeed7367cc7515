//! Damaged shelves, rescued: with bytes changed, lost and put in, records of other coefficients and widths, half
//! records, and records within others; in rooms about as large as needed; against the rules of docs/RULES.md written
//! out anew. Every buffer is held entirely, past what is lent too. And what is said of every shelf is run: kept and
//! skipped make up the shelf, what was kept is kept whole, and nothing is refused in the rooms that are always enough.

use crate::library::{self, Rescued};
use crate::random::Random;
use crate::records::{damage, made_up};
use crate::reference::{Reference, LARGEST};
use crate::shelves::{good, read};

/// Bytes, numbers and entries past those that are lent.
const PAST: usize = 5;

/// What must be kept of a shelf, the skipped stretches, and the most coefficients of a record that is tried.
struct Right {
    kept: Vec<u8>,
    list: Vec<u64>,
    most: usize,
}

/// The coefficients that a record of a kind and an index has to have, in bytes of a width.
fn body(of: &mut Reference, kind: u64, n: usize, width: usize) -> Vec<u8> {
    let pair = of.pair(n);
    let coeffs = if kind == 1 { &pair.f } else { &pair.i };
    coeffs.iter().flat_map(|&c| (c as i64).to_le_bytes().into_iter().take(width)).collect()
}

/// The record of a polynomial.
fn record(of: &mut Reference, kind: u64, n: usize) -> Vec<u8> {
    let pair = of.pair(n);
    let height = (if kind == 1 { &pair.f } else { &pair.i }).iter().map(|c| c.unsigned_abs()).max().unwrap();
    let width = if height < 128 { 1 } else { 2 };
    let mut bytes = vec![0xC9, 0x50, kind as u8, width as u8];
    bytes.extend((n as u16).to_le_bytes());
    bytes.extend((of.degree(kind, n) as u32 + 1).to_le_bytes());
    bytes.extend(body(of, kind, n, width));
    bytes
}

fn rescued(of: &mut Reference, shelf: &[u8]) -> Right {
    let mut right = Right { kept: Vec::new(), list: Vec::new(), most: 0 };
    let (mut at, mut skipped) = (0, 0);
    while at < shelf.len() {
        let here = &shelf[at..];
        let mut length = 0;
        if let Ok((kind, n, degree, rest)) = read(of, here) {
            right.most = right.most.max(degree + 1);
            let (size, width) = (here.len() - rest.len(), here[3] as usize);
            if here[10..size] == body(of, kind, n, width) {
                length = size;
            }
        }
        if length == 0 {
            skipped += 1;
            at += 1;
            continue;
        }
        if skipped > 0 {
            right.list.extend([(at - skipped) as u64, skipped as u64]);
        }
        right.kept.extend(&here[..length]);
        skipped = 0;
        at += length;
    }
    if skipped > 0 {
        right.list.extend([(at - skipped) as u64, skipped as u64]);
    }
    right
}

fn start_of(shelf: &[u8]) -> &[u8] {
    &shelf[..shelf.len().min(200)]
}

/// A request in so much room, held to what must come of it.
fn held(random: &mut Random, right: &Right, shelf: &[u8], room: usize, slots: usize, entries: usize) -> u64 {
    // of many, all the same
    let bytes = if room < 1000 { random.bytes(room + PAST) } else { vec![random.word() as u8; room + PAST] };
    let numbers: Vec<u64> = (0..slots + PAST).map(|_| random.word()).collect();
    let work = if entries < 1000 { random.slice(entries + PAST) } else { vec![random.extreme(); entries + PAST] };
    let (mut out, mut list, mut coeffs) = (bytes.clone(), numbers.clone(), work.clone());
    let told = library::rescue(shelf, &mut out[..room], &mut list[..slots], &mut coeffs[..entries]);
    let asked = || format!("rescue {:02x?} ({} bytes) in {room}, {slots}, {entries}", start_of(shelf), shelf.len());
    let fits = right.kept.len() <= room && right.list.len() <= slots && right.most <= entries;
    let (kept, pairs): (&[u8], &[u64]) = if fits { (&right.kept, &right.list) } else { (&[], &[]) };
    let code = if fits { 0 } else { 4 };
    let answer = Rescued { code, kept: kept.len() as u64, stretches: pairs.len() as u64 / 2 };
    assert!(told == answer, "{}: {told:?}, not {answer:?}", asked());
    assert!(out == [kept, &bytes[kept.len()..]].concat(), "{}: another output", asked());
    assert!(list == [pairs, &numbers[pairs.len()..]].concat(), "{}: another list", asked());
    assert!(coeffs[..entries].iter().all(|&c| c == 0), "{}: the scratch is not all 0", asked());
    assert!(coeffs[entries..] == work[entries..], "{}: more than the scratch is written", asked());
    1
}

/// What is said of every shelf, by the library alone.
fn theorems(random: &mut Random, shelf: &[u8]) -> u64 {
    let len = shelf.len();
    // a stretch and the record behind it have 12 bytes at least
    let slots = random.of(&[len + 1, 2 * (len / 11 + 1), 2 * (len / 12 + 1)]);
    let (mut out, mut list, mut coeffs) = (vec![7; len], vec![7; slots], vec![7; LARGEST + 1]);
    let told = library::rescue(shelf, &mut out, &mut list, &mut coeffs);
    assert!(told.code == 0, "{:02x?} ({len} bytes) is refused", start_of(shelf));
    let (kept, mut left) = (told.kept as usize, &out[..told.kept as usize]);
    let mut again: Vec<u8> = Vec::new();
    for stretch in list[..2 * told.stretches as usize].chunks(2) {
        let (start, length) = (stretch[0] as usize, stretch[1] as usize);
        let before = start - again.len();
        again.extend(&left[..before]);
        left = &left[before..];
        again.extend(&shelf[start..][..length]);
    }
    again.extend(left);
    assert!(again == shelf, "{:02x?} ({len} bytes) is not what was kept and skipped", start_of(shelf));
    let mut once_more = vec![7; kept];
    let same = library::rescue(&out[..kept], &mut once_more, &mut [], &mut coeffs);
    assert!(same == Rescued { code: 0, kept: told.kept, stretches: 0 }, "{:02x?}: kept, {same:?}", start_of(shelf));
    assert!(once_more == out[..kept], "{:02x?}: kept, and then not", start_of(shelf));
    2
}

/// A shelf in rooms that are just enough, one too small, larger, and none, in all sorts of combinations.
fn tried(random: &mut Random, of: &mut Reference, shelf: &[u8]) -> u64 {
    let right = rescued(of, shelf);
    let enough = [right.kept.len(), right.list.len(), right.most];
    let mut tried = theorems(random, shelf);
    tried += held(random, &right, shelf, enough[0], enough[1], enough[2]);
    if random.one_in(6) {
        // where nothing can be refused, and at the edge of that
        let room = shelf.len().saturating_sub(random.of(&[0, 0, 0, 1]));
        let slots = 2 * (shelf.len() / 11 + 1) - random.of(&[0, 0, 0, 1, 2]);
        let entries = random.of(&[LARGEST + 1, LARGEST + 1, LARGEST, enough[2].saturating_sub(1)]);
        tried += held(random, &right, shelf, room, slots, entries);
    }
    for _ in 0..3 {
        let mut rooms = enough;
        let which = random.below(3);
        for (i, room) in rooms.iter_mut().enumerate() {
            let sort = if i == which { random.below(4) } else { random.below(8) };
            *room = match sort {
                0 => room.saturating_sub(1),
                1 => *room + 1 + random.below(4),
                2 => room.saturating_sub(random.below(3)),
                3 => random.below(*room + 1),
                _ => *room,
            };
        }
        tried += held(random, &right, shelf, rooms[0], rooms[1], rooms[2]);
    }
    tried
}

/// A header of a kind and an index, whatever follows.
fn header(of: &Reference, kind: u64, n: usize, width: u8) -> Vec<u8> {
    let mut bytes = vec![0xC9, 0x50, kind as u8, width];
    bytes.extend((n as u16).to_le_bytes());
    bytes.extend((of.degree(kind, n) as u32 + 1).to_le_bytes());
    bytes
}

/// A part of a shelf: mostly a good record, else something that looks like one.
fn part(random: &mut Random, of: &mut Reference, most: usize, rare: usize) -> Vec<u8> {
    let (kind, n) = (1 + random.below(2) as u64, 1 + random.below(most));
    let mut one = record(of, kind, n);
    if random.one_in(rare) {
        one = match random.below(10) {
            // reads, and is another
            0 => good(random, of, most),
            1 => {
                let at = 10 + random.below(one.len() - 10);
                one[at] = one[at].wrapping_add(random.of(&[1, 2, 255]));
                one
            }
            // of any width, too large ones too
            2 => made_up(random, of),
            3 => {
                let width = random.of(&[2, 4, 8]);
                [header(of, kind, n, width as u8), body(of, kind, n, width)].concat()
            }
            // the same low bytes
            4 => {
                let width = random.of(&[2, 4, 8usize]);
                let mut wide = [header(of, kind, n, width as u8), body(of, kind, n, width)].concat();
                let at = 10 + width * random.below(one.len() - 10) + width - 1;
                wide[at] ^= random.of(&[1, 0x40, 0x80, 0xFF]);
                wide
            }
            // the half of one, with its own mark or without
            5 => {
                one.truncate(10 + (one.len() - 9) / 2);
                one[1] = random.of(&[0x51, 0x51, 0x50]);
                one
            }
            6 => {
                let len = random.below(30);
                (0..len).map(|_| random.of(&[0xC9, 0x50, 1, 2, 0, 6, 3, 0x51])).collect()
            }
            // a header, and then what comes next
            7 => header(of, kind, random.of(&[n, n, LARGEST]), random.of(&[1, 1, 2, 8])),
            8 => [0xC9, 0x50].repeat(random.below(6)),
            _ => {
                let len = random.below(9);
                random.bytes(len)
            }
        };
    }
    if random.one_in(3 * rare) {
        damage(random, &mut one);
    }
    one
}

/// A record, or some, as the coefficients of another that reads.
fn within(random: &mut Random, of: &mut Reference) -> Vec<u8> {
    let inner: Vec<u8> = (0..1 + random.below(2)).flat_map(|_| part(random, of, 12, 5)).collect();
    let width = random.of(&[1, 1, 2, 4, 8usize]);
    let kind = 1 + random.below(2) as u64;
    let place = random.below(9);
    let need = (place + inner.len()).div_ceil(width);
    let n = (1..2000).find(|&n| of.degree(kind, n) + 1 >= need).unwrap();
    let mut all = header(of, kind, n, width as u8);
    let end = all.len() + width * (of.degree(kind, n) + 1);
    all.extend(vec![random.of(&[1, 0, 0x7F]); place]);
    all.extend(inner);
    all.resize(end, random.of(&[0, 1, 0x11]));
    all
}

/// Holes: bytes changed, lost or put in.
fn holes(random: &mut Random, shelf: &mut Vec<u8>, many: usize) {
    for _ in 0..many {
        let at = random.below(shelf.len() + 1);
        let end = (at + random.below(12)).min(shelf.len());
        let len = random.of(&[0, 0, end - at, end - at, 1, 5]);
        let start = if random.one_in(4) { end } else { at };
        shelf.splice(start..end, random.bytes(len));
    }
}

pub fn any(random: &mut Random, of: &mut Reference) -> u64 {
    let most = random.of(&[3, 12, 12, 40, 120]);
    let rare = random.of(&[2, 4, 20]);
    let mut shelf = Vec::new();
    for _ in 0..random.below(7) {
        let one = if random.one_in(2 * rare) { within(random, of) } else { part(random, of, most, rare) };
        shelf.extend(one);
    }
    if random.one_in(2) {
        let many = 1 + random.below(3);
        holes(random, &mut shelf, many);
    }
    tried(random, of, &shelf)
}

/// Three records, each of whose bytes is in turn each other byte; and cut at every place from either end.
pub fn every_byte(random: &mut Random, of: &mut Reference) -> u64 {
    let mut any = || record(of, 1 + random.below(2) as u64, 1 + random.below(12));
    let mut shelf = [any(), any(), any()].concat();
    let mut count = 0;
    for at in 0..shelf.len() {
        let was = shelf[at];
        for byte in 0..=255 {
            shelf[at] = byte;
            let right = rescued(of, &shelf);
            let less = random.of(&[0, 0, 0, 1]);
            count += held(random, &right, &shelf, right.kept.len(), right.list.len(), right.most.saturating_sub(less));
        }
        shelf[at] = was;
        count += tried(random, of, &shelf[..at]) + tried(random, of, &shelf[at..]);
    }
    count
}

/// Both kinds of an index, at times with bytes before, between or after them; and then with a byte of one that is
/// another.
pub fn index(random: &mut Random, of: &mut Reference, n: usize) -> u64 {
    let [first, other] = [1, 2].map(|kind| record(of, kind, n));
    let [before, between, after] = [(); 3].map(|_| {
        let len = random.below(3);
        random.bytes(len)
    });
    let mut shelf = [&before[..], &first, &between, &other, &after].concat();
    let right = rescued(of, &shelf);
    assert!(right.kept == [&first[..], &other].concat(), "the records of {n} are not both kept");
    let mut tried = held(random, &right, &shelf, right.kept.len(), right.list.len(), right.most);
    tried += held(random, &right, &shelf, right.kept.len(), right.list.len(), right.most - 1);
    let at = if random.one_in(2) {
        before.len() + random.below(first.len())
    } else {
        shelf.len() - after.len() - 1 - random.below(other.len())
    };
    shelf[at] ^= 1 << random.below(8);
    let right = rescued(of, &shelf);
    tried += held(random, &right, &shelf, right.kept.len(), right.list.len(), right.most);
    if random.one_in(8) { tried + theorems(random, &shelf) } else { tried }
}

/// Nothing but 0 up to the last bytes of a shelf that is longer than 2^32.
pub fn far() -> u64 {
    let f6 = [0xC9, 0x50, 1, 1, 6, 0, 3, 0, 0, 0, 1, 0xFF, 1];
    let far = (1 << 32) + 3;
    let mut shelf = vec![0; far + 14];
    shelf[far..far + 13].copy_from_slice(&f6);
    let (mut out, mut list, mut coeffs) = ([7; 14], [7; 5], [7; 4]);
    let told = library::rescue(&shelf, &mut out, &mut list, &mut coeffs);
    assert!(told == Rescued { code: 0, kept: 13, stretches: 2 }, "a shelf of {} bytes: {told:?}", shelf.len());
    assert!(out[..13] == f6 && out[13] == 7 && coeffs == [0; 4], "a shelf of {} bytes: other buffers", shelf.len());
    assert!(list == [0, far as u64, far as u64 + 13, 1, 7], "a shelf of {} bytes: {list:?}", shelf.len());
    1
}
