//! Shelves: records one after another, looked up and browsed; good, cut, damaged and made up; against the rules of
//! docs/RULES.md written out anew, with a reader of records of its own.

use crate::library::{self, Browsed, Found};
use crate::random::Random;
use crate::records::{damage, made_up};
use crate::reference::{Reference, LARGEST};

/// A record that reads: its kind, its index, its degree, and what of the bytes is left after it.
pub type Read<'a> = (u64, usize, usize, &'a [u8]);

/// The bits that a coefficient needs without its sign, if each magnitude has so many at most: 7, 15, 31 or 63.
fn bits(magnitude: u128) -> Option<usize> {
    [7, 15, 31, 63].into_iter().find(|&b| magnitude >> b == 0)
}

/// The record that some bytes start with, or its code.
pub fn read<'a>(of: &Reference, bytes: &'a [u8]) -> Result<Read<'a>, u64> {
    let (head, rest) = bytes.split_at_checked(10).ok_or(8u64)?;
    let &[c9, fifty, kind, width, low, high, ref count @ ..] = head else { unreachable!() };
    if (c9, fifty) != (0xC9, 0x50) {
        return Err(9);
    }
    let kind = if let 1 | 2 = kind { kind as u64 } else { return Err(12) };
    let width = if let 1 | 2 | 4 | 8 = width { width as usize } else { return Err(13) };
    let n = low as usize + 256 * high as usize;
    if n == 0 {
        return Err(14);
    }
    let count = count.iter().rev().fold(0, |sum, &b| 256 * sum + b as usize);
    if count != of.degree(kind, n) + 1 {
        return Err(15);
    }
    let (body, rest) = rest.split_at_checked(count * width).ok_or(8u64)?;
    let whole = 1u128 << (8 * width);
    let magnitude = |c: &[u8]| {
        let v = c.iter().rev().fold(0, |sum, &b| 256 * sum + b as u128);
        v.min(whole - v)
    };
    let largest = body.chunks(width).map(magnitude).max().unwrap_or(0);
    if bits(largest) != Some(8 * width - 1) { Err(11) } else { Ok((kind, n, count - 1, rest)) }
}

fn browsed(of: &Reference, shelf: &[u8], at: u64) -> Browsed {
    let start = at.min(shelf.len() as u64);
    let bytes = &shelf[start as usize..];
    if bytes.is_empty() {
        return Browsed { start, ..Browsed::default() };
    }
    match read(of, bytes) {
        Err(code) => Browsed { code, start, ..Browsed::default() },
        Ok((kind, n, degree, rest)) => {
            let length = (bytes.len() - rest.len()) as u64;
            Browsed { code: 0, start, length, kind, n: n as u64, degree: degree as u64 }
        }
    }
}

fn found(of: &Reference, kind: u64, n: u64, own: &[u8], house: &[u8]) -> Found {
    if kind.wrapping_sub(1) > 1 {
        return Found { code: 1, ..Found::default() };
    }
    if n == 0 || n > LARGEST as u64 {
        return Found { code: 2, ..Found::default() };
    }
    for (shelf, bytes) in [(1, own), (2, house)] {
        let mut left = bytes;
        while !left.is_empty() {
            let start = (bytes.len() - left.len()) as u64;
            let (k, m, _, rest) = match read(of, left) {
                Err(code) => return Found { code, byte: start, shelf, ..Found::default() },
                Ok(record) => record,
            };
            if (k, m as u64) == (kind, n) {
                let length = (left.len() - rest.len()) as u64;
                return Found { from: shelf, start, length, ..Found::default() };
            }
            left = rest;
        }
    }
    Found { code: 17, ..Found::default() }
}

fn start_of(shelf: &[u8]) -> &[u8] {
    &shelf[..shelf.len().min(120)]
}

fn looked_up(of: &Reference, kind: u64, n: u64, own: &[u8], house: &[u8]) -> u64 {
    let (told, right) = (library::lookup(kind, n, own, house), found(of, kind, n, own, house));
    let shelves = || format!("{:?} ({} bytes), {:?} ({})", start_of(own), own.len(), start_of(house), house.len());
    assert!(told == right, "lookup {kind} {n} in {}: {told:?}, not {right:?}", shelves());
    1
}

fn shown(of: &Reference, shelf: &[u8], at: u64) -> u64 {
    let (told, right) = (library::browse(shelf, at), browsed(of, shelf, at));
    assert!(told == right, "browse {:?} ({} bytes) at {at}: {told:?}, not {right:?}", start_of(shelf), shelf.len());
    1
}

/// A record that is as it should be.
pub fn good(random: &mut Random, of: &Reference, most: usize) -> Vec<u8> {
    let kind = 1 + random.below(2) as u64;
    let n = 1 + random.below(most);
    let width = random.of(&[1, 1, 1, 2, 4, 8usize]);
    let count = of.degree(kind, n) + 1;
    let mut bytes = vec![0xC9, 0x50, kind as u8, width as u8];
    bytes.extend((n as u16).to_le_bytes());
    bytes.extend((count as u32).to_le_bytes());
    let top = i64::MAX >> (64 - 8 * width);
    let mut coeffs: Vec<i64> = (0..count).map(|_| random.signed(8 * width).max(-top)).collect();
    // one that needs this width, wherever it stands
    let least = if width == 1 { 0 } else { 1 << (4 * width - 1) };
    coeffs[random.below(count)] = random.of(&[top, -top, least, -least]);
    coeffs.iter().for_each(|c| bytes.extend(&c.to_le_bytes()[..width]));
    bytes
}

/// Records of some few indices, so that many come again; at times of a wrong width, damaged, or cut.
fn shelf(random: &mut Random, of: &Reference) -> Vec<u8> {
    let mut all = Vec::new();
    let rare = random.of(&[6, 20, 1000]);
    let most = random.of(&[3, 8, 8, 40]);
    for _ in 0..random.below(9) {
        let mut one = if random.one_in(rare) { made_up(random, of) } else { good(random, of, most) };
        if random.one_in(rare) {
            damage(random, &mut one);
        }
        all.extend(one);
    }
    if random.one_in(rare) {
        damage(random, &mut all);
    }
    all
}

/// A kind and an index: that of some record of a shelf, or any.
fn asked(random: &mut Random, of: &Reference, shelf: &[u8]) -> (u64, u64) {
    match random.below(10) {
        0 => (random.of(&[0, 1, 2, 3, 257, 1 << 32 | 1, u64::MAX]), random.of(&[0, 1, 6, 65535, 65536, u64::MAX])),
        1..=4 => (1 + random.below(2) as u64, 1 + random.below(8) as u64),
        _ => {
            let mut at = 0;
            let mut last = browsed(of, shelf, at);
            for _ in 0..random.below(8) {
                at += last.length;
                let next = browsed(of, shelf, at);
                if next.length > 0 {
                    last = next;
                }
            }
            if last.length > 0 { (last.kind, last.n) } else { (1, 6) }
        }
    }
}

/// Two shelves, at times the same one or an empty one: some lookups, and all places that a walk meets, and some others.
pub fn any(random: &mut Random, of: &Reference) -> u64 {
    let own = if random.one_in(8) { Vec::new() } else { shelf(random, of) };
    let other = if random.one_in(8) { Vec::new() } else { shelf(random, of) };
    let house = if random.one_in(8) { own.clone() } else { other };
    let before = (own.clone(), house.clone());
    let mut tried = 0;
    for _ in 0..3 {
        let of_which = if random.one_in(2) { &own } else { &house };
        let (kind, n) = asked(random, of, of_which);
        tried += looked_up(of, kind, n, &own, &house);
        tried += looked_up(of, kind, n, &house, &own);
    }
    let mut at = 0;
    loop {
        tried += shown(of, &own, at);
        let b = browsed(of, &own, at);
        if b.length == 0 {
            break;
        }
        at = b.start + b.length;
    }
    let len = house.len();
    for at in [random.below(len + 3), random.below(len + 3), len] {
        tried += shown(of, &house, at as u64);
    }
    let far = random.of(&[u64::MAX, 1 << 63, 1 << 32, u64::MAX - len as u64, (1 << 32) + len as u64]);
    tried += shown(of, &house, far);
    assert!((own, house) == before, "a shelf was written to");
    tried
}

/// Two records, each of whose bytes is in turn each other byte, and which end at every place: looked up and browsed.
pub fn every_byte(random: &mut Random, of: &Reference) -> u64 {
    let first = good(random, of, 9);
    let second = good(random, of, 9);
    let mut shelf = [&first[..], &second].concat();
    let (kind, n) = (second[2] as u64, second[4] as u64);
    let mut tried = 0;
    for at in 0..shelf.len() {
        let was = shelf[at];
        for byte in 0..=255 {
            shelf[at] = byte;
            tried += looked_up(of, kind, n, &shelf, &second);
            tried += shown(of, &shelf, if at < first.len() { 0 } else { first.len() as u64 });
        }
        shelf[at] = was;
        tried += looked_up(of, kind, n, &first, &shelf[..at]);
        tried += shown(of, &shelf[..at], at.min(first.len()) as u64);
    }
    tried
}

/// Large records, and one coefficient of the last that may be of another width: what is looked up stands last.
pub fn large(random: &mut Random, of: &Reference) -> u64 {
    let mut all: Vec<u8> = (0..random.below(4)).flat_map(|_| good(random, of, LARGEST)).collect();
    let start = all.len();
    all.extend(good(random, of, LARGEST));
    if random.one_in(2) {
        let at = start + random.below(all.len() - start);
        all[at] = random.of(&[0, 1, 127, 128, 255]);
    }
    let (kind, n) = (all[start + 2] as u64, all[start + 4] as u64 + 256 * all[start + 5] as u64);
    let cut = all.len() - random.below(3);
    let mut tried = looked_up(of, kind, n, &all, &[]) + looked_up(of, kind, n, &[], &all[..cut]);
    tried += looked_up(of, 3 - kind, n, &all[..cut], &all);
    tried + shown(of, &all, start as u64) + shown(of, &all[..cut], start as u64)
}
