//! Half records: written, read, and converted from the records of the old form and to them; good, uneven, damaged, cut
//! and made up; against the rules of docs/RULES.md written out anew, on the bytes themselves.

use crate::library::{self, Converted, Record, Written};
use crate::random::Random;
use crate::records::damage;
use crate::reference::{Reference, LARGEST};

const WHOLE: u8 = 0x50;
const HALF: u8 = 0x51;

/// What a header says, and the bytes of the coefficients that stand after it.
struct Held<'a> {
    kind: u64,
    n: usize,
    count: usize,
    width: usize,
    body: &'a [u8],
}

/// A refusal: its code, and the byte of a wrong field.
type Refused = (u64, u64);

/// How many coefficients a form stores of so many.
fn stored(form: u8, count: usize) -> usize {
    if form == HALF { count - count / 2 } else { count }
}

/// Whether the other half is negated.
fn negates(kind: u64, n: usize) -> bool {
    (kind == 1) == (n == 1)
}

/// A coefficient's bytes as a number from 0 on: so modulo 2^(8 width).
fn number(c: &[u8]) -> u128 {
    c.iter().rev().fold(0, |sum, &b| sum << 8 | b as u128)
}

/// The same negated.
fn opposite(c: &[u8]) -> u128 {
    ((1 << (8 * c.len())) - number(c)) % (1 << (8 * c.len()))
}

/// The record of a form that some bytes start with, as far as its coefficients are there.
fn held<'a>(of: &Reference, form: u8, bytes: &'a [u8]) -> Result<Held<'a>, Refused> {
    let (head, rest) = bytes.split_at_checked(10).ok_or((8, 0))?;
    if head[..2] != [0xC9, form] {
        return Err((9, 0));
    }
    let kind = if let 1 | 2 = head[2] { head[2] as u64 } else { return Err((12, 2)) };
    let width = if let 1 | 2 | 4 | 8 = head[3] { head[3] as usize } else { return Err((13, 3)) };
    let n = number(&head[4..6]) as usize;
    if n == 0 {
        return Err((14, 4));
    }
    let count = number(&head[6..]) as usize;
    if count != of.degree(kind, n) + 1 {
        return Err((15, 6));
    }
    let body = rest.get(..stored(form, count) * width).ok_or((8, 0))?;
    Ok(Held { kind, n, count, width, body })
}

impl Held<'_> {
    /// Whether the width is the least: no coefficient has the largest magnitude, and one has none of the next width
    /// below.
    fn least(&self) -> bool {
        let largest = self.body.chunks(self.width).map(|c| number(c).min(opposite(c))).max().unwrap_or(0);
        let fits = |width: usize| largest < 1 << (8 * width - 1);
        // the lowest number is its own opposite
        let lowest = 1 << (8 * self.width - 1);
        largest != lowest && (self.width == 1 || !fits(self.width / 2))
    }

    /// Whether the halves match, of all coefficients; of a first half, what it has in its middle.
    fn even(&self) -> bool {
        let w = self.width;
        let at = |i: usize| &self.body[i * w..][..w];
        let turned = |c: &[u8]| if negates(self.kind, self.n) { opposite(c) } else { number(c) };
        let stored = self.body.len() / w;
        (0..self.count).all(|i| {
            let j = self.count - 1 - i;
            i >= stored || j >= stored || number(at(j)) == turned(at(i))
        })
    }

    /// All coefficients in their width.
    fn all(&self) -> Vec<u8> {
        let mut all = self.body.to_vec();
        for i in (0..self.count - self.body.len() / self.width).rev() {
            let c = &self.body[i * self.width..][..self.width];
            let v = if negates(self.kind, self.n) { opposite(c) } else { number(c) };
            all.extend(&v.to_le_bytes()[..self.width]);
        }
        all
    }

    /// The record in a form, of all its coefficients.
    fn record(&self, form: u8, all: &[u8]) -> Vec<u8> {
        let mut bytes = vec![0xC9, form, self.kind as u8, self.width as u8];
        bytes.extend((self.n as u16).to_le_bytes());
        bytes.extend((self.count as u32).to_le_bytes());
        bytes.extend(&all[..stored(form, self.count) * self.width]);
        bytes
    }
}

fn written(of: &Reference, kind: u64, n: u64, coeffs: &[i64], before: &[u8]) -> (Written, Vec<u8>) {
    let mut bytes = before.to_vec();
    let told = (|| {
        let degree = match (kind, n) {
            (1 | 2, 1..=65535) => of.degree(kind, n as usize),
            (1 | 2, _) => return Written { code: 2, ..Written::default() },
            _ => return Written { code: 1, ..Written::default() },
        };
        if coeffs.len() != degree + 1 {
            return Written { code: 15, byte: 6, ..Written::default() };
        }
        let degree = degree as u64;
        if coeffs.contains(&i64::MIN) {
            return Written { code: 5, degree, ..Written::default() };
        }
        let sign = if negates(kind, n as usize) { -1 } else { 1 };
        if coeffs.iter().zip(coeffs.iter().rev()).any(|(a, b)| *a != sign * b) {
            return Written { code: 18, ..Written::default() };
        }
        let width = [1, 2, 4].into_iter().find(|w| coeffs.iter().all(|c| c.abs() >> (8 * w - 1) == 0)).unwrap_or(8);
        let all: Vec<u8> = coeffs.iter().flat_map(|c| c.to_le_bytes().into_iter().take(width)).collect();
        let record = Held { kind, n: n as usize, count: coeffs.len(), width, body: &all }.record(HALF, &all);
        let Some(room) = bytes.get_mut(..record.len()) else {
            return Written { code: 4, degree, ..Written::default() };
        };
        room.copy_from_slice(&record);
        Written { code: 0, degree, used: record.len() as u64, byte: 0 }
    })();
    (told, bytes)
}

fn read(of: &Reference, bytes: &[u8], before: &[i64]) -> (Record, Vec<i64>) {
    let refused = |code, byte, degree| (Record { code, byte, degree, ..Record::default() }, before.to_vec());
    let held = match held(of, HALF, bytes) {
        Ok(held) => held,
        Err((code, byte)) => return refused(code, byte, 0),
    };
    let degree = held.count as u64 - 1;
    if before.len() < held.count {
        return refused(4, 0, degree);
    }
    if !held.least() {
        return refused(11, 0, 0);
    }
    if !held.even() {
        return refused(18, 0, 0);
    }
    let signed = |c: &[u8]| (number(c) as i64) << (64 - 8 * held.width) >> (64 - 8 * held.width);
    let mut coeffs: Vec<i64> = held.all().chunks(held.width).map(signed).collect();
    coeffs.extend(&before[held.count..]);
    let used = 10 + held.body.len() as u64;
    (Record { code: 0, degree, used, kind: held.kind, n: held.n as u64, byte: 0 }, coeffs)
}

/// A record of one form to the other.
fn converted(of: &Reference, from: u8, bytes: &[u8], before: &[u8]) -> (Converted, Vec<u8>) {
    let refused = |code, byte, degree| (Converted { code, byte, degree, ..Converted::default() }, before.to_vec());
    let held = match held(of, from, bytes) {
        Ok(held) => held,
        Err((code, byte)) => return refused(code, byte, 0),
    };
    if !held.least() {
        return refused(11, 0, 0);
    }
    if !held.even() {
        return refused(18, 0, 0);
    }
    let (degree, other) = (held.count as u64 - 1, held.record(from ^ WHOLE ^ HALF, &held.all()));
    if before.len() < other.len() {
        return refused(4, 0, degree);
    }
    let (read, written) = (10 + held.body.len() as u64, other.len() as u64);
    (Converted { code: 0, degree, read, written, byte: 0 }, [&other, &before[other.len()..]].concat())
}

fn start_of<T>(bytes: &[T]) -> &[T] {
    &bytes[..bytes.len().min(60)]
}

fn writing(of: &Reference, kind: u64, n: u64, coeffs: &[i64], before: &[u8]) -> (Written, Vec<u8>) {
    let (right, after) = written(of, kind, n, coeffs, before);
    let mut bytes = before.to_vec();
    let told = library::write_half(kind, n, coeffs, &mut bytes);
    let asked = || format!("write_half {kind} {n} {:?} ({}) in {}", start_of(coeffs), coeffs.len(), before.len());
    assert!(told == right, "{}: {told:?}, not {right:?}", asked());
    assert!(bytes == after, "{}: another buffer", asked());
    (told, bytes)
}

fn reading(of: &Reference, bytes: &[u8], before: &[i64]) -> u64 {
    let (right, after) = read(of, bytes, before);
    let mut coeffs = before.to_vec();
    let told = library::read_half(bytes, &mut coeffs);
    let asked = || format!("read_half {:?} ({} bytes) into {}", start_of(bytes), bytes.len(), before.len());
    assert!(told == right, "{}: {told:?}, not {right:?}", asked());
    assert!(coeffs == after, "{}: another buffer", asked());
    if told.code != 0 {
        return 1;
    }
    // what reads well is written to the same bytes again
    let used = told.used as usize;
    let (_, again) = writing(of, told.kind, told.n, &coeffs[..told.degree as usize + 1], &vec![0; used]);
    assert!(again == bytes[..used], "{:?} is written anew as {:?}", start_of(bytes), start_of(&again));
    2
}

fn converting(of: &Reference, from: u8, bytes: &[u8], before: &[u8]) -> u64 {
    let (right, after) = converted(of, from, bytes, before);
    let convert = |from, bytes: &[u8], out: &mut [u8]| {
        if from == WHOLE { library::to_half(bytes, out) } else { library::to_whole(bytes, out) }
    };
    let mut out = before.to_vec();
    let told = convert(from, bytes, &mut out);
    let asked = || format!("from {from:02X}: {:?} ({} bytes) in {}", start_of(bytes), bytes.len(), before.len());
    assert!(told == right, "{}: {told:?}, not {right:?}", asked());
    assert!(out == after, "{}: another buffer", asked());
    if told.code != 0 {
        return 1;
    }
    // and back to the same bytes
    let (read, made) = (told.read as usize, told.written as usize);
    let mut back = vec![0; read];
    let again = convert(from ^ WHOLE ^ HALF, &out[..made], &mut back);
    assert!((again.code, again.read, again.written) == (0, told.written, told.read), "{}: back {again:?}", asked());
    assert!(back == bytes[..read], "{}: back as {:?}", asked(), start_of(&back));
    2
}

/// Coefficients whose halves match and which need a width; at times one of them is another.
fn coefficients(random: &mut Random, of: &Reference, kind: u64, n: usize, rare: usize) -> Vec<i64> {
    let count = of.degree(kind, n) + 1;
    let width = random.of(&[1, 1, 2, 4, 8usize]);
    let top = i64::MAX >> (64 - 8 * width);
    let bits = random.of(&[1, 4 * width, 8 * width]);
    let mut all: Vec<i64> = (0..count).map(|_| random.signed(bits).max(-top)).collect();
    let place = random.below(count);
    all[place] = random.of(&[top, -top, top / 2, 1, 0]);
    for i in 0..count - count / 2 {
        let c = if negates(kind, n) { -all[i] } else { all[i] };
        all[count - 1 - i] = if negates(kind, n) && 2 * i + 1 == count { 0 } else { c };
    }
    if random.one_in(rare) {
        let any = random.below(count);
        let at = random.of(&[0, count / 2, count - 1, any]);
        all[at] = match random.below(4) {
            0 => random.extreme(),
            1 => all[at].wrapping_neg(),
            _ => all[at].wrapping_add(random.of(&[-1, 1])),
        };
    }
    all
}

/// A record of a form with such coefficients, its width mostly the least, and at times damaged.
fn some(random: &mut Random, of: &Reference, form: u8, most: usize, rare: usize) -> Vec<u8> {
    let (kind, n) = (1 + random.below(2) as u64, 1 + random.below(most));
    let coeffs = coefficients(random, of, kind, n, rare);
    let height = coeffs.iter().map(|c| c.unsigned_abs()).max().unwrap();
    let least = [1, 2, 4].into_iter().find(|w| height >> (8 * w - 1) == 0).unwrap_or(8);
    let width = if random.one_in(rare) { random.of(&[1, 2, 4, 8]) } else { least };
    let mut all: Vec<u8> = coeffs.iter().flat_map(|c| c.to_le_bytes().into_iter().take(width)).collect();
    if random.one_in(rare) {
        // the lowest number of its width
        let at = random.below(coeffs.len()) * width;
        all[at..at + width].fill(0);
        all[at + width - 1] = 0x80;
    }
    let mut bytes = Held { kind, n, count: coeffs.len(), width, body: &all }.record(form, &all);
    if random.one_in(2 * rare) {
        bytes[1] = random.of(&[WHOLE, HALF, 0xC9]);
    }
    if random.one_in(rare) {
        damage(random, &mut bytes);
    }
    bytes
}

/// A room about as large as what a record is converted to.
fn room(random: &mut Random, form: u8, bytes: &[u8]) -> Vec<u8> {
    let body = bytes.len().saturating_sub(10);
    let need = 10 + if form == WHOLE { body / 2 } else { 2 * body };
    let len = match random.below(8) {
        0 => random.below(need + 1),
        1..=3 => (need + random.below(12)).saturating_sub(8),
        _ => need + 9 + random.below(4),
    };
    random.bytes(len)
}

/// A write with any kind, index, count and room; reads of what it wrote; and records of both forms, read and converted.
pub fn any(random: &mut Random, of: &Reference) -> u64 {
    let rare = random.of(&[3, 8, 100]);
    let n = match random.below(10) {
        0 => random.of(&[1, 2, 2000, LARGEST as u64 / 40]),
        _ => 1 + random.below(60) as u64,
    };
    let kind = 1 + random.below(2) as u64;
    let mut coeffs = coefficients(random, of, kind, n as usize, rare);
    let asked = match random.below(3 * rare) {
        0 => (random.of(&[0, 3, 257, 1 << 32 | 1, u64::MAX]), random.of(&[n, 0, 65536])),
        1 => (kind, random.of(&[0, 65536, 1 << 32 | n, u64::MAX])),
        2 => (3 - kind, n),
        _ => (kind, n),
    };
    if random.one_in(3 * rare) {
        coeffs.truncate(random.below(coeffs.len() + 1));
    }
    let height = coeffs.iter().map(|c| c.unsigned_abs()).max().unwrap_or(0);
    let width = [1, 2, 4].into_iter().find(|w| height >> (8 * w - 1) == 0).unwrap_or(8);
    let need = 10 + width * coeffs.len().div_ceil(2);
    let len = if random.one_in(4) { random.below(need + 1) } else { need + random.below(4) };
    let before = random.bytes(len);
    let (told, mut bytes) = writing(of, asked.0, asked.1, &coeffs, &before);
    let mut tried = 1;
    if told.code == 0 {
        let count = (coeffs.len() + random.below(3)).saturating_sub(random.of(&[0, 0, 0, 1, 2]));
        let entries = random.slice(count);
        tried += reading(of, &bytes, &entries);
        damage(random, &mut bytes);
        tried += reading(of, &bytes, &entries);
    }
    for form in [WHOLE, HALF] {
        let bytes = some(random, of, form, 40, rare);
        let out = room(random, form, &bytes);
        tried += converting(of, form, &bytes, &out);
        tried += converting(of, form ^ WHOLE ^ HALF, &bytes, &out);
        let len = random.below(44);
        let entries = random.slice(len);
        tried += reading(of, &bytes, &entries);
    }
    tried
}

/// A record of each form, each of whose bytes is in turn each other byte, and which ends at every place, in a room of
/// every size.
pub fn every_byte(random: &mut Random, of: &Reference) -> u64 {
    let mut tried = 0;
    let entries = random.slice(12);
    for form in [WHOLE, HALF] {
        let mut bytes = some(random, of, form, 9, 1_000_000);
        let out = random.bytes(160);
        for at in 0..bytes.len() {
            let was = bytes[at];
            for byte in 0..=255 {
                bytes[at] = byte;
                tried += converting(of, form, &bytes, &out);
                tried += reading(of, &bytes, &entries);
            }
            bytes[at] = was;
            tried += converting(of, form, &bytes[..at], &out) + reading(of, &bytes[..at], &entries);
        }
        for len in 0..out.len() {
            tried += converting(of, form, &bytes, &out[..len]);
        }
    }
    tried
}

/// Large records of any numbers, at times with one byte that is another.
pub fn large(random: &mut Random, of: &Reference) -> u64 {
    let mut tried = 0;
    for form in [WHOLE, HALF] {
        let mut bytes = some(random, of, form, LARGEST, 50);
        if random.one_in(2) {
            let at = random.below(bytes.len());
            bytes[at] ^= 1 << random.below(8);
        }
        let out = room(random, form, &bytes);
        tried += converting(of, form, &bytes, &out);
        tried += reading(of, &bytes, &vec![77; LARGEST + 1]);
    }
    tried
}

/// The polynomial of one kind at n, written, read, and converted both ways.
pub fn index(random: &mut Random, of: &mut Reference, n: usize) -> u64 {
    let kind = 1 + random.below(2) as u64;
    let pair = of.pair(n);
    let coeffs: Vec<i64> = (if kind == 1 { &pair.f } else { &pair.i }).iter().map(|&c| c as i64).collect();
    let extra = random.below(3);
    let (told, half) = writing(of, kind, n as u64, &coeffs, &vec![7; 10 + 2 * coeffs.len() + extra]);
    assert!(told.code == 0, "the halves of the polynomial {kind} {n} don't match");
    let half = &half[..told.used as usize];
    1 + reading(of, half, &vec![77; coeffs.len() + extra]) + converting(of, HALF, half, &vec![7; 10 + 2 * coeffs.len()])
}
