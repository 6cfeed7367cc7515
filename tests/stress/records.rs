//! Shelf records: written, read back, damaged, made up; against the rules of docs/RULES.md written out anew.

use crate::library::{self, Record, Written};
use crate::random::Random;
use crate::reference::{Reference, LARGEST};

fn known(kind: u64) -> bool {
    kind == 1 || kind == 2
}

/// The least width; none where a coefficient is -2^63.
fn width(coeffs: &[i64]) -> Option<usize> {
    let height = coeffs.iter().map(|c| c.unsigned_abs()).max().unwrap_or(0);
    [1, 2, 4, 8].into_iter().find(|w| height <= (1u64 << (8 * w - 1)) - 1)
}

fn written(of: &Reference, kind: u64, n: u64, coeffs: &[i64], before: &[u8]) -> (Written, Vec<u8>) {
    let mut bytes = before.to_vec();
    let refused = |code, degree, byte| Written { code, degree, used: 0, byte };
    if !known(kind) {
        return (refused(1, 0, 0), bytes);
    }
    if n == 0 || n > LARGEST as u64 {
        return (refused(2, 0, 0), bytes);
    }
    let degree = of.degree(kind, n as usize);
    if coeffs.len() != degree + 1 {
        return (refused(15, 0, 6), bytes);
    }
    let Some(w) = width(coeffs) else {
        return (refused(5, degree as u64, 0), bytes);
    };
    let used = 10 + w * coeffs.len();
    if bytes.len() < used {
        return (refused(4, degree as u64, 0), bytes);
    }
    let mut record = vec![0xC9, 0x50, kind as u8, w as u8];
    record.extend((n as u16).to_le_bytes());
    record.extend((coeffs.len() as u32).to_le_bytes());
    coeffs.iter().for_each(|c| record.extend(&c.to_le_bytes()[..w]));
    bytes[..used].copy_from_slice(&record);
    (Written { code: 0, degree: degree as u64, used: used as u64, byte: 0 }, bytes)
}

fn read(of: &Reference, bytes: &[u8], before: &[i64]) -> (Record, Vec<i64>) {
    let mut coeffs = before.to_vec();
    let refused = |code, degree| Record { code, degree, ..Record::default() };
    if bytes.len() < 10 {
        return (refused(8, 0), coeffs);
    }
    if bytes[..2] != [0xC9, 0x50] {
        return (refused(9, 0), coeffs);
    }
    let (kind, w) = (bytes[2] as u64, bytes[3] as usize);
    let n = u16::from_le_bytes([bytes[4], bytes[5]]) as usize;
    let count = u32::from_le_bytes([bytes[6], bytes[7], bytes[8], bytes[9]]) as usize;
    let fault = |code, byte| Record { code, byte, ..Record::default() };
    if !known(kind) {
        return (fault(12, 2), coeffs);
    }
    if ![1, 2, 4, 8].contains(&w) {
        return (fault(13, 3), coeffs);
    }
    if n == 0 {
        return (fault(14, 4), coeffs);
    }
    if count != of.degree(kind, n) + 1 {
        return (fault(15, 6), coeffs);
    }
    if bytes.len() < 10 + w * count {
        return (refused(8, 0), coeffs);
    }
    let degree = count as u64 - 1;
    if coeffs.len() < count {
        return (refused(4, degree), coeffs);
    }
    let signed = |c: &[u8]| {
        let mut whole = [if c[w - 1] < 128 { 0 } else { 255 }; 8];
        whole[..w].copy_from_slice(c);
        i64::from_le_bytes(whole)
    };
    let stored: Vec<i64> = bytes[10..10 + w * count].chunks(w).map(signed).collect();
    if width(&stored) != Some(w) {
        return (refused(11, 0), coeffs);
    }
    coeffs[..count].copy_from_slice(&stored);
    (Record { code: 0, degree, used: (10 + w * count) as u64, kind, n: n as u64, byte: 0 }, coeffs)
}

fn reading(of: &Reference, bytes: &[u8], before: &[i64]) -> u64 {
    let (answer, after) = read(of, bytes, before);
    let mut coeffs = before.to_vec();
    let told = library::read(bytes, &mut coeffs);
    let start = &bytes[..bytes.len().min(40)];
    assert!(told == answer, "read {start:?} ({} bytes) into {}: {told:?}, not {answer:?}", bytes.len(), before.len());
    assert!(coeffs == after, "read {start:?} ({} bytes) into {}: another buffer", bytes.len(), before.len());
    if told.code != 0 {
        return 1;
    }
    // what reads well is written to the same bytes again
    let used = told.used as usize;
    let mut again = vec![0; used];
    let out = library::write(told.kind, told.n, &coeffs[..told.degree as usize + 1], &mut again);
    assert!(out.code == 0 && again == bytes[..used], "{start:?} is written anew as {again:?}");
    2
}

/// Some change to a record: a bit, a byte, a header field, its end.
pub fn damage(random: &mut Random, bytes: &mut Vec<u8>) {
    let len = bytes.len();
    if len == 0 {
        return;
    }
    match random.below(7) {
        0 => {}
        1 => bytes[random.below(len)] ^= 1 << random.below(8),
        2 => bytes[random.below(len.min(10))] = random.of(&[0, 1, 2, 3, 4, 8, 16, 127, 128, 255, 0xC9, 0x50]),
        3 => bytes.truncate(random.below(len + 1)),
        4 => bytes.truncate(len - 1 - random.below(len.min(9))),
        5 => {
            let at = random.below(len);
            bytes[at] = random.of(&[0, 1, 127, 128, 129, 255]);
        }
        _ => bytes.extend(random.bytes(5)),
    }
}

/// A record whose fields are right but whose width is any of the four, with random coefficients, some -2^(8w-1).
pub fn made_up(random: &mut Random, of: &Reference) -> Vec<u8> {
    let kind = 1 + random.below(2) as u64;
    let n = 1 + random.below(40);
    let count = of.degree(kind, n) + 1;
    let w = random.of(&[1usize, 2, 4, 8]);
    let mut bytes = vec![0xC9, 0x50, kind as u8, w as u8];
    bytes.extend((n as u16).to_le_bytes());
    bytes.extend((count as u32).to_le_bytes());
    let bits = random.of(&[1, 8 * w / 2, 8 * w]);
    for _ in 0..count {
        let c = if random.one_in(40) { -1i64 << (8 * w - 1) } else { random.signed(bits) };
        bytes.extend(&c.to_le_bytes()[..w]);
    }
    bytes
}

/// A write with any kind, index, count and room; then reads of what it wrote, whole and damaged, and of made up bytes.
pub fn any(random: &mut Random, of: &Reference) -> u64 {
    let kind = if random.one_in(10) { random.of(&[0, 3, 257, u64::MAX]) } else { 1 + random.below(2) as u64 };
    let n = match random.below(12) {
        0 => random.of(&[0, 1, LARGEST as u64, LARGEST as u64 + 1, LARGEST as u64 + 7, u64::MAX]),
        1 => random.below(2000) as u64,
        _ => random.below(60) as u64,
    };
    let degree = if known(kind) && n >= 1 && n <= LARGEST as u64 { of.degree(kind, n as usize) } else { 5 };
    let count = if random.one_in(8) { random.below(degree + 4) } else { degree + 1 };
    let mut coeffs = random.slice(count);
    if !random.one_in(4) {
        let bits = random.of(&[1, 8, 9, 16, 17, 32, 33, 63]);
        coeffs = (0..count).map(|_| random.signed(bits)).collect();
    }
    let need = 10 + width(&coeffs).unwrap_or(8) * count;
    let room = if random.one_in(4) { (need + random.below(3)).saturating_sub(2) } else { need + random.below(4) };
    let before = random.bytes(room);
    let (answer, after) = written(of, kind, n, &coeffs, &before);
    let mut bytes = before.clone();
    let told = library::write(kind, n, &coeffs, &mut bytes);
    assert!(told == answer, "write {kind} {n} {coeffs:?} in {room}: {told:?}, not {answer:?}");
    assert!(bytes == after, "write {kind} {n} {coeffs:?} in {room}: another buffer");
    let mut tried = 1;
    let short = if random.one_in(6) { 1 + random.below(3) } else { 0 };
    let extra = random.below(3);
    let buffer = random.slice((degree + 1 + extra).saturating_sub(short));
    tried += reading(of, &bytes, &buffer);
    damage(random, &mut bytes);
    tried += reading(of, &bytes, &buffer);
    let mut other = if random.one_in(3) { let len = random.below(40); random.bytes(len) } else { made_up(random, of) };
    if random.one_in(2) {
        damage(random, &mut other);
    }
    let wide = random.slice(41);
    tried + reading(of, &other, &wide)
}
