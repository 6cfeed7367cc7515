//! Censuses of heights: of every index, of ranges of any length, some that are none, in rooms about as large as needed;
//! against a table of the reference's heights, counted height by height. Both slices are held entirely, past what is
//! lent too.

use crate::library::{self, Counted};
use crate::random::Random;
use crate::reference::{divisors, odd_part, Reference};
use crate::requests::additions;

/// The largest index, and the entries to work in.
const LAST: usize = 4095;
const ENTRIES: usize = 4096;

/// Numbers and entries past those that are lent.
const PAST: usize = 5;

/// The height of F(n) and the additions that are told of it, by n.
pub struct Table(Vec<(u64, u64)>);

impl Table {
    pub fn new(of: &mut Reference) -> Self {
        let mut told = |n: usize| {
            let (r, height) = (odd_part(n), of.pair(n).f.iter().map(|c| c.unsigned_abs() as u64).max().unwrap());
            (height, if r == 1 { 0 } else { additions(of.degree(1, r) / 2, &divisors(r)) })
        };
        Table((0..=LAST).map(|n| if n == 0 { (0, 0) } else { told(n) }).collect())
    }

    /// The numbers of all rows, and the additions.
    fn counted(&self, a: usize, b: usize) -> (Vec<u64>, u64) {
        let here = &self.0[a..=b];
        let tallest = here.iter().map(|told| told.0).max().unwrap();
        let row = |height: u64| {
            let count = here.iter().filter(|told| told.0 == height).count();
            let smallest = here.iter().position(|told| told.0 == height)? + a;
            Some([height, smallest as u64, count as u64])
        };
        ((1..=tallest).filter_map(row).flatten().collect(), here.iter().map(|told| told.1).sum())
    }
}

fn good(a: u64, b: u64) -> bool {
    1 <= a && a <= b && b <= LAST as u64
}

/// How many numbers the rows from a to b have; of a range that is none, some.
fn needed(table: &Table, a: u64, b: u64) -> usize {
    if good(a, b) { table.counted(a as usize, b as usize).0.len() } else { 9 }
}

/// A request in so much room, held to what must come of it.
fn held(random: &mut Random, table: &Table, a: u64, b: u64, slots: usize, entries: usize) -> u64 {
    let numbers: Vec<u64> = (0..slots + PAST).map(|_| random.word()).collect();
    // of any contents, at times of every sort
    let step = random.word() as i64 | 1;
    let many = entries + PAST;
    let before =
        if random.one_in(30) { random.slice(many) } else { (1..=many as i64).map(|i| i.wrapping_mul(step)).collect() };
    let (mut rows, mut work) = (numbers.clone(), before.clone());
    let told = library::census(a, b, &mut rows[..slots], &mut work[..entries]);

    let (mut left, mut worked) = (numbers, before);
    let mut right = Counted { code: 0, rows: 0, additions: 0 };
    if !good(a, b) {
        right.code = 21;
    } else if entries < ENTRIES {
        right.code = 4;
    } else {
        worked[..ENTRIES].fill(0);
        let (put, additions) = table.counted(a as usize, b as usize);
        if slots < put.len() {
            right.code = 22;
        } else {
            right = Counted { code: 0, rows: put.len() as u64 / 3, additions };
            left[..put.len()].copy_from_slice(&put);
        }
    }
    let asked = || format!("census {a} {b} in {slots}, {entries}");
    assert!(told == right, "{}: {told:?}, not {right:?}", asked());
    assert!(rows == left, "{}: other rows, {:?}", asked(), &rows[..rows.len().min(24)]);
    assert!(work == worked, "{}: other entries to work in", asked());
    1
}

/// A bound that is none, or nearly.
fn edge(random: &mut Random) -> u64 {
    let far = 1 << 32;
    let some = random.word();
    random.of(&[0, 1, 2, 4094, 4095, 4096, 4097, 8191, 65535, far, far + 1, far + 4095, 1 << 63, u64::MAX, some])
}

/// From an index to one that is so far off, or to the last.
fn range(random: &mut Random, most: usize) -> (u64, u64) {
    let a = 1 + random.below(LAST);
    (a as u64, (a + random.below(most)).min(LAST) as u64)
}

/// Any bounds and rooms.
pub fn any(random: &mut Random, table: &Table) -> u64 {
    let (mut a, mut b) = match random.below(300) {
        0 => range(random, LAST),
        1..=9 => range(random, 500),
        10..=199 => range(random, 30),
        _ => range(random, 3),
    };
    match random.below(40) {
        0 => a = edge(random),
        1 => b = edge(random),
        2 => (a, b) = (edge(random), edge(random)),
        3 => (a, b) = (b, a),
        _ => {}
    }
    let enough = needed(table, a, b);
    let slots = match random.below(10) {
        0 => random.below(enough + 1),
        1 => enough - 1,
        2 | 3 => enough + random.below(9),
        4 => 192,
        _ => enough,
    };
    let entries = match random.below(20) {
        0 => random.below(ENTRIES),
        1 => ENTRIES - 1,
        2 => random.of(&[0, 1, 5000, 65536]),
        3..=6 => ENTRIES + random.below(9),
        _ => ENTRIES,
    };
    held(random, table, a, b, slots, entries)
}

/// Every index alone, in as much room as is needed and in one number and one entry less; and a range that starts there.
pub fn every_index(random: &mut Random, table: &Table) -> u64 {
    let mut tried = 0;
    for n in 1..=LAST as u64 {
        tried += held(random, table, n, n, 3, ENTRIES);
        tried += held(random, table, n, n, 2, ENTRIES + 1);
        tried += held(random, table, n, n, 3, ENTRIES - 1);
        let b = (n + random.below(50) as u64).min(LAST as u64);
        tried += held(random, table, n, b, needed(table, n, b), ENTRIES);
    }
    tried
}

/// From the first index on, and up to the last; of all of them in every number of numbers up to some more than needed.
pub fn long(random: &mut Random, table: &Table) -> u64 {
    let last = LAST as u64;
    let mut tried = 0;
    for n in (5..=last).step_by(10) {
        tried += held(random, table, 1, n, needed(table, 1, n), ENTRIES);
        tried += held(random, table, n, last, needed(table, n, last), ENTRIES);
    }
    tried + (0..needed(table, 1, last) + 9).map(|slots| held(random, table, 1, last, slots, ENTRIES)).sum::<u64>()
}
