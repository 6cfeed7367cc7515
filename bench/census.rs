//! A census of heights, of all indices that it takes and of some: in one request, in turns with a polynomial request
//! for each index, whose heights are counted here, and with the same by plain Rust. First all three are held to be
//! equal.

use crate::shelves::turns;
use crate::{ours, plain_rust};
use std::hint::black_box;

const ROUNDS: usize = 31;
const ENTRIES: usize = 4096;
const SLOTS: usize = 192;
const RANGES: [(u64, u64); 4] = [(1, 4095), (1, 104), (3072, 4095), (3135, 3135)];

#[repr(C)]
struct Counted {
    code: u64,
    rows: u64,
    additions: u64,
}

extern "C" {
    fn bv_census(a: u64, b: u64, rows: *mut u64, slots: usize, work: *mut i64, entries: usize) -> Counted;
}

/// The additions; the rows are in the slice, and how many they are.
fn census(a: u64, b: u64, rows: &mut [u64], work: &mut [i64]) -> (usize, u64) {
    let told = unsafe { bv_census(a, b, rows.as_mut_ptr(), rows.len(), work.as_mut_ptr(), work.len()) };
    assert!(told.code == 0, "code {}", told.code);
    (told.rows as usize, told.additions)
}

/// The same from the height and the additions of each index.
fn counted(a: u64, b: u64, rows: &mut [u64], mut told: impl FnMut(u64) -> (u64, u64)) -> (usize, u64) {
    let (mut all, mut sum) = ([[0u64; 2]; 64], 0);
    for n in a..=b {
        let (height, additions) = told(n);
        let [smallest, count] = &mut all[height as usize];
        if *count == 0 {
            *smallest = n;
        }
        *count += 1;
        sum += additions;
    }
    let mut many = 0;
    for (height, [smallest, count]) in all.into_iter().enumerate().filter(|(_, [_, count])| *count > 0) {
        rows[3 * many..3 * many + 3].copy_from_slice(&[height as u64, smallest, count]);
        many += 1;
    }
    (many, sum)
}

fn by_requests(a: u64, b: u64, rows: &mut [u64], work: &mut [i64]) -> (usize, u64) {
    counted(a, b, rows, |n| {
        let told = ours(n, work);
        (told.height, told.additions)
    })
}

fn by_plain_rust(a: u64, b: u64, rows: &mut [u64], work: &mut [i64]) -> (usize, u64) {
    counted(a, b, rows, |n| {
        let told = plain_rust(n, work);
        (told.height, told.additions)
    })
}

type Way = fn(u64, u64, &mut [u64], &mut [i64]) -> (usize, u64);

pub fn print() {
    println!();
    println!("censuses, median of {ROUNDS}, microseconds; requests: one for each index, counted in plain Rust");
    println!("   a     b  rows  additions     census   requests  ratio  plain Rust  ratio");
    for (a, b) in RANGES {
        let ways: [Way; 3] = [census, by_requests, by_plain_rust];
        let mut lent = ways.map(|way| (way, vec![0u64; SLOTS], vec![7i64; ENTRIES]));
        let told = lent.each_mut().map(|(way, rows, work)| way(a, b, rows, work));
        let rows = 3 * told[0].0;
        for (other, (_, put, _)) in told.iter().zip(&lent) {
            assert!(*other == told[0] && put[..rows] == lent[0].1[..rows], "censuses from {a} to {b} differ");
        }
        // a short one is asked for so often that the clock sees it
        let times = (200_000 / told[0].1.max(1)).max(1);
        let mut work: Vec<Box<dyn FnMut() + '_>> = Vec::new();
        for (way, rows, entries) in &mut lent {
            work.push(Box::new(move || {
                for _ in 0..times {
                    black_box(way(black_box(a), b, rows, entries));
                }
            }));
        }
        let each: Vec<f64> = turns(ROUNDS, &mut work).iter().map(|t| t / 1e3 / times as f64).collect();
        let [c, r, p] = each[..] else { unreachable!() };
        print!("{a:>4} {b:>5} {:>5} {:>10} ", told[0].0, told[0].1);
        println!("{c:>10.2} {r:>10.2} {:>6.3} {p:>11.2} {:>6.3}", c / r, c / p);
    }
}
