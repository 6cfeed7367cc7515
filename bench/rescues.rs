//! Damaged shelves, rescued. A shelf of some 100 MB, of records of both kinds and any index, whole and with a thousand
//! holes: in rooms so large that nothing can be refused, and with a list that is just long enough, in turns with making
//! the polynomials of all its records once. Then shelves of which nothing is kept: bytes without a mark, the mark over
//! and over, and a header over and over, at each of which a record reads.

use crate::records::bv_write;
use crate::shelves::turns;
use crate::{bv_polynomial, NO_LIMIT};

const ROUNDS: usize = 5;
const LARGE: usize = 100_000_000;
const HOLES: usize = 1000;
const HOLE: usize = 64;
/// Of the shelves with nothing to be kept; and of the last, whose time grows with the records that read.
const GARBAGE: usize = 16 << 20;
const READING: usize = 3 * 65536;
const ENTRIES: usize = 65536;

#[repr(C)]
struct Rescued {
    code: u64,
    kept: u64,
    stretches: u64,
}

extern "C" {
    fn bv_rescue(
        shelf: *const u8,
        len: usize,
        out: *mut u8,
        room: usize,
        list: *mut u64,
        slots: usize,
        coeffs: *mut i64,
        entries: usize,
    ) -> Rescued;
}

fn rescue(shelf: &[u8], out: &mut [u8], list: &mut [u64], coeffs: &mut [i64]) -> (usize, usize) {
    let (numbers, slots, work, entries) = (list.as_mut_ptr(), list.len(), coeffs.as_mut_ptr(), coeffs.len());
    let a = unsafe {
        bv_rescue(shelf.as_ptr(), shelf.len(), out.as_mut_ptr(), out.len(), numbers, slots, work, entries)
    };
    assert!(a.code == 0, "code {}", a.code);
    (a.kept as usize, a.stretches as usize)
}

struct Random(u64);

impl Random {
    fn below(&mut self, end: usize) -> usize {
        self.0 = self.0.wrapping_mul(6364136223846793005).wrapping_add(1442695040888963407);
        ((self.0 >> 33) % end as u64) as usize
    }
}

fn made(kind: u64, n: u64, coeffs: &mut [i64]) -> usize {
    let a = unsafe { bv_polynomial(kind, n, NO_LIMIT, NO_LIMIT, coeffs.as_mut_ptr(), coeffs.len()) };
    assert!(a.code == 0);
    a.degree as usize + 1
}

/// Records of any kind and index, and which they are.
fn good(random: &mut Random) -> (Vec<u8>, Vec<(u64, u64)>) {
    let (mut shelf, mut which, mut coeffs) = (Vec::with_capacity(LARGE + 600_000), Vec::new(), vec![0; ENTRIES]);
    while shelf.len() < LARGE {
        let (kind, n) = (1 + random.below(2) as u64, 1 + random.below(65535) as u64);
        let (start, count) = (shelf.len(), made(kind, n, &mut coeffs));
        shelf.resize(start + 10 + 8 * count, 0);
        let room = &mut shelf[start..];
        let a = unsafe { bv_write(kind, n, coeffs.as_ptr(), count, room.as_mut_ptr(), room.len()) };
        assert!(a.code == 0);
        shelf.truncate(start + a.used as usize);
        which.push((kind, n));
    }
    (shelf, which)
}

fn rescued(shelf: &[u8], which: &[(u64, u64)], holes: usize) {
    // all pages of it are touched beforehand
    let (mut out, mut other) = (vec![7u8; shelf.len()], vec![7u8; shelf.len()]);
    let mut ample = vec![0u64; shelf.len() + 1]; // of these only the first are
    ample[..4 * HOLES].fill(7);
    let mut coeffs = vec![7i64; ENTRIES];
    let (kept, stretches) = rescue(shelf, &mut out, &mut ample, &mut coeffs);
    let mut exact = vec![7u64; 2 * stretches];
    let (mut again, mut buf) = (coeffs.clone(), coeffs.clone());
    let mut work: Vec<Box<dyn FnMut() + '_>> = vec![
        Box::new(|| assert!(rescue(shelf, &mut out, &mut ample, &mut coeffs) == (kept, stretches))),
        Box::new(|| assert!(rescue(shelf, &mut other, &mut exact, &mut again) == (kept, stretches))),
        Box::new(|| assert!(which.iter().map(|&(kind, n)| made(kind, n, &mut buf)).sum::<usize>() > 0)),
    ];
    let times: Vec<f64> = turns(ROUNDS, &mut work).iter().map(|t| t / 1e6).collect();
    drop(work);
    assert!(out[..kept] == other[..kept] && ample[..exact.len()] == exact);
    let [a, e, m] = times[..] else { unreachable!() };
    let (records, lost, ratios) = (which.len(), shelf.len() - kept, [a / m, e / m]);
    print!("{records:>8} {holes:>6} {lost:>10} {stretches:>10} ");
    println!("{m:>9.1} {a:>9.1} {:>6.2} {e:>9.1} {:>6.2}", ratios[0], ratios[1]);
}

/// All of it is one stretch.
fn skipped(name: &str, shelf: &[u8]) {
    let (mut out, mut ample, mut exact) = (vec![7u8; shelf.len()], vec![0u64; shelf.len() + 1], [7u64; 2]);
    let (mut coeffs, mut again) = (vec![7i64; ENTRIES], vec![7i64; ENTRIES]);
    let mut work: Vec<Box<dyn FnMut() + '_>> = vec![
        Box::new(|| assert!(rescue(shelf, &mut out, &mut ample, &mut coeffs) == (0, 1))),
        Box::new(|| assert!(rescue(shelf, &mut [], &mut exact, &mut again) == (0, 1))),
    ];
    let times: Vec<f64> = turns(ROUNDS, &mut work).iter().map(|t| t / shelf.len() as f64).collect();
    println!("{name:<43} {:>9} {:>9.2} {:>9.2}", shelf.len(), times[0], times[1]);
}

pub fn print() {
    let mut random = Random(1);
    let (mut shelf, which) = good(&mut random);
    println!();
    println!("a shelf of {} bytes, rescued, median of {ROUNDS}, milliseconds", shelf.len());
    println!("made: its polynomials, once; ample: nothing can be refused; exact: the list is just long enough");
    println!(" records  holes bytes lost  stretches      made     ample  ratio     exact  ratio");
    rescued(&shelf, &which, 0);
    for _ in 0..HOLES {
        let at = random.below(shelf.len() - HOLE);
        shelf[at..at + HOLE].iter_mut().for_each(|byte| *byte = random.below(256) as u8);
    }
    rescued(&shelf, &which, HOLES);
    drop(shelf);
    println!();
    println!("shelves of which nothing is kept, median of {ROUNDS}, nanoseconds a byte");
    println!("{:<43} {:>9} {:>9} {:>9}", "", "bytes", "ample", "exact");
    let mut bytes: Vec<u8> = (0..GARBAGE).map(|_| random.below(256) as u8).collect();
    (1..GARBAGE).for_each(|i| bytes[i] ^= (bytes[i - 1] == 0xC9 && bytes[i] == 0x50) as u8);
    skipped("any bytes, without a mark", &bytes);
    skipped("the mark over and over", &[0xC9, 0x50].repeat(GARBAGE / 2));
    let header = [0xC9, 0x50, 1, 1, 0xF1, 0xFF, 0xF1, 0xFF, 0, 0]; // of F(65521)
    skipped("a header over and over, each of which reads", &header.repeat(READING / 10));
}
