//! What a working limit costs: the same requests, and the same single steps, with no limit and under limits that
//! deliver, one after the other.

use crate::{bv_accumulate, bv_comb, bv_polynomial, median, LARGEST, NO_LIMIT};
use std::time::Instant;

const ROUNDS: usize = 301;
const ENTRIES: usize = 10_000;

/// Two indices of four odd primes and two of five.
pub const INDICES: [u64; 4] = [1155, 65535, 15015, 51051];
const SIZES: [u64; 4] = [1, 3, 15, 1001];
/// Registers of 16 bits.
const SMALL: i64 = 32767;

fn polynomial(kind: u64, n: u64, w: i64, buf: &mut [i64]) -> u64 {
    unsafe { bv_polynomial(kind, n, NO_LIMIT, w, buf.as_mut_ptr(), buf.len()) }.code
}

fn step(comb: bool, size: u64, w: i64, buf: &mut [i64]) -> u64 {
    unsafe {
        if comb { bv_comb(size, w, buf.as_mut_ptr(), buf.len()) } else { bv_accumulate(size, w, buf.as_mut_ptr(), buf.len()) }.code
    }
}

/// The least working limit that delivers: what one delivers, every larger one does.
pub fn least(kind: u64, n: u64, buf: &mut [i64]) -> i64 {
    let (mut below, mut enough) = (0, NO_LIMIT);
    while enough - below > 1 {
        let middle = below + (enough - below) / 2;
        if polynomial(kind, n, middle, buf) == 0 { enough = middle } else { below = middle }
    }
    enough
}

/// The median time of the work under each limit, in microseconds. The buffer is made anew before the clock runs.
fn medians<const N: usize>(limits: [i64; N], start: &[i64], work: impl Fn(i64, &mut [i64]) -> u64) -> [f64; N] {
    let mut buf = start.to_vec();
    let mut times = vec![Vec::new(); N];
    for _ in 0..ROUNDS {
        for (w, took) in limits.iter().zip(&mut times) {
            buf.copy_from_slice(start);
            let clock = Instant::now();
            let code = work(*w, &mut buf);
            took.push(clock.elapsed().as_secs_f64() * 1e6);
            assert!(code == 0, "code {code} under {w}");
        }
    }
    std::array::from_fn(|i| median(std::mem::take(&mut times[i])))
}

fn requests() {
    println!("under working limits, median of {ROUNDS}, microseconds, and the ratio to no limit");
    println!("   request    least w   no limit    least w   ratio  twice that   ratio");
    let mut buf = vec![0i64; LARGEST + 1];
    for n in INDICES {
        for kind in [1, 2] {
            let w = least(kind, n, &mut buf);
            let name = format!("{}({n})", if kind == 1 { "F" } else { "I" });
            let [none, at, twice] = medians([NO_LIMIT, w, 2 * w], &vec![0; LARGEST + 1], |w, buf| polynomial(kind, n, w, buf));
            println!("{name:>10} {w:>10} {none:>10.2} {at:>10.2} {:>7.3} {twice:>11.2} {:>7.3}", at / none, twice / none);
        }
    }
}

/// From -100 to 100, the same at each call.
pub fn entries(count: usize) -> Vec<i64> {
    let mut seed = 1u64;
    let mut entry = || {
        seed = seed.wrapping_mul(6364136223846793005).wrapping_add(1442695040888963407);
        (seed >> 33) as i64 % 201 - 100
    };
    (0..count).map(|_| entry()).collect()
}

fn steps() {
    println!("single steps on {ENTRIES} entries from -100 to 100, median of {ROUNDS}, microseconds");
    println!("             step   no limit  w = {SMALL}   ratio");
    let start = entries(ENTRIES);
    for comb in [true, false] {
        for size in SIZES {
            let name = format!("{} {size}", if comb { "comb" } else { "accumulate" });
            let [none, small] = medians([NO_LIMIT, SMALL], &start, |w, buf| step(comb, size, w, buf));
            println!("{name:>17} {none:>10.2} {small:>10.2} {:>7.3}", small / none);
        }
    }
}

pub fn print() {
    println!();
    requests();
    println!();
    steps();
}
