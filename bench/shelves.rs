//! The walk over a shelf: a lookup of what is on neither shelf, so that every coefficient is looked at. A shelf of some
//! 8 MB for each width, of large records, where the coefficients are nearly all; and one of small records, where the
//! headers are seen, beside one of about as many bytes in four large ones. With each takes turns a plain loop in C over
//! the same coefficients (look.c).

use crate::median;
use crate::records::bv_write;
use std::time::Instant;

const ROUNDS: usize = 31;
const SMALL_ROUNDS: usize = 301;
const LARGE: usize = 8 << 20;
/// The largest index of the small records, both kinds of each.
const SMALL: u64 = 500;
/// Of the records, and one that is not there.
const N: u64 = 65535;
const ABSENT: u64 = 65534;

#[repr(C)]
struct Found {
    code: u64,
    byte: u64,
    shelf: u64,
    from: u64,
    start: u64,
    length: u64,
}

extern "C" {
    fn bv_lookup(kind: u64, n: u64, own: *const u8, own_len: usize, house: *const u8, house_len: usize) -> Found;
}

/// Where the coefficients of a record are on a shelf, how many, and of how many bytes each; as look.c has it.
#[repr(C)]
#[derive(Clone, Copy)]
pub struct Body {
    pub start: usize,
    pub count: usize,
    pub width: usize,
}

type Look = unsafe extern "C" fn(*const u8, *const Body, usize) -> u64;

#[cfg(look_gcc)]
extern "C" {
    fn look_gcc(shelf: *const u8, bodies: *const Body, many: usize) -> u64;
}

#[cfg(look_clang)]
extern "C" {
    fn look_clang(shelf: *const u8, bodies: *const Body, many: usize) -> u64;
}

/// The loop in C by each compiler that was there.
pub fn looks() -> Vec<(&'static str, Look)> {
    vec![
        #[cfg(look_gcc)]
        ("gcc", look_gcc),
        #[cfg(look_clang)]
        ("clang", look_clang),
    ]
}

/// The largest magnitude on a shelf, by the loop in C.
pub fn largest(look: Look, shelf: &[u8], bodies: &[Body]) -> u64 {
    assert!(bodies.iter().all(|b| b.start + b.count * b.width <= shelf.len()));
    unsafe { look(shelf.as_ptr(), bodies.as_ptr(), bodies.len()) }
}

/// The median time of each piece of work, in nanoseconds. They take turns, and the order changes from round to round.
pub fn turns(rounds: usize, work: &mut [Box<dyn FnMut() + '_>]) -> Vec<f64> {
    let mut times = vec![Vec::new(); work.len()];
    for round in 0..rounds {
        for turn in 0..work.len() {
            let who = (round + turn) % work.len();
            let clock = Instant::now();
            work[who]();
            times[who].push(clock.elapsed().as_secs_f64() * 1e9);
        }
    }
    times.into_iter().map(median).collect()
}

/// The names of the columns for the loop in C: its time, and ours to it.
pub fn columns() -> String {
    looks().iter().map(|(by, _)| format!(" {:>8} {:>7}", format!("C, {by}"), "ratio")).collect()
}

/// What stands in them.
pub fn beside(ours: f64, theirs: &[f64]) -> String {
    theirs.iter().map(|t| format!(" {t:>8.3} {:>7.2}", ours / t)).collect()
}

/// Coefficients that need a width: at times its largest magnitude, and else small ones.
pub fn coefficients(width: usize, count: usize) -> Vec<i64> {
    let top = i64::MAX >> (64 - 8 * width);
    (0..count as i64).map(|i| if i % 2 == 0 { top } else { -(i % 100) }).collect()
}

struct Shelf {
    bytes: Vec<u8>,
    bodies: Vec<Body>,
}

impl Shelf {
    fn put(&mut self, kind: u64, n: u64, coeffs: &[i64]) {
        let start = self.bytes.len();
        self.bytes.resize(start + 10 + 8 * coeffs.len(), 0);
        let room = &mut self.bytes[start..];
        let a = unsafe { bv_write(kind, n, coeffs.as_ptr(), coeffs.len(), room.as_mut_ptr(), room.len()) };
        assert!(a.code == 0);
        self.bytes.truncate(start + a.used as usize);
        let width = self.bytes[start + 3] as usize;
        self.bodies.push(Body { start: start + 10, count: coeffs.len(), width });
    }

    /// A walk to its end.
    fn walk(&self) {
        let a = unsafe { bv_lookup(1, ABSENT, self.bytes.as_ptr(), self.bytes.len(), std::ptr::null(), 0) };
        assert!(a.code == 17, "code {} at byte {}", a.code, a.byte);
    }
}

/// For each shelf the time of a walk to its end and of each loop in C, in nanoseconds a byte; all of them take turns.
fn walked(shelves: &[&Shelf], rounds: usize) -> Vec<Vec<f64>> {
    let mut work: Vec<Box<dyn FnMut() + '_>> = Vec::new();
    for shelf in shelves {
        work.push(Box::new(|| shelf.walk()));
        for (_, look) in looks() {
            let top = largest(look, &shelf.bytes, &shelf.bodies);
            work.push(Box::new(move || assert!(largest(look, &shelf.bytes, &shelf.bodies) == top)));
        }
    }
    let times = turns(rounds, &mut work);
    let each = times.chunks(1 + looks().len()).zip(shelves);
    each.map(|(times, shelf)| times.iter().map(|t| t / shelf.bytes.len() as f64).collect()).collect()
}

/// F(65535) again and again, up to so many bytes.
fn large(width: usize, bytes: usize) -> Shelf {
    let mut shelf = Shelf { bytes: Vec::new(), bodies: Vec::new() };
    let coeffs = coefficients(width, 32769);
    while shelf.bytes.len() < bytes {
        shelf.put(1, N, &coeffs);
    }
    shelf
}

/// Both kinds of every index to 500, one byte a coefficient.
fn small() -> Shelf {
    let mut shelf = Shelf { bytes: Vec::new(), bodies: Vec::new() };
    for n in 1..=SMALL {
        let phi = (1..=n).filter(|&k| gcd(k, n) == 1).count();
        shelf.put(1, n, &coefficients(1, phi + 1));
        shelf.put(2, n, &coefficients(1, n as usize - phi + 1));
    }
    shelf
}

fn gcd(a: u64, b: u64) -> u64 {
    if b == 0 { a } else { gcd(b, a % b) }
}

fn row(width: usize, shelf: &Shelf, times: &[f64]) {
    let (records, bytes, beside) = (shelf.bodies.len(), shelf.bytes.len(), beside(times[0], &times[1..]));
    println!("{width:>10} {records:>9} {bytes:>12} {:>8.3}{beside}", times[0]);
}

pub fn print() {
    println!();
    println!("shelves walked to their end, median of {ROUNDS}, nanoseconds a byte; C's loop is over the coefficients");
    println!("bytes each   records        bytes     walk{}", columns());
    for width in [1, 2, 4, 8] {
        let shelf = large(width, LARGE);
        row(width, &shelf, &walked(&[&shelf], ROUNDS)[0]);
    }
    println!("four large records, and small ones, both kinds of each index to {SMALL}, median of {SMALL_ROUNDS}");
    let (four, small) = (large(1, 4 * 32769), small());
    let times = walked(&[&four, &small], SMALL_ROUNDS);
    row(1, &four, &times[0]);
    row(1, &small, &times[1]);
    let bytes = small.bytes.len() as f64 / small.bodies.len() as f64;
    let (all, body) = (times[1][0] * bytes, times[0][0] * bytes);
    println!("a small record: {all:.1} ns; so many bytes of a large one: {body:.1}; its header: {:.1}", all - body);
}
