//! Two builds of the library, old and new, in one process (bench/both links them, each at four places): they take turns
//! at each piece of work, on one buffer that is made anew before the clock runs. In a first turn they are held to agree
//! on it.

#[allow(dead_code)]
mod limits;
#[allow(dead_code)]
mod plain;

use new0_accumulate as bv_accumulate;
use new0_comb as bv_comb;
use new0_polynomial as bv_polynomial;
use std::fmt::{self, Debug, Formatter};
use std::hint::black_box;
use std::mem::MaybeUninit;
use std::time::Instant;

const LARGEST: usize = 65535;
const NO_LIMIT: i64 = i64::MAX;
const DONE: u64 = 0;
const OVER: u64 = 5;
const KINDS: [u64; 2] = [1, 2];
const PLACES: usize = 4;

/// The most indices for one number of odd primes.
const N_MAX: usize = 1500;
const SWEEP_TURNS: usize = 7;
const REQUEST_TURNS: usize = 51;
const STEP_TURNS: usize = 101;

const LENGTHS: [usize; 2] = [10_000, 32_760];
const SIZES: [usize; 23] = [1, 2, 3, 4, 5, 7, 8, 9, 11, 15, 17, 31, 33, 64, 65, 77, 100, 105, 255, 1001, 5005, 9990, 20_000];

/// The fields that every build has, which must agree. Those after them have changed from build to build: there is room
/// for them, and nobody looks at it.
#[repr(C)]
struct Answer {
    code: u64,
    degree: u64,
    additions: u64,
    height: u64,
    later: [MaybeUninit<i64>; 4],
}

impl Answer {
    fn compared(&self) -> [u64; 4] {
        [self.code, self.degree, self.additions, self.height]
    }
}

impl PartialEq for Answer {
    fn eq(&self, other: &Answer) -> bool {
        self.compared() == other.compared()
    }
}

impl Debug for Answer {
    fn fmt(&self, f: &mut Formatter<'_>) -> fmt::Result {
        write!(f, "code, degree, additions, height: {:?}", self.compared())
    }
}

#[repr(C)]
#[derive(Debug, PartialEq)]
struct Step {
    code: u64,
    count: u64,
}

struct Library {
    polynomial: unsafe extern "C" fn(u64, u64, i64, i64, *mut i64, usize) -> Answer,
    comb: unsafe extern "C" fn(u64, i64, *mut i64, usize) -> Step,
    accumulate: unsafe extern "C" fn(u64, i64, *mut i64, usize) -> Step,
}

macro_rules! libraries {
    ($($polynomial:ident $comb:ident $accumulate:ident)*) => {
        extern "C" {
            $(
                fn $polynomial(kind: u64, n: u64, h: i64, w: i64, buf: *mut i64, len: usize) -> Answer;
                fn $comb(size: u64, w: i64, buf: *mut i64, len: usize) -> Step;
                fn $accumulate(size: u64, w: i64, buf: *mut i64, len: usize) -> Step;
            )*
        }

        const LIBRARIES: [Library; 2 * PLACES] = [$(Library { polynomial: $polynomial, comb: $comb, accumulate: $accumulate }),*];
    };
}

// old at an even place of the list, new after it
libraries! {
    old0_polynomial old0_comb old0_accumulate
    new0_polynomial new0_comb new0_accumulate
    old1_polynomial old1_comb old1_accumulate
    new1_polynomial new1_comb new1_accumulate
    old2_polynomial old2_comb old2_accumulate
    new2_polynomial new2_comb new2_accumulate
    old3_polynomial old3_comb old3_accumulate
    new3_polynomial new3_comb new3_accumulate
}

impl Library {
    fn request(&self, kind: u64, n: u64, w: i64, buf: &mut [i64]) -> Answer {
        unsafe { (self.polynomial)(kind, n, NO_LIMIT, w, buf.as_mut_ptr(), buf.len()) }
    }

    fn step(&self, comb: bool, size: usize, w: i64, buf: &mut [i64]) -> Step {
        unsafe { (if comb { self.comb } else { self.accumulate })(size as u64, w, buf.as_mut_ptr(), buf.len()) }
    }
}

/// What all answer, and what all leave in the buffer.
fn agreed<A: PartialEq + Debug>(what: &str, start: &[i64], work: impl Fn(&Library, &mut [i64]) -> A) -> (A, Vec<i64>) {
    let run = |library: &Library| {
        let mut buf = start.to_vec();
        (work(library, &mut buf), buf)
    };
    let first = run(&LIBRARIES[0]);
    for library in &LIBRARIES[1..] {
        let (answer, buf) = run(library);
        assert!(answer == first.0, "{what}: {:?} and {answer:?}", first.0);
        assert!(buf == first.1, "{what}: the buffers differ");
    }
    first
}

/// Microseconds, for each of the libraries.
struct Times([Vec<f64>; 2 * PLACES]);

impl Times {
    fn of<A>(turns: usize, start: &[i64], work: impl Fn(&Library, &mut [i64]) -> A) -> Self {
        let mut buf = start.to_vec();
        let mut times = Times(Default::default());
        for turn in 0..turns {
            for i in 0..2 * PLACES {
                // which of old and new goes first changes from turn to turn
                let which = i ^ turn % 2;
                buf.copy_from_slice(start);
                let clock = Instant::now();
                black_box(work(black_box(&LIBRARIES[which]), &mut buf));
                times.0[which].push(clock.elapsed().as_secs_f64() * 1e6);
            }
        }
        times
    }

    /// For old and for new, the mean over the places.
    fn mean(&self, pick: fn(Vec<f64>) -> f64) -> [f64; 2] {
        [0, 1].map(|who| self.0.iter().skip(who).step_by(2).map(|times| pick(times.clone())).sum::<f64>() / PLACES as f64)
    }
}

fn minimum(values: Vec<f64>) -> f64 {
    values.into_iter().fold(f64::INFINITY, f64::min)
}

fn median(mut values: Vec<f64>) -> f64 {
    values.sort_by(f64::total_cmp);
    values[values.len() / 2]
}

/// 25 characters.
fn columns([old, new]: [f64; 2]) -> String {
    format!(" {old:>8.2} {new:>8.2} {:>6.3}", new / old)
}

fn letter(kind: u64) -> &'static str {
    if kind == 1 { "F" } else { "I" }
}

/// One request, which answers with this code.
fn request(turns: usize, kind: u64, n: u64, w: i64, code: u64) -> Times {
    let start = vec![0; LARGEST + 1];
    let what = format!("{}({n}) under {w}", letter(kind));
    let work = |library: &Library, buf: &mut [i64]| library.request(kind, n, w, buf);
    let (answer, _) = agreed(&what, &start, work);
    assert!(answer.code == code, "{what}: {answer:?}");
    Times::of(turns, &start, work)
}

/// At most N_MAX of them at even distances, the first and the last always.
fn thinned(all: Vec<u64>) -> Vec<u64> {
    if all.len() <= N_MAX {
        return all;
    }
    (0..N_MAX).map(|i| all[i * (all.len() - 1) / (N_MAX - 1)]).collect()
}

fn sweep() {
    println!("\n1. requests at the largest limits, up to {N_MAX} odd n for each number of odd primes:");
    println!("sums of the minima of {SWEEP_TURNS}, milliseconds");
    println!("kind primes indices      old      new  ratio");
    for kind in KINDS {
        for class in 1..=5 {
            let odd = (1..=LARGEST as u64).step_by(2);
            let some = thinned(odd.filter(|n| plain::class(*n) == class).collect());
            let mut sums = [0.0; 2];
            for n in &some {
                let least = request(SWEEP_TURNS, kind, *n, NO_LIMIT, DONE).mean(minimum);
                sums = [0, 1].map(|who| sums[who] + least[who] / 1e3);
            }
            println!("{:>4} {class:>6} {:>7}{}", letter(kind), some.len(), columns(sums));
        }
    }
}

/// The primes of the largest squarefree odd index that has so many, and these first.
fn largest(count: usize, first: &[usize]) -> Vec<usize> {
    let fits = |r: usize, primes: &[usize]| primes.len() == count && primes.starts_with(first) && primes.iter().product::<usize>() == r;
    let odd = (1..=LARGEST).rev().step_by(2);
    odd.map(|r| (r, plain::odd_primes(r))).find(|(r, primes)| fits(*r, primes)).unwrap().1
}

fn large() {
    println!("\n2. large indices at the largest limits: median and minimum of {REQUEST_TURNS}, microseconds, and the ratio of the minima");
    println!(" request       primes  old med  new med  old min  new min  ratio");
    let chosen: [(usize, &[usize]); 8] =
        [(1, &[]), (2, &[]), (2, &[3]), (3, &[]), (3, &[3, 5]), (4, &[]), (4, &[3, 5, 7]), (5, &[])];
    for (count, first) in chosen {
        let primes = largest(count, first);
        let r = primes.iter().product::<usize>() as u64;
        let factors = primes.iter().map(usize::to_string).collect::<Vec<_>>().join("*");
        for kind in KINDS {
            let times = request(REQUEST_TURNS, kind, r, NO_LIMIT, DONE);
            let [old, new] = times.mean(median);
            println!("{}({r}) {factors:>12} {old:>8.2} {new:>8.2}{}", letter(kind), columns(times.mean(minimum)));
        }
    }
}

fn limited() {
    println!("\n3. requests at the least working limit that delivers, and refused at one below: minimum of {REQUEST_TURNS}, microseconds");
    println!(" request  least w      old      new  ratio old over new over  ratio");
    for n in limits::INDICES {
        for kind in KINDS {
            let w = limits::least(kind, n, &mut [0; LARGEST + 1]);
            let least = |w, code| request(REQUEST_TURNS, kind, n, w, code).mean(minimum);
            let (at, below) = (least(w, DONE), least(w - 1, OVER));
            println!("{:>8} {w:>8}{}{}", format!("{}({n})", letter(kind)), columns(at), columns(below));
        }
    }
}

/// The step as the header tells it, with no sum that is too large.
fn plain_step(comb: bool, size: usize, start: &[i64]) -> Vec<i64> {
    let mut made: Vec<i128> = start.iter().map(|c| *c as i128).collect();
    for i in size..made.len() {
        made[i] += if comb { -(start[i - size] as i128) } else { made[i - size] };
    }
    made.into_iter().map(|c| i64::try_from(c).unwrap()).collect()
}

/// The minima for one step, which answers with this code and leaves `end` in the buffer.
fn step(comb: bool, size: usize, w: i64, start: &[i64], code: u64, end: &[i64]) -> [f64; 2] {
    let what = format!("{} {size} under {w}", if comb { "comb" } else { "accumulate" });
    let work = |library: &Library, buf: &mut [i64]| library.step(comb, size, w, buf);
    let (answer, buf) = agreed(&what, start, work);
    assert!(answer.code == code && buf == end, "{what}: {answer:?}");
    Times::of(STEP_TURNS, start, work).mean(minimum)
}

fn step_row(comb: bool, size: usize, start: &[i64]) {
    let end = plain_step(comb, size, start);
    let w = end[size..].iter().map(|c| c.abs()).max().unwrap();
    let place = size + end[size..].iter().position(|c| c.abs() == w).unwrap();
    let mut tall = start.to_vec();
    tall[0] = 1 << 61;
    tall[start.len() - 1] = 1 << 61;
    let times = [
        step(comb, size, NO_LIMIT, start, DONE, &end),
        step(comb, size, w, start, DONE, &end),
        step(comb, size, NO_LIMIT, &tall, DONE, &plain_step(comb, size, &tall)),
        step(comb, size, w - 1, start, OVER, start),
    ];
    let name = if comb { "comb" } else { "accumulate" };
    println!("{name:>10} {size:>5} {w:>5} {place:>5}{}", times.map(columns).concat());
}

fn steps() {
    println!("\n4. single steps: minimum of {STEP_TURNS}, microseconds");
    println!("(a) at the largest limit; (b) at w, the largest magnitude that the step makes, at `place` first: kept, but tested;");
    println!("(c) as (a), with 2^61 as first and last entry; (d) refused at w - 1");
    for length in LENGTHS {
        // the first alone has the height, 100: so what two entries or more can make is never made, and (b) can't be
        // known beforehand
        let mut start: Vec<i64> = limits::entries(length).into_iter().map(|c| c.clamp(-99, 99)).collect();
        start[0] = 100;
        let heads = ["(a)", "(b)", "(c)", "(d)"].map(|part| format!("  {part} old  {part} new  ratio"));
        println!("{length} entries from -99 to 100\n      step  size     w place{}", heads.concat());
        for comb in [true, false] {
            for size in SIZES.into_iter().filter(|size| *size < length) {
                step_row(comb, size, &start);
            }
        }
    }
}

fn main() {
    sweep();
    large();
    limited();
    steps();
}
