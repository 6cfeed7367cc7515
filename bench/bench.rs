//! F for all odd n to 65,535: our library, plain Rust, and FLINT where it is there (`--cfg flint`), one after the other
//! at each n. The buffers are cleared before the clock runs. Prints the median over the rounds of each total, and its
//! ratio to plain Rust. Then how the time grows with the additions (growth.rs), and what a working limit costs
//! (limits.rs), the stored record (records.rs), the walk over a shelf (shelves.rs), half records (halves.rs), damaged
//! shelves (rescues.rs), the response at a point (responses.rs), and a census of heights (census.rs). `bench PART`
//! prints one part alone: table, or the name of such a file.

mod census;
mod growth;
mod halves;
mod limits;
mod plain;
mod records;
mod rescues;
mod responses;
mod shelves;

use plain::Answer as Told;
use std::time::Instant;

const ROUNDS: usize = 9;
const LARGEST: usize = 65535;
const NO_LIMIT: i64 = i64::MAX;

#[repr(C)]
struct Answer {
    code: u64,
    degree: u64,
    additions: u64,
    height: u64,
    peak: u64,
    gain: i64,
}

#[repr(C)]
struct Step {
    code: u64,
    count: u64,
}

extern "C" {
    fn bv_polynomial(kind: u64, n: u64, h: i64, w: i64, buf: *mut i64, len: usize) -> Answer;
    fn bv_comb(size: u64, w: i64, buf: *mut i64, len: usize) -> Step;
    fn bv_accumulate(size: u64, w: i64, buf: *mut i64, len: usize) -> Step;
}

fn ours(n: u64, buf: &mut [i64]) -> Answer {
    unsafe { bv_polynomial(1, n, NO_LIMIT, NO_LIMIT, buf.as_mut_ptr(), buf.len()) }
}

fn plain_rust(n: u64, buf: &mut [i64]) -> Told {
    plain::polynomial(1, n, NO_LIMIT, buf)
}

#[cfg(flint)]
mod flint {
    /// FLINT's fmpz_poly_struct. A small coefficient is its own fmpz.
    #[repr(C)]
    pub struct Poly {
        coeffs: *mut i64,
        alloc: i64,
        length: i64,
    }

    #[link(name = "flint")]
    extern "C" {
        fn fmpz_poly_init2(p: *mut Poly, alloc: i64);
        fn fmpz_poly_zero(p: *mut Poly);
        fn fmpz_poly_cyclotomic(p: *mut Poly, n: u64);
    }

    impl Poly {
        pub fn new() -> Self {
            let mut p = Poly { coeffs: std::ptr::null_mut(), alloc: 0, length: 0 };
            unsafe { fmpz_poly_init2(&mut p, 65536) };
            p
        }

        pub fn clear(&mut self) {
            unsafe { fmpz_poly_zero(self) }
        }

        pub fn make(&mut self, n: u64) {
            unsafe { fmpz_poly_cyclotomic(self, n) }
        }

        pub fn coefficients(&self) -> &[i64] {
            unsafe { std::slice::from_raw_parts(self.coeffs, self.length as usize) }
        }
    }
}

/// Seconds by number of odd primes (0 to 5), and in all (6).
type Times = [f64; 7];

fn timed(times: &mut Times, class: usize, work: impl FnOnce()) {
    let start = Instant::now();
    work();
    let took = start.elapsed().as_secs_f64();
    times[class] += took;
    times[6] += took;
}

fn agree(n: u64, a: Answer, b: Told, x: &[i64], y: &[i64]) {
    let told = Told { code: a.code, degree: a.degree, additions: a.additions, height: a.height, gain: a.gain };
    assert!(told == b && a.peak == plain::peak(b, y) && x == y, "our F({n}) and plain Rust's differ: {told:?}, peak {}, {b:?}", a.peak);
}

fn round(turn: usize, check: bool) -> Vec<Times> {
    let mut all = vec![[0.0; 7]; 3];
    let mut x = vec![0i64; LARGEST + 1];
    let mut y = vec![0i64; LARGEST + 1];
    #[cfg(flint)]
    let mut z = flint::Poly::new();
    for n in (1..=LARGEST as u64).step_by(2) {
        let class = plain::class(n);
        x.fill(0);
        y.fill(0);
        let (mut a, mut b) = (None, None);
        // the order changes from round to round
        for who in 0..3 {
            match (who + turn) % 3 {
                0 => timed(&mut all[0], class, || a = Some(ours(n, &mut x))),
                1 => timed(&mut all[1], class, || b = Some(plain_rust(n, &mut y))),
                _ => {
                    #[cfg(flint)]
                    {
                        z.clear();
                        timed(&mut all[2], class, || z.make(n));
                    }
                }
            }
        }
        if check {
            agree(n, a.unwrap(), b.unwrap(), &x, &y);
            #[cfg(flint)]
            assert!(z.coefficients() == &x[..z.coefficients().len()], "our F({n}) and FLINT's differ");
        }
    }
    all
}

fn median(mut values: Vec<f64>) -> f64 {
    values.sort_by(f64::total_cmp);
    values[values.len() / 2]
}

fn table() {
    round(0, true);
    let rounds: Vec<Vec<Times>> = (0..ROUNDS).map(|turn| round(turn, false)).collect();
    let of = |who: usize, class: usize| median(rounds.iter().map(|r| r[who][class]).collect());
    println!("F for all odd n to 65,535, median of {ROUNDS} rounds, milliseconds");
    println!("odd primes       ours      plain Rust   ratio      FLINT   ratio");
    for class in 0..7 {
        let (o, p, f) = (of(0, class), of(1, class), of(2, class));
        let name = if class == 6 { "all".to_string() } else { class.to_string() };
        print!("{name:>10} {:>10.2} {:>15.2} {:>7.3}", o * 1e3, p * 1e3, o / p);
        if cfg!(flint) {
            print!(" {:>10.2} {:>7.3}", f * 1e3, f / p);
        }
        println!();
    }
}

fn main() {
    let parts: [(&str, fn()); 9] = [
        ("table", table),
        ("growth", growth::print),
        ("limits", limits::print),
        ("records", records::print),
        ("shelves", shelves::print),
        ("halves", halves::print),
        ("rescues", rescues::print),
        ("responses", responses::print),
        ("census", census::print),
    ];
    let part = std::env::args().nth(1);
    let wanted = |name: &str| part.as_deref().map_or(true, |part| part == name);
    assert!(parts.iter().any(|(name, _)| wanted(name)), "there is no such part");
    parts.iter().filter(|(name, _)| wanted(name)).for_each(|(_, print)| print());
}
