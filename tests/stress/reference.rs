//! F(n) and I(n) for every n by a road of its own: for the largest prime p of n = mp, F(n) = F(m)(z^p) / F(m) by long division and
//! I(n) = I(m)(z^p) F(m) by the product's definition where p is new, and F(m)(z^p), I(m)(z^p) where it is old.

use crate::halves::{all_met, halves, least};
use std::collections::HashMap;
use std::rc::Rc;

pub const LARGEST: usize = 65535;

/// Below this index polynomials are kept; above, only the last one.
const KEPT: usize = 5000;

pub struct Pair {
    pub f: Vec<i16>,
    pub i: Vec<i16>,
}

pub struct Reference {
    phi: Vec<usize>,
    pairs: HashMap<usize, Rc<Pair>>,
    last: (usize, Rc<Pair>),
    met: HashMap<(u64, usize), Rc<Vec<i64>>>,
}

/// z - 1 and 1.
fn first() -> Pair {
    Pair { f: vec![-1, 1], i: vec![1] }
}

fn narrow(v: i32) -> i16 {
    i16::try_from(v).expect("a coefficient of more than 16 bits")
}

fn spread(a: &[i16], t: usize) -> Vec<i16> {
    let mut out = vec![0; (a.len() - 1) * t + 1];
    for (i, &c) in a.iter().enumerate() {
        out[i * t] = c;
    }
    out
}

/// a / b, lowest degree first; b starts with 1 or -1.
fn quotient(a: &[i16], b: &[i16]) -> Vec<i16> {
    let top = b.len() - 1;
    let backward: Vec<i16> = b[1..].iter().rev().copied().collect();
    // q stands after as many zeros as b has later terms
    let mut q = vec![0i16; top];
    for &c in &a[..a.len() - top] {
        let known: i32 = q[q.len() - top..].iter().zip(&backward).map(|(&x, &y)| x as i32 * y as i32).sum();
        q.push(narrow((c as i32 - known) * b[0] as i32));
    }
    q.split_off(top)
}

/// a(z^t) b.
fn product_spread(a: &[i16], t: usize, b: &[i16]) -> Vec<i16> {
    let mut out = vec![0i32; (a.len() - 1) * t + b.len()];
    for (i, &c) in a.iter().enumerate().filter(|(_, &c)| c != 0) {
        for (o, &d) in out[i * t..].iter_mut().zip(b) {
            *o += c as i32 * d as i32;
        }
    }
    out.into_iter().map(narrow).collect()
}

fn largest_prime(n: usize) -> usize {
    let (mut rest, mut p, mut last) = (n, 2, 1);
    while rest > 1 {
        if p * p > rest {
            p = rest;
        }
        while rest % p == 0 {
            rest /= p;
            last = p;
        }
        p += 1;
    }
    last
}

impl Reference {
    /// phi from its own sum: those of all divisors of n add up to n.
    pub fn new() -> Self {
        let mut phi: Vec<usize> = (0..=LARGEST).collect();
        for d in 1..=LARGEST {
            for n in (2 * d..=LARGEST).step_by(d) {
                phi[n] -= phi[d];
            }
        }
        Reference { phi, pairs: HashMap::new(), last: (1, Rc::new(first())), met: HashMap::new() }
    }

    pub fn pair(&mut self, n: usize) -> Rc<Pair> {
        if self.last.0 == n {
            return self.last.1.clone();
        }
        if let Some(found) = self.pairs.get(&n) {
            return found.clone();
        }
        let made = Rc::new(self.made(n));
        if n < KEPT {
            self.pairs.insert(n, made.clone());
        }
        self.last = (n, made.clone());
        made
    }

    fn made(&mut self, n: usize) -> Pair {
        if n == 1 {
            return first();
        }
        let p = largest_prime(n);
        let smaller = self.pair(n / p);
        let f = spread(&smaller.f, p);
        if (n / p) % p == 0 {
            return Pair { f, i: spread(&smaller.i, p) };
        }
        Pair { f: quotient(&f, &smaller.f), i: product_spread(&smaller.i, p, &smaller.f) }
    }

    pub fn degree(&self, kind: u64, n: usize) -> usize {
        if kind == 1 { self.phi[n] } else { n - self.phi[n] }
    }

    /// The largest magnitude that each step of r makes; none for r = 1.
    pub fn met(&mut self, kind: u64, r: usize) -> Rc<Vec<i64>> {
        if let Some(found) = self.met.get(&(kind, r)) {
            return found.clone();
        }
        let (half, steps) = (self.degree(kind, r) / 2, divisors(r));
        let made = Rc::new(all_met(&halves(kind, half, &steps), &steps));
        self.met.insert((kind, r), made.clone());
        made
    }

    /// The least working limit that delivers the polynomial of n.
    pub fn least(&mut self, kind: u64, n: usize) -> i64 {
        least(&self.met(kind, odd_part(n)))
    }
}

/// The product of the distinct odd primes of n.
pub fn odd_part(n: usize) -> usize {
    let mut rest = n;
    let mut r = 1;
    while rest > 1 {
        let p = largest_prime(rest);
        if p > 2 {
            r *= p;
        }
        while rest % p == 0 {
            rest /= p;
        }
    }
    r
}

/// The divisors of r below r, ascending, each with the sign mu of r / d.
pub fn divisors(r: usize) -> Vec<(usize, i32)> {
    let mut found: Vec<usize> = (1..=r).take_while(|d| d * d <= r).filter(|d| r % d == 0).flat_map(|d| [d, r / d]).collect();
    found.sort();
    found.dedup();
    found.pop();
    found.into_iter().map(|d| (d, mu(r / d))).collect()
}

/// Of a product of distinct primes.
fn mu(m: usize) -> i32 {
    if m == 1 { 1 } else { -mu(m / largest_prime(m)) }
}
