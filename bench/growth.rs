//! How the time grows: one request of each class from small n to large, its additions and its time, and the line
//! through them.

use crate::{bv_polynomial, median, LARGEST, NO_LIMIT};
use std::time::Instant;

const ROUNDS: usize = 101;

/// The small primes of a class; the largest prime grows.
const SMALL: [&[u64]; 5] = [&[], &[3], &[3, 5], &[3, 5, 7], &[3, 5, 7, 11]];

fn is_prime(p: u64) -> bool {
    p > 1 && (2..).take_while(|d| d * d <= p).all(|d| p % d != 0)
}

/// Eight indices, each some 1.6 times the one before, up to the largest; with five primes all there are.
fn indices(small: &[u64]) -> Vec<u64> {
    let base: u64 = small.iter().product();
    let least = small.last().map_or(3, |p| p + 1);
    let (mut found, mut most) = (Vec::new(), LARGEST as u64);
    let (count, tenths) = if small.len() == 4 { (usize::MAX, 10) } else { (8, 6) };
    while found.len() < count {
        let Some(p) = (least..=most / base).rev().find(|&p| is_prime(p)) else { break };
        found.push(base * p);
        most = (base * p - 1) * tenths / 10;
    }
    found.reverse();
    found
}

/// The additions told, and the median time in microseconds. The buffer is cleared before the clock runs.
fn timed(kind: u64, n: u64, buf: &mut [i64]) -> (u64, f64) {
    let mut additions = 0;
    let times = (0..ROUNDS).map(|_| {
        buf.fill(0);
        let start = Instant::now();
        let answer = unsafe { bv_polynomial(kind, n, NO_LIMIT, NO_LIMIT, buf.as_mut_ptr(), buf.len()) };
        let took = start.elapsed().as_secs_f64() * 1e6;
        assert!(answer.code == 0);
        additions = answer.additions;
        took
    });
    let took = median(times.collect());
    (additions, took)
}

/// The line through the points by least squares: its start, its slope, and the share of the spread that it explains.
fn line(points: &[(u64, f64)]) -> (f64, f64, f64) {
    let count = points.len() as f64;
    let mean_x = points.iter().map(|p| p.0 as f64).sum::<f64>() / count;
    let mean_y = points.iter().map(|p| p.1).sum::<f64>() / count;
    let sum = |f: &dyn Fn(f64, f64) -> f64| points.iter().map(|p| f(p.0 as f64 - mean_x, p.1 - mean_y)).sum::<f64>();
    let (xx, xy, yy) = (sum(&|x, _| x * x), sum(&|x, y| x * y), sum(&|_, y| y * y));
    (mean_y - xy / xx * mean_x, xy / xx, xy * xy / (xx * yy))
}

pub fn print() {
    let mut buf = vec![0i64; LARGEST + 1];
    for kind in [1, 2] {
        println!();
        println!("{}: time against additions, median of {ROUNDS}", if kind == 1 { "F" } else { "I" });
        println!("odd primes          n  additions  microseconds  ns an addition");
        for small in SMALL {
            let mut points = Vec::new();
            for n in indices(small) {
                let (additions, took) = timed(kind, n, &mut buf);
                print!("{:>10} {n:>10} {additions:>10} {took:>13.2}", small.len() + 1);
                println!("{}", if additions == 0 { String::new() } else { format!(" {:>15.3}", took * 1e3 / additions as f64) });
                points.push((additions, took));
            }
            if points.iter().all(|p| p.0 == 0) {
                continue; // I of one prime: no step reaches its one entry
            }
            let (start, slope, share) = line(&points);
            println!("{:>10}  line: {start:.2} microseconds + {:.3} ns an addition, r^2 = {share:.4}", small.len() + 1, slope * 1e3);
        }
    }
}
