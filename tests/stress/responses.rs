//! Values at points: of any coefficients, some too large, at points of every sort, some outside; against the same
//! sequence in f64, of which Rust rounds each operation and fuses none. Bits are compared, every NaN alike. At 1, i, -1
//! and -i also against whole numbers of 128 bits, and there polynomials of every index too.

use crate::library::{self, Point, Value};
use crate::random::Random;
use crate::reference::Reference;
use std::f64::consts::{FRAC_1_SQRT_2, TAU};

/// The largest magnitude of a coefficient, and of the sum of all where a value is exact.
const MOST: i64 = 1 << 53;

/// Up to this index a polynomial is tried at all four points and at another, above it at one.
const AT_ALL: usize = 8000;

fn within(part: f64) -> bool {
    (-1.0..=1.0).contains(&part)
}

fn expected(coeffs: &[i64], at: Point) -> Value {
    if !within(at.real) || !within(at.imag) {
        return Value { code: 19, ..Value::default() };
    }
    if coeffs.iter().any(|c| c.unsigned_abs() > MOST as u64) {
        return Value { code: 20, ..Value::default() };
    }
    coeffs.iter().rev().fold(Value::default(), |v, &c| Value {
        code: 0,
        real: (v.real * at.real - v.imag * at.imag) + c as f64,
        imag: v.real * at.imag + v.imag * at.real,
    })
}

fn same(a: f64, b: f64) -> bool {
    a.to_bits() == b.to_bits() || a.is_nan() && b.is_nan()
}

fn hold(coeffs: &[i64], at: Point) -> Value {
    let (told, right) = (library::response(coeffs, at), expected(coeffs, at));
    let alike = told.code == right.code && same(told.real, right.real) && same(told.imag, right.imag);
    let (many, first) = (coeffs.len(), &coeffs[..coeffs.len().min(99)]);
    assert!(alike, "response of {many} {first:?} at {at:?}: {told:?}, not {right:?}");
    told
}

/// 1, i, -1 or -i.
fn unit(turn: usize) -> Point {
    [(1.0, 0.0), (0.0, 1.0), (-1.0, 0.0), (0.0, -1.0)].map(|(real, imag)| Point { real, imag })[turn]
}

/// Which of them a point is, with 0 of either sign.
fn turn_of(at: Point) -> Option<usize> {
    (0..4).find(|&turn| unit(turn) == at)
}

/// The value there, which must be the whole number if the magnitudes add up to at most 2^53.
fn hold_whole(told: Value, coeffs: &[i64], turn: usize) {
    if coeffs.iter().map(|c| c.unsigned_abs() as u128).sum::<u128>() > MOST as u128 {
        return;
    }
    let sum = |from: usize| coeffs.iter().skip(from).step_by(4).map(|&c| c as i128).sum::<i128>();
    let [zero, one, two, three] = [0, 1, 2, 3].map(sum);
    let (real, imag) = match turn {
        0 => (zero + one + two + three, 0),
        1 => (zero - two, one - three),
        2 => (zero - one + two - three, 0),
        _ => (zero - two, three - one),
    };
    let right = told.code == 0 && told.real == real as f64 && told.imag == imag as f64;
    assert!(right, "response of {} coefficients at turn {turn}: {told:?}, not {real} {imag}", coeffs.len());
}

/// A part of any sort: at an edge, outside, subnormal, of any exponent, about 1, or any from -1 to 1.
fn part(random: &mut Random) -> f64 {
    let word = random.word();
    let size = match random.below(16) {
        0 => random.of(&[0.0, 1.0, 0.5, FRAC_1_SQRT_2, f64::MIN_POSITIVE, f64::from_bits(1), 1e-160]),
        1 if random.one_in(4) => {
            random.of(&[1.0 + f64::EPSILON, 2.0, f64::MAX, f64::INFINITY, f64::NAN, f64::from_bits(0x7FF << 52 | 1)])
        }
        2 if random.one_in(4) => f64::from_bits(word), // any at all
        3 => f64::from_bits(word >> (12 + random.below(52))),
        4 | 5 => f64::from_bits(word >> 12 | (random.below(1023) as u64) << 52),
        6 | 7 => 1.0 - (word >> (11 + random.below(53))) as f64 / (1u64 << 53) as f64,
        _ => (word >> 11) as f64 / (1u64 << 53) as f64,
    };
    if random.one_in(2) { -size } else { size }
}

fn point(random: &mut Random) -> Point {
    let sign = |random: &mut Random, size: f64| if random.one_in(2) { -size } else { size };
    match random.below(8) {
        0 => Point { real: sign(random, 1.0), imag: sign(random, 0.0) },
        1 => Point { real: sign(random, 0.0), imag: sign(random, 1.0) },
        2 => Point { real: sign(random, 1.0), imag: sign(random, 1.0) },
        3 => {
            let (imag, real) = (TAU * (random.word() >> 11) as f64 / (1u64 << 53) as f64).sin_cos();
            Point { real, imag }
        }
        _ => Point { real: part(random), imag: part(random) },
    }
}

/// Of one width, with some at the edge, and at times one that is too large.
fn coefficients(random: &mut Random, len: usize) -> Vec<i64> {
    let bits = random.of(&[1, 2, 8, 31, 50, 54]);
    let rare = random.of(&[2, 10, 1000]);
    let edge = |random: &mut Random| random.of(&[MOST, -MOST, MOST - 1, 1 - MOST, 0, 1]);
    let mut coeffs: Vec<i64> = (0..len)
        .map(|_| if bits > 50 && random.one_in(rare) { edge(random) } else { random.signed(bits) })
        .collect();
    if len > 0 && random.one_in(12) {
        coeffs[random.below(len)] = random.of(&[MOST + 1, -MOST - 1, MOST + 2, 1 << 62, i64::MAX, i64::MIN]);
    }
    coeffs
}

pub fn any(random: &mut Random) -> u64 {
    let len = match random.below(200) {
        0 => random.below(5000),
        1 | 2 => 1900 + random.below(200), // about where 1 + i gives infinities
        3..=20 => random.below(300),
        _ => random.below(20),
    };
    let (coeffs, at) = (coefficients(random, len), point(random));
    let told = hold(&coeffs, at);
    if let (0, Some(turn)) = (told.code, turn_of(at)) {
        hold_whole(told, &coeffs, turn);
    }
    1
}

/// Both polynomials of an index at one of the four points; of a small one at all of them, and at one of the n-ths of a
/// turn.
pub fn index(random: &mut Random, of: &mut Reference, n: usize) -> u64 {
    let pair = of.pair(n);
    let mut tried = 0;
    for coeffs in [&pair.f, &pair.i] {
        let coeffs: Vec<i64> = coeffs.iter().map(|&c| c as i64).collect();
        let first = random.below(4);
        for turn in if n <= AT_ALL { 0..4 } else { first..first + 1 } {
            hold_whole(library::response(&coeffs, unit(turn)), &coeffs, turn);
            tried += 1;
        }
        if n <= AT_ALL {
            let (imag, real) = (TAU * random.below(n) as f64 / n as f64).sin_cos();
            hold(&coeffs, Point { real, imag });
            tried += 1;
        }
    }
    tried
}
