//! The response at a point: the time a coefficient, of F(65535) and of F(105), each at the point of its first notch, in
//! turns with a plain loop in C of the same sequence, which tests nothing (response.c). First they are held to be equal,
//! to the bit.

use crate::shelves::{beside, columns, turns};
use crate::{ours, LARGEST};
use std::f64::consts::TAU;
use std::hint::black_box;

const ROUNDS: usize = 301;
/// Coefficients that are timed as one: a short polynomial is asked for so often.
const AT_ONCE: usize = 32769;

#[repr(C)]
#[derive(Clone, Copy)]
struct Point {
    real: f64,
    imag: f64,
}

#[repr(C)]
struct Value {
    code: u64,
    value: Point,
}

extern "C" {
    fn bv_response(coeffs: *const i64, count: usize, at: Point) -> Value;
}

type Response = unsafe extern "C" fn(*const i64, usize, Point) -> Point;

#[cfg(look_gcc)]
extern "C" {
    fn response_gcc(coeffs: *const i64, count: usize, at: Point) -> Point;
}

#[cfg(look_clang)]
extern "C" {
    fn response_clang(coeffs: *const i64, count: usize, at: Point) -> Point;
}

/// The loop in C by each compiler that was there, as `shelves::looks` has them.
fn responses() -> Vec<Response> {
    vec![
        #[cfg(look_gcc)]
        response_gcc,
        #[cfg(look_clang)]
        response_clang,
    ]
}

fn bits(value: Point) -> (u64, u64) {
    (value.real.to_bits(), value.imag.to_bits())
}

fn response(coeffs: &[i64], at: Point) -> Point {
    let a = unsafe { bv_response(coeffs.as_ptr(), coeffs.len(), at) };
    assert!(a.code == 0, "code {}", a.code);
    a.value
}

pub fn print() {
    println!();
    println!("responses, median of {ROUNDS}, nanoseconds a coefficient; C's loop tests nothing");
    println!("    n  coefficients  response{}", columns());
    for n in [65535, 105] {
        let mut buf = vec![0; LARGEST + 1];
        let count = ours(n, &mut buf).degree as usize + 1;
        let (coeffs, times) = (&buf[..count], AT_ONCE.div_ceil(count));
        let (imag, real) = (TAU / n as f64).sin_cos();
        let at = Point { real, imag };
        let again = |ask: &dyn Fn() -> Point| {
            for _ in 0..times {
                black_box(ask());
            }
        };
        let mut work: Vec<Box<dyn FnMut() + '_>> = vec![Box::new(|| again(&|| response(coeffs, black_box(at))))];
        for loop_in_c in responses() {
            let ask = move || unsafe { loop_in_c(coeffs.as_ptr(), count, black_box(at)) };
            assert!(bits(ask()) == bits(response(coeffs, at)), "our value of F({n}) and C's differ");
            work.push(Box::new(move || again(&ask)));
        }
        let each: Vec<f64> = turns(ROUNDS, &mut work).iter().map(|t| t / (times * count) as f64).collect();
        println!("{n:>5} {count:>13} {:>9.3}{}", each[0], beside(each[0], &each[1..]));
    }
}
