//! The stored record: time a coefficient to write and to read 32,769 of them, by the width that they need; and beside
//! it, in turns, a plain loop in C that only looks at them (look.c).

use crate::shelves::{beside, coefficients, columns, largest, looks, turns, Body};

const ROUNDS: usize = 301;
const N: u64 = 65535;
const COUNT: usize = 32769;

#[repr(C)]
pub struct Written {
    pub code: u64,
    degree: u64,
    pub used: u64,
    byte: u64,
}

#[repr(C)]
pub struct Record {
    pub code: u64,
    degree: u64,
    used: u64,
    kind: u64,
    n: u64,
    byte: u64,
}

extern "C" {
    pub fn bv_write(kind: u64, n: u64, coeffs: *const i64, count: usize, bytes: *mut u8, len: usize) -> Written;
    pub fn bv_read(bytes: *const u8, len: usize, coeffs: *mut i64, count: usize) -> Record;
}

fn write(coeffs: &[i64], bytes: &mut [u8]) {
    assert!(unsafe { bv_write(1, N, coeffs.as_ptr(), COUNT, bytes.as_mut_ptr(), bytes.len()) }.code == 0);
}

fn read(bytes: &[u8], back: &mut [i64]) {
    assert!(unsafe { bv_read(bytes.as_ptr(), bytes.len(), back.as_mut_ptr(), COUNT) }.code == 0);
}

pub fn print() {
    println!();
    println!("records of {COUNT} coefficients, median of {ROUNDS}, nanoseconds a coefficient; C's loop only looks");
    println!("bytes    write     read{}", columns());
    for width in [1, 2, 4, 8] {
        let coeffs = coefficients(width, COUNT);
        let mut bytes = vec![0u8; 10 + 8 * COUNT];
        let mut again = bytes.clone();
        let mut back = vec![0i64; COUNT];
        write(&coeffs, &mut bytes);
        let body = [Body { start: 10, count: COUNT, width }];
        let top = coeffs.iter().map(|c| c.unsigned_abs()).max();
        let mut work: Vec<Box<dyn FnMut() + '_>> =
            vec![Box::new(|| write(&coeffs, &mut again)), Box::new(|| read(&bytes, &mut back))];
        for (_, look) in looks() {
            let (bytes, body) = (&bytes, &body);
            work.push(Box::new(move || assert!(Some(largest(look, bytes, body)) == top)));
        }
        let times: Vec<f64> = turns(ROUNDS, &mut work).iter().map(|t| t / COUNT as f64).collect();
        drop(work);
        assert!(back == coeffs && again == bytes);
        println!("{width:>5} {:>8.2} {:>8.2}{}", times[0], times[1], beside(times[1], &times[2..]));
    }
}
