//! Half records: time a coefficient to write and to read one, beside the record of the old form; and time a byte of
//! input to convert each to the other, beside a copy of the same bytes (memcpy), by the width and by whether the other
//! half is copied or negated.

use crate::records::{bv_read, bv_write, Record, Written};
use crate::shelves::{coefficients, turns};
use std::hint::black_box;

const ROUNDS: usize = 301;
const CONVERT_ROUNDS: usize = 31;
/// Of the records that are converted, about so many bytes.
const LARGE: usize = 4 << 20;
/// F(65521), whose other half is copied, and I(60060), whose is negated; and how many coefficients each has.
const COPIED: Case = Case { name: "F(65521)", kind: 1, n: 65521, count: 65521 };
const NEGATED: Case = Case { name: "I(60060)", kind: 2, n: 60060, count: 48541 };

#[derive(Clone, Copy)]
struct Case {
    name: &'static str,
    kind: u64,
    n: u64,
    count: usize,
}

#[repr(C)]
struct Converted {
    code: u64,
    degree: u64,
    read: u64,
    written: u64,
    byte: u64,
}

extern "C" {
    fn bv_write_half(kind: u64, n: u64, coeffs: *const i64, count: usize, bytes: *mut u8, len: usize) -> Written;
    fn bv_read_half(bytes: *const u8, len: usize, coeffs: *mut i64, count: usize) -> Record;
    fn bv_to_half(bytes: *const u8, len: usize, out: *mut u8, room: usize) -> Converted;
    fn bv_to_whole(bytes: *const u8, len: usize, out: *mut u8, room: usize) -> Converted;
}

type Writer = unsafe extern "C" fn(u64, u64, *const i64, usize, *mut u8, usize) -> Written;
type Reader = unsafe extern "C" fn(*const u8, usize, *mut i64, usize) -> Record;
type Converter = unsafe extern "C" fn(*const u8, usize, *mut u8, usize) -> Converted;

/// Coefficients that need a width and whose halves match.
fn even(case: Case, width: usize) -> Vec<i64> {
    let mut all = coefficients(width, case.count);
    for i in 0..case.count / 2 {
        all[case.count - 1 - i] = if case.kind == 1 { all[i] } else { -all[i] };
    }
    if case.kind == 2 && case.count % 2 == 1 {
        all[case.count / 2] = 0;
    }
    all
}

fn write(by: Writer, case: Case, coeffs: &[i64], bytes: &mut [u8]) -> usize {
    let a = unsafe { by(case.kind, case.n, coeffs.as_ptr(), coeffs.len(), bytes.as_mut_ptr(), bytes.len()) };
    assert!(a.code == 0, "code {}", a.code);
    a.used as usize
}

fn read(by: Reader, bytes: &[u8], back: &mut [i64]) {
    let a = unsafe { by(bytes.as_ptr(), bytes.len(), back.as_mut_ptr(), back.len()) };
    assert!(a.code == 0, "code {}", a.code);
}

/// Every record of some, one after another.
fn convert(by: Converter, bytes: &[u8], out: &mut [u8]) -> usize {
    let (mut at, mut to) = (0, 0);
    while at < bytes.len() {
        let (rest, room) = (&bytes[at..], &mut out[to..]);
        let a = unsafe { by(rest.as_ptr(), rest.len(), room.as_mut_ptr(), room.len()) };
        assert!(a.code == 0, "code {}", a.code);
        at += a.read as usize;
        to += a.written as usize;
    }
    to
}

fn copy(bytes: &[u8], to: &mut [u8]) {
    black_box(&mut to[..bytes.len()]).copy_from_slice(black_box(bytes));
}

fn stored(case: Case) {
    for width in [1, 2, 4, 8] {
        let coeffs = even(case, width);
        let (mut whole, mut half) = (vec![0u8; 10 + 8 * case.count], vec![0u8; 10 + 8 * case.count]);
        let used = write(bv_write, case, &coeffs, &mut whole);
        let less = write(bv_write_half, case, &coeffs, &mut half);
        let (mut again, mut halved) = (whole.clone(), half.clone());
        let (mut one, mut other) = (vec![0i64; case.count], vec![0i64; case.count]);
        let mut work: Vec<Box<dyn FnMut() + '_>> = vec![
            Box::new(|| assert!(write(bv_write, case, &coeffs, &mut again) == used)),
            Box::new(|| assert!(write(bv_write_half, case, &coeffs, &mut halved) == less)),
            Box::new(|| read(bv_read, &whole, &mut one)),
            Box::new(|| read(bv_read_half, &half, &mut other)),
        ];
        let times: Vec<f64> = turns(ROUNDS, &mut work).iter().map(|t| t / case.count as f64).collect();
        drop(work);
        assert!(one == coeffs && other == coeffs && again == whole && halved == half);
        let [w, h, r, b] = times[..] else { unreachable!() };
        println!("{:>9} {width:>5} {w:>8.2} {h:>8.2} {:>6.2} {r:>8.2} {b:>8.2} {:>6.2}", case.name, h / w, b / r);
    }
}

fn turned(case: Case) {
    for width in [1, 2, 4, 8] {
        let mut one = vec![0u8; 10 + 8 * case.count];
        let used = write(bv_write, case, &even(case, width), &mut one);
        let whole = one[..used].repeat(LARGE.div_ceil(used));
        let mut half = vec![0u8; whole.len()];
        let less = convert(bv_to_half, &whole, &mut half);
        half.truncate(less);
        let (mut halved, mut again) = (half.clone(), whole.clone());
        let (mut to, mut and) = (whole.clone(), half.clone());
        let mut work: Vec<Box<dyn FnMut() + '_>> = vec![
            Box::new(|| assert!(convert(bv_to_half, &whole, &mut halved) == half.len())),
            Box::new(|| copy(&whole, &mut to)),
            Box::new(|| assert!(convert(bv_to_whole, &half, &mut again) == whole.len())),
            Box::new(|| copy(&half, &mut and)),
        ];
        let times = turns(CONVERT_ROUNDS, &mut work);
        drop(work);
        assert!(halved == half && again == whole);
        let bytes = [whole.len(), whole.len(), half.len(), half.len()];
        let each: Vec<f64> = times.iter().zip(bytes).map(|(t, bytes)| t / bytes as f64).collect();
        let [h, c, w, d] = each[..] else { unreachable!() };
        println!(
            "{:>9} {width:>5} {:>10} {h:>8.3} {c:>8.3} {:>6.1} {:>10} {w:>8.3} {d:>8.3} {:>6.1}",
            case.name,
            whole.len(),
            h / c,
            half.len(),
            w / d
        );
    }
}

pub fn print() {
    println!();
    println!("half records beside records, median of {ROUNDS}, nanoseconds a coefficient of the whole polynomial");
    println!("          bytes    write  by half  ratio     read  by half  ratio");
    stored(COPIED);
    stored(NEGATED);
    println!();
    println!("records converted, median of {CONVERT_ROUNDS}, nanoseconds a byte of input; memcpy is of the same bytes");
    println!("          bytes      input  to half   memcpy  ratio      input to whole   memcpy  ratio");
    turned(COPIED);
    turned(NEGATED);
}
