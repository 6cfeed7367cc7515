//! The compiled library, as C sees it, with slices. An empty slice goes over as a null pointer.

use std::ptr;

#[repr(C)]
#[derive(Debug, PartialEq, Clone, Copy, Default)]
pub struct Answer {
    pub code: u64,
    pub degree: u64,
    pub additions: u64,
    pub height: u64,
    pub peak: u64,
    pub gain: i64,
}

#[repr(C)]
#[derive(Debug, PartialEq, Clone, Copy, Default)]
pub struct Stop {
    pub code: u64,
    pub degree: u64,
    pub additions: u64,
    pub due: u64,
}

#[repr(C)]
#[derive(Debug, PartialEq, Clone, Copy, Default)]
pub struct Step {
    pub code: u64,
    pub count: u64,
}

#[repr(C)]
#[derive(Debug, PartialEq, Clone, Copy, Default)]
pub struct Written {
    pub code: u64,
    pub degree: u64,
    pub used: u64,
    pub byte: u64,
}

#[repr(C)]
#[derive(Debug, PartialEq, Clone, Copy, Default)]
pub struct Record {
    pub code: u64,
    pub degree: u64,
    pub used: u64,
    pub kind: u64,
    pub n: u64,
    pub byte: u64,
}

#[repr(C)]
#[derive(Debug, PartialEq, Clone, Copy, Default)]
pub struct Found {
    pub code: u64,
    pub byte: u64,
    pub shelf: u64,
    pub from: u64,
    pub start: u64,
    pub length: u64,
}

#[repr(C)]
#[derive(Debug, PartialEq, Clone, Copy, Default)]
pub struct Browsed {
    pub code: u64,
    pub start: u64,
    pub length: u64,
    pub kind: u64,
    pub n: u64,
    pub degree: u64,
}

#[repr(C)]
#[derive(Debug, PartialEq, Clone, Copy, Default)]
pub struct Converted {
    pub code: u64,
    pub degree: u64,
    pub read: u64,
    pub written: u64,
    pub byte: u64,
}

#[repr(C)]
#[derive(Debug, PartialEq, Clone, Copy, Default)]
pub struct Rescued {
    pub code: u64,
    pub kept: u64,
    pub stretches: u64,
}

#[repr(C)]
#[derive(Debug, PartialEq, Clone, Copy, Default)]
pub struct Counted {
    pub code: u64,
    pub rows: u64,
    pub additions: u64,
}

#[repr(C)]
#[derive(Debug, PartialEq, Clone, Copy, Default)]
pub struct Point {
    pub real: f64,
    pub imag: f64,
}

#[repr(C)]
#[derive(Debug, Clone, Copy, Default)]
pub struct Value {
    pub code: u64,
    pub real: f64,
    pub imag: f64,
}

extern "C" {
    fn bv_polynomial(kind: u64, n: u64, h: i64, w: i64, buf: *mut i64, len: usize) -> Answer;
    fn bv_partial(kind: u64, n: u64, j: u64, w: i64, buf: *mut i64, len: usize) -> Stop;
    fn bv_comb(size: u64, w: i64, buf: *mut i64, len: usize) -> Step;
    fn bv_accumulate(size: u64, w: i64, buf: *mut i64, len: usize) -> Step;
    fn bv_write(kind: u64, n: u64, coeffs: *const i64, count: usize, bytes: *mut u8, len: usize) -> Written;
    fn bv_read(bytes: *const u8, len: usize, coeffs: *mut i64, count: usize) -> Record;
    fn bv_cascade(
        indices: *const u64,
        count: usize,
        h: i64,
        buf: *mut i64,
        len: usize,
        scratch: *mut i64,
        room: usize,
    ) -> Answer;
    fn bv_second(kind: u64, n: u64, h: i64, buf: *mut i64, len: usize, scratch: *mut i64, room: usize) -> Answer;
    fn bv_lookup(kind: u64, n: u64, own: *const u8, own_len: usize, house: *const u8, house_len: usize) -> Found;
    fn bv_browse(shelf: *const u8, len: usize, at: u64) -> Browsed;
    fn bv_write_half(kind: u64, n: u64, coeffs: *const i64, count: usize, bytes: *mut u8, len: usize) -> Written;
    fn bv_read_half(bytes: *const u8, len: usize, coeffs: *mut i64, count: usize) -> Record;
    fn bv_to_half(bytes: *const u8, len: usize, out: *mut u8, room: usize) -> Converted;
    fn bv_to_whole(bytes: *const u8, len: usize, out: *mut u8, room: usize) -> Converted;
    fn bv_rescue(
        shelf: *const u8,
        len: usize,
        out: *mut u8,
        room: usize,
        list: *mut u64,
        slots: usize,
        coeffs: *mut i64,
        entries: usize,
    ) -> Rescued;
    fn bv_response(coeffs: *const i64, count: usize, at: Point) -> Value;
    fn bv_census(a: u64, b: u64, rows: *mut u64, slots: usize, work: *mut i64, entries: usize) -> Counted;
}

fn lent<T>(a: &mut [T]) -> *mut T {
    if a.is_empty() { ptr::null_mut() } else { a.as_mut_ptr() }
}

fn shown<T>(a: &[T]) -> *const T {
    if a.is_empty() { ptr::null() } else { a.as_ptr() }
}

pub fn polynomial(kind: u64, n: u64, h: i64, w: i64, buf: &mut [i64]) -> Answer {
    unsafe { bv_polynomial(kind, n, h, w, lent(buf), buf.len()) }
}

pub fn partial(kind: u64, n: u64, j: u64, w: i64, buf: &mut [i64]) -> Stop {
    unsafe { bv_partial(kind, n, j, w, lent(buf), buf.len()) }
}

pub fn step(comb: bool, size: u64, w: i64, buf: &mut [i64]) -> Step {
    unsafe { if comb { bv_comb(size, w, lent(buf), buf.len()) } else { bv_accumulate(size, w, lent(buf), buf.len()) } }
}

pub fn write(kind: u64, n: u64, coeffs: &[i64], bytes: &mut [u8]) -> Written {
    unsafe { bv_write(kind, n, shown(coeffs), coeffs.len(), lent(bytes), bytes.len()) }
}

pub fn read(bytes: &[u8], coeffs: &mut [i64]) -> Record {
    unsafe { bv_read(shown(bytes), bytes.len(), lent(coeffs), coeffs.len()) }
}

pub fn cascade(indices: &[u64], h: i64, buf: &mut [i64], scratch: &mut [i64]) -> Answer {
    unsafe { bv_cascade(shown(indices), indices.len(), h, lent(buf), buf.len(), lent(scratch), scratch.len()) }
}

pub fn second(kind: u64, n: u64, h: i64, buf: &mut [i64], scratch: &mut [i64]) -> Answer {
    unsafe { bv_second(kind, n, h, lent(buf), buf.len(), lent(scratch), scratch.len()) }
}

pub fn lookup(kind: u64, n: u64, own: &[u8], house: &[u8]) -> Found {
    unsafe { bv_lookup(kind, n, shown(own), own.len(), shown(house), house.len()) }
}

pub fn browse(shelf: &[u8], at: u64) -> Browsed {
    unsafe { bv_browse(shown(shelf), shelf.len(), at) }
}

pub fn write_half(kind: u64, n: u64, coeffs: &[i64], bytes: &mut [u8]) -> Written {
    unsafe { bv_write_half(kind, n, shown(coeffs), coeffs.len(), lent(bytes), bytes.len()) }
}

pub fn read_half(bytes: &[u8], coeffs: &mut [i64]) -> Record {
    unsafe { bv_read_half(shown(bytes), bytes.len(), lent(coeffs), coeffs.len()) }
}

pub fn to_half(bytes: &[u8], out: &mut [u8]) -> Converted {
    unsafe { bv_to_half(shown(bytes), bytes.len(), lent(out), out.len()) }
}

pub fn to_whole(bytes: &[u8], out: &mut [u8]) -> Converted {
    unsafe { bv_to_whole(shown(bytes), bytes.len(), lent(out), out.len()) }
}

pub fn rescue(shelf: &[u8], out: &mut [u8], list: &mut [u64], coeffs: &mut [i64]) -> Rescued {
    let (room, slots, entries) = (out.len(), list.len(), coeffs.len());
    unsafe { bv_rescue(shown(shelf), shelf.len(), lent(out), room, lent(list), slots, lent(coeffs), entries) }
}

pub fn response(coeffs: &[i64], at: Point) -> Value {
    unsafe { bv_response(shown(coeffs), coeffs.len(), at) }
}

pub fn census(a: u64, b: u64, rows: &mut [u64], work: &mut [i64]) -> Counted {
    let (slots, entries) = (rows.len(), work.len());
    unsafe { bv_census(a, b, lent(rows), slots, lent(work), entries) }
}
