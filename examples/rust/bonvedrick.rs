//! A safe wrapper: slices for pointers and lengths, an enum of the refusals, and a `Result`. Nothing here allocates.
//! Copy this file, and link with `-l static=bonvedrick`; editions 2021 and 2024 take it, by rustc 1.82 or later.
//! What each function does and refuses is told in include/bonvedrick.h.

// A program that takes this file in uses the part of it that it needs.
#![allow(dead_code)]

use std::fmt;
use std::iter::FusedIterator;
use std::ops::Range;

/// The C functions and their answers, as include/bonvedrick.h has them.
mod c {
    use super::Point;

    #[repr(C)]
    pub struct Answer {
        pub code: u64,
        pub degree: u64,
        pub additions: u64,
        pub height: u64,
        pub peak: u64,
        pub gain: i64,
    }

    #[repr(C)]
    pub struct Stop {
        pub code: u64,
        pub degree: u64,
        pub additions: u64,
        pub due: u64,
    }

    #[repr(C)]
    pub struct Step {
        pub code: u64,
        pub count: u64,
    }

    #[repr(C)]
    pub struct Written {
        pub code: u64,
        pub degree: u64,
        pub used: u64,
        pub byte: u64,
    }

    #[repr(C)]
    pub struct Record {
        pub code: u64,
        pub degree: u64,
        pub used: u64,
        pub kind: u64,
        pub n: u64,
        pub byte: u64,
    }

    #[repr(C)]
    pub struct Found {
        pub code: u64,
        pub byte: u64,
        pub shelf: u64,
        pub from: u64,
        pub start: u64,
        pub length: u64,
    }

    #[repr(C)]
    pub struct Browsed {
        pub code: u64,
        pub start: u64,
        pub length: u64,
        pub kind: u64,
        pub n: u64,
        pub degree: u64,
    }

    #[repr(C)]
    pub struct Converted {
        pub code: u64,
        pub degree: u64,
        pub read: u64,
        pub written: u64,
        pub byte: u64,
    }

    #[repr(C)]
    pub struct Rescued {
        pub code: u64,
        pub kept: u64,
        pub stretches: u64,
    }

    #[repr(C)]
    pub struct Counted {
        pub code: u64,
        pub rows: u64,
        pub additions: u64,
    }

    #[repr(C)]
    pub struct Value {
        pub code: u64,
        pub value: Point,
    }

    unsafe extern "C" {
        pub fn bv_polynomial(kind: u64, n: u64, h: i64, w: i64, buf: *mut i64, len: usize) -> Answer;
        pub fn bv_partial(kind: u64, n: u64, j: u64, w: i64, buf: *mut i64, len: usize) -> Stop;
        pub fn bv_comb(size: u64, w: i64, buf: *mut i64, len: usize) -> Step;
        pub fn bv_accumulate(size: u64, w: i64, buf: *mut i64, len: usize) -> Step;
        pub fn bv_write(kind: u64, n: u64, coeffs: *const i64, count: usize, bytes: *mut u8, len: usize) -> Written;
        pub fn bv_read(bytes: *const u8, len: usize, coeffs: *mut i64, count: usize) -> Record;
        pub fn bv_lookup(
            kind: u64,
            n: u64,
            own: *const u8,
            own_len: usize,
            house: *const u8,
            house_len: usize,
        ) -> Found;
        pub fn bv_browse(shelf: *const u8, len: usize, at: u64) -> Browsed;
        pub fn bv_write_half(
            kind: u64,
            n: u64,
            coeffs: *const i64,
            count: usize,
            bytes: *mut u8,
            len: usize,
        ) -> Written;
        pub fn bv_read_half(bytes: *const u8, len: usize, coeffs: *mut i64, count: usize) -> Record;
        pub fn bv_to_half(bytes: *const u8, len: usize, out: *mut u8, room: usize) -> Converted;
        pub fn bv_to_whole(bytes: *const u8, len: usize, out: *mut u8, room: usize) -> Converted;
        pub fn bv_rescue(
            shelf: *const u8,
            len: usize,
            out: *mut u8,
            room: usize,
            list: *mut u64,
            slots: usize,
            coeffs: *mut i64,
            entries: usize,
        ) -> Rescued;
        pub fn bv_cascade(
            indices: *const u64,
            count: usize,
            h: i64,
            buf: *mut i64,
            len: usize,
            scratch: *mut i64,
            room: usize,
        ) -> Answer;
        pub fn bv_second(
            kind: u64,
            n: u64,
            h: i64,
            buf: *mut i64,
            len: usize,
            scratch: *mut i64,
            room: usize,
        ) -> Answer;
        pub fn bv_response(coeffs: *const i64, count: usize, at: Point) -> Value;
        pub fn bv_census(a: u64, b: u64, rows: *mut u64, slots: usize, work: *mut i64, entries: usize) -> Counted;
    }
}

/// Which polynomial: F(n), or I(n) with F(n) I(n) = z^n - 1.
#[derive(Clone, Copy, Debug, PartialEq, Eq)]
pub enum Kind {
    F = 1,
    I = 2,
}

/// A complex number: a point, and the value there.
#[repr(C)]
#[derive(Clone, Copy, Debug, Default, PartialEq)]
pub struct Point {
    pub real: f64,
    pub imag: f64,
}

/// For the height limit h and the working limit w: none.
pub const NO_LIMIT: i64 = i64::MAX;

/// The working limit of registers of `bits` bits, sign included: no step may make a value larger in magnitude.
/// `None` outside 2 to 64 bits, where there is no such limit.
pub fn registers(bits: u32) -> Option<i64> {
    match bits {
        2..=64 => Some(i64::MAX >> (64 - bits)),
        _ => None,
    }
}

/// A field of a record's header.
#[derive(Clone, Copy, Debug, PartialEq, Eq)]
pub enum Field {
    Kind,
    Width,
    Index,
    Count,
}

impl Field {
    pub fn name(self) -> &'static str {
        match self {
            Field::Kind => "kind",
            Field::Width => "width",
            Field::Index => "index",
            Field::Count => "number of coefficients",
        }
    }

    /// What would be right in it.
    pub fn right(self) -> &'static str {
        match self {
            Field::Kind => "1 or 2",
            Field::Width => "1, 2, 4 or 8",
            Field::Index => "from 1 to 65535",
            Field::Count => "the degree of that kind at that index, plus 1",
        }
    }
}

/// One of the two shelves of `lookup`.
#[derive(Clone, Copy, Debug, PartialEq, Eq)]
pub enum Shelf {
    Own = 1,
    House = 2,
}

impl Shelf {
    fn of(told: u64) -> Shelf {
        if told == 1 { Shelf::Own } else { Shelf::House }
    }
}

/// What is wrong with a record on a shelf.
#[derive(Clone, Copy, Debug, PartialEq, Eq)]
pub enum Fault {
    Cut,
    Mark,
    Width,
    Field(Field),
}

impl fmt::Display for Fault {
    fn fmt(&self, f: &mut fmt::Formatter<'_>) -> fmt::Result {
        match self {
            Fault::Cut => f.write_str("it ends early"),
            Fault::Mark => f.write_str("its bytes are not those of a record"),
            Fault::Width => f.write_str("its coefficients are not in the width that `write` would choose"),
            Fault::Field(field) => write!(f, "its {} is wrong: right is {}", field.name(), field.right()),
        }
    }
}

/// Why nothing was delivered. The degree is that of the polynomial, and for `partial` that of its lower half; it is
/// `None` where the request tells none, as a step does. `Field` is of what writes, reads or converts a record: the
/// field that is wrong, and the byte of the record at which it starts. `List` is of `cascade`. `Record` is of `lookup`
/// and `records`: a record on the way doesn't read; the byte is that of the shelf at which it starts, and the shelf is
/// `None` where there is only one. `Absent` is of `lookup`. `Uneven` is of half records: the halves of the polynomial
/// don't match. `Point` and `Coarse` are of `response`, `Range` and `Rows` of `census`.
#[derive(Clone, Copy, Debug, PartialEq, Eq)]
pub enum Refusal {
    Kind,
    Index,
    Limit,
    Short { degree: Option<usize> },
    Over { degree: Option<usize> },
    Tall { degree: Option<usize> },
    Step,
    Cut,
    Mark,
    Width,
    Field { field: Field, byte: usize },
    List,
    Record { fault: Fault, byte: usize, shelf: Option<Shelf> },
    Absent,
    Uneven,
    Point,
    Coarse,
    Range,
    Rows,
    /// A code that this wrapper doesn't know: a later library.
    Unknown(u64),
}

impl Refusal {
    /// The refusal of a code. The degree is `None` where the request's answer has no such field, and looked at only
    /// with the codes that tell one; the byte is looked at only with those of a wrong field.
    pub(crate) fn of(code: u64, degree: Option<u64>, byte: u64) -> Refusal {
        let degree = degree.map(place);
        let wrong = |field| Refusal::Field { field, byte: place(byte) };
        match code {
            1 => Refusal::Kind,
            2 => Refusal::Index,
            3 => Refusal::Limit,
            4 => Refusal::Short { degree },
            5 => Refusal::Over { degree },
            6 => Refusal::Tall { degree },
            7 => Refusal::Step,
            8 => Refusal::Cut,
            9 => Refusal::Mark,
            11 => Refusal::Width,
            12 => wrong(Field::Kind),
            13 => wrong(Field::Width),
            14 => wrong(Field::Index),
            15 => wrong(Field::Count),
            16 => Refusal::List,
            17 => Refusal::Absent,
            18 => Refusal::Uneven,
            19 => Refusal::Point,
            20 => Refusal::Coarse,
            21 => Refusal::Range,
            22 => Refusal::Rows,
            other => Refusal::Unknown(other),
        }
    }

    /// The refusal of a code where shelves are looked at. The place is looked at only with the codes of a record that
    /// doesn't read.
    pub(crate) fn on_shelf(code: u64, byte: u64, shelf: Option<Shelf>) -> Refusal {
        let record = |fault| Refusal::Record { fault, byte: place(byte), shelf };
        match code {
            8 => record(Fault::Cut),
            9 => record(Fault::Mark),
            11 => record(Fault::Width),
            12 => record(Fault::Field(Field::Kind)),
            13 => record(Fault::Field(Field::Width)),
            14 => record(Fault::Field(Field::Index)),
            15 => record(Fault::Field(Field::Count)),
            other => Refusal::of(other, None, 0),
        }
    }

    /// Its number, as include/bonvedrick.h has it.
    pub fn code(self) -> u64 {
        match self {
            Refusal::Kind => 1,
            Refusal::Index => 2,
            Refusal::Limit => 3,
            Refusal::Short { .. } => 4,
            Refusal::Over { .. } => 5,
            Refusal::Tall { .. } => 6,
            Refusal::Step => 7,
            Refusal::Cut | Refusal::Record { fault: Fault::Cut, .. } => 8,
            Refusal::Mark | Refusal::Record { fault: Fault::Mark, .. } => 9,
            Refusal::Width | Refusal::Record { fault: Fault::Width, .. } => 11,
            Refusal::Field { field, .. } | Refusal::Record { fault: Fault::Field(field), .. } => match field {
                Field::Kind => 12,
                Field::Width => 13,
                Field::Index => 14,
                Field::Count => 15,
            },
            Refusal::List => 16,
            Refusal::Absent => 17,
            Refusal::Uneven => 18,
            Refusal::Point => 19,
            Refusal::Coarse => 20,
            Refusal::Range => 21,
            Refusal::Rows => 22,
            Refusal::Unknown(code) => code,
        }
    }
}

impl fmt::Display for Refusal {
    fn fmt(&self, f: &mut fmt::Formatter<'_>) -> fmt::Result {
        match self {
            Refusal::Kind => f.write_str("the kind is not 1 or 2"),
            Refusal::Index => f.write_str("there is no such index"),
            Refusal::Limit => f.write_str("a limit is below 1"),
            Refusal::Short { degree: Some(degree) } => write!(f, "too little room: the degree is {degree}"),
            Refusal::Short { degree: None } => f.write_str("too little room"),
            Refusal::Over { .. } => f.write_str("a value is too large in magnitude to work with"),
            Refusal::Tall { .. } => f.write_str("a coefficient is larger in magnitude than the height limit"),
            Refusal::Step => f.write_str("there is no such step"),
            Refusal::Cut => f.write_str("the record ends early"),
            Refusal::Mark => f.write_str("the bytes are not those of such a record"),
            Refusal::Width => f.write_str("the record's coefficients are not in the width that `write` would choose"),
            Refusal::Field { field, byte } => {
                write!(f, "the record's {}, at byte {byte}, is wrong: right is {}", field.name(), field.right())
            }
            Refusal::List => f.write_str("a cascade has from 1 to 8 indices and a degree of at most 65535"),
            Refusal::Record { fault, byte, shelf } => {
                let whose = match shelf {
                    Some(Shelf::Own) => "own ",
                    Some(Shelf::House) => "house ",
                    None => "",
                };
                write!(f, "the record at byte {byte} of the {whose}shelf doesn't read: {fault}")
            }
            Refusal::Absent => f.write_str("neither shelf has such a record"),
            Refusal::Uneven => f.write_str("the halves of the polynomial don't match"),
            Refusal::Point => f.write_str("a part of the point is not from -1 to 1"),
            Refusal::Coarse => f.write_str("a coefficient is larger in magnitude than 2^53"),
            Refusal::Range => f.write_str("a census goes from an index of at least 1 up to one of at most 4095"),
            Refusal::Rows => f.write_str("there are more heights than rows for them"),
            Refusal::Unknown(code) => write!(f, "code {code}"),
        }
    }
}

impl std::error::Error for Refusal {}

/// A degree, a place or a count of bytes that the library told: at most 10 + 8 * 65536, or the length of a slice that
/// was lent, so it fits and is never cut.
fn place(told: u64) -> usize {
    usize::try_from(told).expect("the library told a place that no slice has")
}

/// Nothing on code 0, else the refusal.
fn outcome(code: u64, degree: Option<u64>, byte: u64) -> Result<(), Refusal> {
    if code == 0 { Ok(()) } else { Err(Refusal::of(code, degree, byte)) }
}

/// A delivered polynomial or cascade: its coefficients, a part of the buffer that was lent, and what the library tells
/// of it.
#[derive(Debug)]
pub struct Polynomial<'a> {
    pub coeffs: &'a mut [i64],
    pub additions: u64,
    pub height: u64,
    /// The lowest degree at which the height's magnitude occurs: the place of that coefficient in `coeffs`.
    pub peak: usize,
    pub gain: i64,
}

/// A half-built polynomial.
#[derive(Debug)]
pub struct Partial<'a> {
    pub half: &'a mut [i64],
    pub additions: u64,
    pub due: usize,
}

/// A record that was read, and the bytes it used.
#[derive(Debug)]
pub struct Record<'a> {
    pub kind: Kind,
    pub n: u64,
    pub coeffs: &'a mut [i64],
    pub used: usize,
}

/// A record that was converted: the degree of its polynomial, the bytes that it has in the form that was read, and the
/// record in the other form, a part of the buffer that was lent.
#[derive(Debug)]
pub struct Converted<'a> {
    pub degree: usize,
    pub read: usize,
    pub bytes: &'a mut [u8],
}

/// A record that `lookup` found, where it stands: its bytes, a part of the shelf itself, which shelf that is, and the
/// byte of it at which they start.
#[derive(Clone, Copy, Debug, PartialEq, Eq)]
pub struct Stretch<'a> {
    pub bytes: &'a [u8],
    pub from: Shelf,
    pub start: usize,
}

/// A record that `records` met, where it stands: what its header says, its bytes, a part of the shelf itself, and the
/// byte of the shelf at which they start.
#[derive(Clone, Copy, Debug, PartialEq, Eq)]
pub struct Entry<'a> {
    pub kind: Kind,
    pub n: u64,
    pub degree: usize,
    pub bytes: &'a [u8],
    pub start: usize,
}

/// What `rescue` kept of a shelf, and what it skipped: parts of the buffers that were lent.
#[derive(Debug)]
pub struct Rescued<'a> {
    /// The kept records, one after another.
    pub kept: &'a mut [u8],
    /// For each skipped stretch the byte of the shelf at which it starts, and its length.
    pub list: &'a mut [u64],
}

impl Rescued<'_> {
    /// The skipped stretches, in order, each as the places of the shelf that it has: `&shelf[stretch]` are its bytes.
    pub fn skipped(&self) -> impl Iterator<Item = Range<usize>> + '_ {
        self.list.chunks_exact(2).map(|told| place(told[0])..place(told[0]) + place(told[1]))
    }
}

/// A row of a census: a height, the smallest index that has it, and how many have it. It is three numbers, as C has it.
#[repr(C)]
#[derive(Clone, Copy, Debug, Default, PartialEq, Eq)]
pub struct Row {
    pub height: u64,
    pub smallest: u64,
    pub count: u64,
}

/// A census of heights: its rows, a part of the slice that was lent, by ascending height, and the additions of all the
/// polynomials.
#[derive(Debug)]
pub struct Census<'a> {
    pub rows: &'a mut [Row],
    pub additions: u64,
}

// SAFETY of each call below: a Rust slice is what the library asks of a pointer and a length, and `&mut` is alone.
// `kind as u64` is 1 or 2, which an enum says for itself.

pub fn polynomial(kind: Kind, n: u64, h: i64, w: i64, buf: &mut [i64]) -> Result<Polynomial<'_>, Refusal> {
    let a = unsafe { c::bv_polynomial(kind as u64, n, h, w, buf.as_mut_ptr(), buf.len()) };
    delivered(a, buf)
}

fn delivered(a: c::Answer, buf: &mut [i64]) -> Result<Polynomial<'_>, Refusal> {
    outcome(a.code, Some(a.degree), 0)?;
    let coeffs = &mut buf[..=place(a.degree)];
    Ok(Polynomial { coeffs, additions: a.additions, height: a.height, peak: place(a.peak), gain: a.gain })
}

pub fn partial(kind: Kind, n: u64, j: u64, w: i64, buf: &mut [i64]) -> Result<Partial<'_>, Refusal> {
    let a = unsafe { c::bv_partial(kind as u64, n, j, w, buf.as_mut_ptr(), buf.len()) };
    outcome(a.code, Some(a.degree), 0)?;
    Ok(Partial { half: &mut buf[..=place(a.degree)], additions: a.additions, due: place(a.due) })
}

/// Multiplies by 1 - z^size, and answers how many subtractions that took.
pub fn comb(size: u64, w: i64, buf: &mut [i64]) -> Result<u64, Refusal> {
    let a = unsafe { c::bv_comb(size, w, buf.as_mut_ptr(), buf.len()) };
    outcome(a.code, None, 0)?;
    Ok(a.count)
}

/// Divides by 1 - z^size, and answers how many additions that took.
pub fn accumulate(size: u64, w: i64, buf: &mut [i64]) -> Result<u64, Refusal> {
    let a = unsafe { c::bv_accumulate(size, w, buf.as_mut_ptr(), buf.len()) };
    outcome(a.code, None, 0)?;
    Ok(a.count)
}

/// Writes a record, and answers its bytes.
pub fn write<'a>(kind: Kind, n: u64, coeffs: &[i64], bytes: &'a mut [u8]) -> Result<&'a mut [u8], Refusal> {
    let a = unsafe {
        c::bv_write(kind as u64, n, coeffs.as_ptr(), coeffs.len(), bytes.as_mut_ptr(), bytes.len())
    };
    outcome(a.code, Some(a.degree), a.byte)?;
    Ok(&mut bytes[..place(a.used)])
}

pub fn read<'a>(bytes: &[u8], coeffs: &'a mut [i64]) -> Result<Record<'a>, Refusal> {
    let a = unsafe { c::bv_read(bytes.as_ptr(), bytes.len(), coeffs.as_mut_ptr(), coeffs.len()) };
    record(a, coeffs)
}

fn record(a: c::Record, coeffs: &mut [i64]) -> Result<Record<'_>, Refusal> {
    outcome(a.code, Some(a.degree), a.byte)?;
    Ok(Record { kind: kind_of(a.kind), n: a.n, coeffs: &mut coeffs[..=place(a.degree)], used: place(a.used) })
}

/// Writes the half record of a polynomial, which is passed whole, and answers its bytes.
pub fn write_half<'a>(kind: Kind, n: u64, coeffs: &[i64], bytes: &'a mut [u8]) -> Result<&'a mut [u8], Refusal> {
    let a = unsafe {
        c::bv_write_half(kind as u64, n, coeffs.as_ptr(), coeffs.len(), bytes.as_mut_ptr(), bytes.len())
    };
    outcome(a.code, Some(a.degree), a.byte)?;
    Ok(&mut bytes[..place(a.used)])
}

/// Reads a half record: the coefficients are those of the whole polynomial.
pub fn read_half<'a>(bytes: &[u8], coeffs: &'a mut [i64]) -> Result<Record<'a>, Refusal> {
    let a = unsafe { c::bv_read_half(bytes.as_ptr(), bytes.len(), coeffs.as_mut_ptr(), coeffs.len()) };
    record(a, coeffs)
}

/// The half record of the record that the bytes start with. As many bytes as they are have room for it.
pub fn to_half<'a>(bytes: &[u8], out: &'a mut [u8]) -> Result<Converted<'a>, Refusal> {
    let a = unsafe { c::bv_to_half(bytes.as_ptr(), bytes.len(), out.as_mut_ptr(), out.len()) };
    converted(a, out)
}

/// The record of the half record that the bytes start with. Twice as many bytes as they are have room for it.
pub fn to_whole<'a>(bytes: &[u8], out: &'a mut [u8]) -> Result<Converted<'a>, Refusal> {
    let a = unsafe { c::bv_to_whole(bytes.as_ptr(), bytes.len(), out.as_mut_ptr(), out.len()) };
    converted(a, out)
}

fn converted(a: c::Converted, out: &mut [u8]) -> Result<Converted<'_>, Refusal> {
    outcome(a.code, Some(a.degree), a.byte)?;
    Ok(Converted { degree: place(a.degree), read: place(a.read), bytes: &mut out[..place(a.written)] })
}

/// The kind that the library told of a record: 1 or 2.
fn kind_of(told: u64) -> Kind {
    if told == 1 { Kind::F } else { Kind::I }
}

/// The first record of a kind and an index, in one's own shelf or else in that of the house: no copy, its bytes are
/// those of the shelf. A record on the way that doesn't read is a refusal; one after the record found is not seen.
pub fn lookup<'a>(kind: Kind, n: u64, own: &'a [u8], house: &'a [u8]) -> Result<Stretch<'a>, Refusal> {
    let a = unsafe { c::bv_lookup(kind as u64, n, own.as_ptr(), own.len(), house.as_ptr(), house.len()) };
    if a.code != 0 {
        return Err(Refusal::on_shelf(a.code, a.byte, Some(Shelf::of(a.shelf))));
    }
    let (from, start) = (Shelf::of(a.from), place(a.start));
    let shelf = if from == Shelf::Own { own } else { house };
    Ok(Stretch { bytes: &shelf[start..][..place(a.length)], from, start })
}

/// The records of a shelf, one after another. A record that doesn't read ends it: its refusal is given, once, and then
/// `None`, as after the last record, however often it is asked.
pub fn records(shelf: &[u8]) -> Records<'_> {
    Records { shelf, at: 0 }
}

/// A shelf and a place in it.
#[derive(Clone, Debug)]
pub struct Records<'a> {
    shelf: &'a [u8],
    at: usize,
}

impl<'a> Iterator for Records<'a> {
    type Item = Result<Entry<'a>, Refusal>;

    fn next(&mut self) -> Option<Self::Item> {
        let a = unsafe { c::bv_browse(self.shelf.as_ptr(), self.shelf.len(), self.at as u64) };
        if a.code != 0 {
            self.at = self.shelf.len(); // so that nothing more comes
            return Some(Err(Refusal::on_shelf(a.code, a.start, None)));
        }
        if a.length == 0 {
            return None;
        }
        let (start, bytes) = (self.at, &self.shelf[self.at..][..place(a.length)]);
        self.at += bytes.len();
        Some(Ok(Entry { kind: kind_of(a.kind), n: a.n, degree: place(a.degree), bytes, start }))
    }
}

impl FusedIterator for Records<'_> {}

/// The good records of a damaged shelf, and the stretches that are skipped. For len bytes, as many to write to and a
/// list of 2 (len / 11 + 1) numbers are always enough; coeffs is to work in, and 65536 entries do for every shelf.
pub fn rescue<'a>(
    shelf: &[u8],
    out: &'a mut [u8],
    list: &'a mut [u64],
    coeffs: &mut [i64],
) -> Result<Rescued<'a>, Refusal> {
    let (numbers, slots, work, entries) = (list.as_mut_ptr(), list.len(), coeffs.as_mut_ptr(), coeffs.len());
    let a = unsafe {
        c::bv_rescue(shelf.as_ptr(), shelf.len(), out.as_mut_ptr(), out.len(), numbers, slots, work, entries)
    };
    outcome(a.code, None, 0)?;
    Ok(Rescued { kept: &mut out[..place(a.kept)], list: &mut list[..2 * place(a.stretches)] })
}

/// The product of F(n) over the indices. The scratch is to work in, and needs as many entries as the longest factor
/// has.
pub fn cascade<'a>(
    indices: &[u64],
    h: i64,
    buf: &'a mut [i64],
    scratch: &mut [i64],
) -> Result<Polynomial<'a>, Refusal> {
    let (work, room) = (scratch.as_mut_ptr(), scratch.len());
    let a = unsafe { c::bv_cascade(indices.as_ptr(), indices.len(), h, buf.as_mut_ptr(), buf.len(), work, room) };
    delivered(a, buf)
}

/// The polynomial from another road, for reviewers: what `polynomial` delivers with `NO_LIMIT` as w, but for additions,
/// which are 0. The scratch is to work in, and needs 2 n + 16 entries.
pub fn second<'a>(
    kind: Kind,
    n: u64,
    h: i64,
    buf: &'a mut [i64],
    scratch: &mut [i64],
) -> Result<Polynomial<'a>, Refusal> {
    let (work, room) = (scratch.as_mut_ptr(), scratch.len());
    let a = unsafe { c::bv_second(kind as u64, n, h, buf.as_mut_ptr(), buf.len(), work, room) };
    delivered(a, buf)
}

/// The value at a point of the polynomial with these coefficients, in f64 from the highest degree down, each operation
/// rounded once. Each part of the point is from -1 to 1, and no coefficient is above 2^53 in magnitude.
pub fn response(coeffs: &[i64], at: Point) -> Result<Point, Refusal> {
    let a = unsafe { c::bv_response(coeffs.as_ptr(), coeffs.len(), at) };
    outcome(a.code, None, 0)?;
    Ok(a.value)
}

/// Which heights F has from index a to index b, at most 4095. 7 rows do for every census; the work is to work in, and
/// needs 4096 entries.
pub fn census<'a>(a: u64, b: u64, rows: &'a mut [Row], work: &mut [i64]) -> Result<Census<'a>, Refusal> {
    let (numbers, slots) = (rows.as_mut_ptr().cast(), 3 * rows.len());
    let told = unsafe { c::bv_census(a, b, numbers, slots, work.as_mut_ptr(), work.len()) };
    outcome(told.code, None, 0)?;
    Ok(Census { rows: &mut rows[..place(told.rows)], additions: told.additions })
}
