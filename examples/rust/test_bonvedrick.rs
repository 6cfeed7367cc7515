//! Tests of the wrapper: what it makes of each code, of each answer with and without a degree, and of the numbers at
//! the ends of their types. `make rust` runs them.
mod bonvedrick;

use bonvedrick::{
    Fault, Field, Kind, NO_LIMIT, Point, Refusal, Row, Shelf, Stretch, accumulate, cascade, census, comb, lookup,
    partial, polynomial, read, read_half, records, registers, rescue, response, second, to_half, to_whole, write,
    write_half,
};
use std::ops::Range;

/// F(6), its record and its half record; and those of I(6).
const SIX: [i64; 3] = [1, -1, 1];
const RECORD: [u8; 13] = [0xC9, 0x50, 1, 1, 6, 0, 3, 0, 0, 0, 1, 0xFF, 1];
const HALF: [u8; 12] = [0xC9, 0x51, 1, 1, 6, 0, 3, 0, 0, 0, 1, 0xFF];
const INVERSE: [i64; 5] = [-1, -1, 0, 1, 1];
const INVERSE_RECORD: [u8; 15] = [0xC9, 0x50, 2, 1, 6, 0, 5, 0, 0, 0, 0xFF, 0xFF, 0, 1, 1];
const INVERSE_HALF: [u8; 13] = [0xC9, 0x51, 2, 1, 6, 0, 5, 0, 0, 0, 0xFF, 0xFF, 0];

#[test]
fn registers_outside_2_to_64_bits_have_no_limit_to_tell() {
    for none in [0, 1, 65, 66, 128, u32::MAX] {
        assert_eq!(registers(none), None);
    }
    assert_eq!(registers(2), Some(1));
    assert_eq!(registers(20), Some(524287));
    assert_eq!(registers(63), Some(i64::MAX / 2));
    assert_eq!(registers(64), Some(NO_LIMIT));
}

#[test]
fn every_code_has_its_refusal() {
    let byte = 6;
    let refusals = [
        (1, Refusal::Kind),
        (2, Refusal::Index),
        (3, Refusal::Limit),
        (4, Refusal::Short { degree: Some(8) }),
        (5, Refusal::Over { degree: Some(8) }),
        (6, Refusal::Tall { degree: Some(8) }),
        (7, Refusal::Step),
        (8, Refusal::Cut),
        (9, Refusal::Mark),
        (10, Refusal::Unknown(10)),
        (11, Refusal::Width),
        (12, Refusal::Field { field: Field::Kind, byte }),
        (13, Refusal::Field { field: Field::Width, byte }),
        (14, Refusal::Field { field: Field::Index, byte }),
        (15, Refusal::Field { field: Field::Count, byte }),
        (16, Refusal::List),
        (17, Refusal::Absent),
        (18, Refusal::Uneven),
        (19, Refusal::Point),
        (20, Refusal::Coarse),
        (21, Refusal::Range),
        (22, Refusal::Rows),
        (23, Refusal::Unknown(23)),
        (u64::MAX, Refusal::Unknown(u64::MAX)),
    ];
    for (code, refusal) in refusals {
        assert_eq!(Refusal::of(code, Some(8), 6), refusal);
        assert_eq!(refusal.code(), code);
        assert!(!refusal.to_string().is_empty());
    }
    for code in 1..40 {
        assert_eq!(Refusal::of(code, None, 0).code(), code);
        assert_eq!(Refusal::on_shelf(code, 13, Some(Shelf::Own)).code(), code);
        assert_eq!(Refusal::on_shelf(code, 13, None).code(), code);
    }
    assert_eq!(Refusal::of(4, None, 0), Refusal::Short { degree: None });
    assert_eq!(Refusal::of(5, None, 0), Refusal::Over { degree: None });
    assert_eq!(Refusal::of(6, None, 0), Refusal::Tall { degree: None });
}

#[test]
fn the_text_has_the_degree_where_there_is_one() {
    assert_eq!(Refusal::Short { degree: Some(8) }.to_string(), "too little room: the degree is 8");
    assert_eq!(Refusal::Short { degree: None }.to_string(), "too little room");
    assert_eq!(Refusal::Unknown(23).to_string(), "code 23");
}

#[test]
fn a_polynomial_is_delivered_or_refused_with_its_degree() {
    let mut buf = [77; 60];
    let ask = |n, h, w, buf: &mut [i64]| polynomial(Kind::F, n, h, w, buf).map(|p| p.coeffs.len());
    for n in [0, 65536, u64::MAX] {
        assert_eq!(ask(n, 0, 0, &mut buf), Err(Refusal::Index));
    }
    for limit in [i64::MIN, -1, 0] {
        assert_eq!(ask(105, limit, NO_LIMIT, &mut buf), Err(Refusal::Limit));
        assert_eq!(ask(105, NO_LIMIT, limit, &mut []), Err(Refusal::Limit));
    }
    assert_eq!(ask(105, 2, 2, &mut []), Err(Refusal::Short { degree: Some(48) }));
    assert_eq!(ask(105, 2, 2, &mut buf[..48]), Err(Refusal::Short { degree: Some(48) }));
    assert_eq!(buf, [77; 60]);
    assert_eq!(ask(105, 2, 1, &mut buf), Err(Refusal::Over { degree: Some(48) }));
    assert_eq!(ask(105, 1, 2, &mut buf), Err(Refusal::Tall { degree: Some(48) }));
    assert!(buf[..49].iter().all(|&entry| entry == 0) && buf[49..].iter().all(|&entry| entry == 77));
    // a degree of 0 that is told is a degree
    let none = polynomial(Kind::I, 1, 1, 1, &mut []).map(|p| p.gain);
    assert_eq!(none, Err(Refusal::Short { degree: Some(0) }));
    let f = polynomial(Kind::F, 105, 2, 2, &mut buf).unwrap();
    assert_eq!((f.coeffs.len(), f.additions, f.height, f.peak, f.gain), (49, 98, 2, 7, 1));
    assert_eq!((f.coeffs[7], f.coeffs[41], f.coeffs[48]), (-2, -2, 1));
}

#[test]
fn a_half_built_one_is_delivered_or_refused_with_its_own_degree() {
    let mut buf = [77; 30];
    let ask = |n, j, w, buf: &mut [i64]| partial(Kind::F, n, j, w, buf).map(|p| (p.half.len(), p.additions, p.due));
    for n in [0, 1, 32768, 65536, u64::MAX] {
        assert_eq!(ask(n, u64::MAX, 0, &mut buf), Err(Refusal::Index));
    }
    assert_eq!(ask(105, 8, 0, &mut buf), Err(Refusal::Step));
    assert_eq!(ask(105, u64::MAX, 0, &mut buf), Err(Refusal::Step));
    assert_eq!(ask(105, 7, 0, &mut []), Err(Refusal::Limit));
    assert_eq!(ask(105, 7, 1, &mut buf[..24]), Err(Refusal::Short { degree: Some(24) }));
    assert_eq!(buf, [77; 30]);
    assert_eq!(ask(105, 7, 1, &mut buf), Err(Refusal::Over { degree: Some(24) }));
    assert_eq!(ask(105, 3, 1, &mut buf), Ok((25, 66, 4)));
    assert_eq!(ask(105, 7, 2, &mut buf), Ok((25, 98, 0)));
}

#[test]
fn a_step_is_taken_or_refused_without_a_degree() {
    let mut entries = [1, 2, 3];
    for step in [comb, accumulate] {
        assert_eq!(step(0, 0, &mut entries), Err(Refusal::Step));
        assert_eq!(step(65536, 1, &mut entries), Err(Refusal::Step));
        assert_eq!(step(u64::MAX, 1, &mut []), Err(Refusal::Step));
        assert_eq!(step(1, i64::MIN, &mut entries), Err(Refusal::Limit));
        assert_eq!(step(65535, 1, &mut entries), Ok(0));
        assert_eq!(step(1, 1, &mut []), Ok(0));
        assert_eq!(entries, [1, 2, 3]);
    }
    assert_eq!(accumulate(1, 5, &mut entries), Err(Refusal::Over { degree: None }));
    assert_eq!(entries, [1, 2, 3]);
    assert_eq!((accumulate(1, 6, &mut entries), entries), (Ok(2), [1, 3, 6]));
    assert_eq!(comb(1, 2, &mut entries), Err(Refusal::Over { degree: None }));
    assert_eq!((comb(1, 3, &mut entries), entries), (Ok(2), [1, 2, 3]));
}

#[test]
fn a_record_is_written_or_refused() {
    let mut bytes = [7; 20];
    let mut ask = |n, coeffs: &[i64], room| write(Kind::F, n, coeffs, &mut bytes[..room]).map(|b| b.to_vec());
    for n in [0, 65536, u64::MAX] {
        assert_eq!(ask(n, &SIX, 20), Err(Refusal::Index));
    }
    let count = Refusal::Field { field: Field::Count, byte: 6 };
    assert_eq!(ask(6, &[], 20), Err(count));
    assert_eq!(ask(6, &SIX[1..], 20), Err(count));
    assert_eq!(ask(6, &[1, i64::MIN, 1], 0), Err(Refusal::Over { degree: Some(2) }));
    assert_eq!(ask(6, &SIX, 12), Err(Refusal::Short { degree: Some(2) }));
    assert_eq!(ask(6, &SIX, 13), Ok(RECORD.to_vec()));
    assert_eq!(ask(6, &[-128, 0, 0], 20).map(|b| (b.len(), b[3])), Ok((16, 2)));
}

#[test]
fn a_record_is_read_or_refused() {
    let mut coeffs = [77; 4];
    assert_eq!(read(&[], &mut coeffs).map(|r| r.n), Err(Refusal::Cut));
    assert_eq!(read(&RECORD[..12], &mut coeffs).map(|r| r.n), Err(Refusal::Cut));
    assert_eq!(read(&RECORD, &mut coeffs[..2]).map(|r| r.n), Err(Refusal::Short { degree: Some(2) }));
    let wrong = [
        (0, 0, Refusal::Mark),
        (2, 3, Refusal::Field { field: Field::Kind, byte: 2 }),
        (3, 3, Refusal::Field { field: Field::Width, byte: 3 }),
        (4, 0, Refusal::Field { field: Field::Index, byte: 4 }),
        (6, 4, Refusal::Field { field: Field::Count, byte: 6 }),
        // -128 in one byte: its magnitude takes two
        (10, 0x80, Refusal::Width),
    ];
    for (at, byte, refusal) in wrong {
        let mut bytes = RECORD;
        bytes[at] = byte;
        assert_eq!(read(&bytes, &mut coeffs).map(|r| r.n), Err(refusal));
    }
    assert_eq!(coeffs, [77; 4]);
    let r = read(&RECORD, &mut coeffs).unwrap();
    assert_eq!((r.kind, r.n, r.used, &*r.coeffs), (Kind::F, 6, 13, &SIX[..]));
    assert_eq!(coeffs[3], 77);
}

#[test]
fn a_cascade_is_delivered_or_refused_with_its_degree() {
    let (mut buf, mut scratch) = ([77; 100], [77; 50]);
    let ask = |indices: &[u64], h, buf: &mut [i64], scratch: &mut [i64]| {
        cascade(indices, h, buf, scratch).map(|p| (p.coeffs.len(), p.additions, p.height, p.peak, p.gain))
    };
    for list in [&[][..], &[2; 9], &[0; 9], &[u64::MAX; 12], &[65521, 17], &[65519, 17, 1, 1]] {
        assert_eq!(ask(list, 0, &mut buf, &mut []), Err(Refusal::List));
    }
    for n in [0, 65536, u64::MAX] {
        for list in [[n, 65521, 65521], [3, n, 5], [3, 5, n]] {
            assert_eq!(ask(&list, 0, &mut [], &mut scratch), Err(Refusal::Index));
        }
    }
    for limit in [i64::MIN, -1, 0] {
        assert_eq!(ask(&[105, 3], limit, &mut buf[..50], &mut scratch), Err(Refusal::Limit));
    }
    let short = Err(Refusal::Short { degree: Some(50) });
    assert_eq!(ask(&[105, 3], 1, &mut [], &mut []), short);
    assert_eq!(ask(&[105, 3], 1, &mut buf[..50], &mut scratch), short);
    assert_eq!(ask(&[105, 3], 1, &mut buf, &mut scratch[..48]), short);
    assert_eq!((buf, scratch), ([77; 100], [77; 50]));
    assert_eq!(ask(&[105, 105], 10, &mut buf, &mut scratch[..49]), Err(Refusal::Tall { degree: Some(96) }));
    assert!(buf[..97].iter().all(|&entry| entry == 0) && buf[97..].iter().all(|&entry| entry == 77));
    assert!(scratch[..49].iter().all(|&entry| entry == 0) && scratch[49] == 77);
    assert_eq!(ask(&[2, 4, 8], 1, &mut buf, &mut scratch), Ok((8, 0, 1, 0, 8)));
    assert_eq!((&buf[..8], buf[8], scratch), (&[1; 8][..], 0, [0; 50]));
}

#[test]
fn a_cascade_is_refused_by_what_its_first_factors_make() {
    let (mut buf, mut scratch) = (vec![77; 65536], vec![77; 65536]);
    let mut ask = |indices: &[u64], h| cascade(indices, h, &mut buf, &mut scratch).map(|p| (p.height, p.peak, p.gain));
    assert_eq!(ask(&[13099, 13099, 13099, 13099, 13099, 1], 1), Err(Refusal::Over { degree: Some(65491) }));
    assert_eq!(ask(&[1, 13099, 13099, 13099, 13099, 13099], NO_LIMIT), Ok((1225881442660, 23694, 0)));
    let tall = [13982, 13982, 13982, 13982, 13982, 13982, 210];
    assert_eq!(ask(&tall, 9184446742301304167), Ok((9184446742301304167, 20994, 1)));
    assert_eq!(ask(&tall, 9184446742301304166), Err(Refusal::Tall { degree: Some(41988) }));
    // no coefficient passes 2^63 - 1, but their sum does
    assert_eq!(ask(&[239; 8], 1), Err(Refusal::Over { degree: Some(1904) }));
}

#[test]
fn the_second_engine_delivers_or_refuses_with_the_degree() {
    let (mut buf, mut scratch) = ([77; 60], [77; 240]);
    let ask = |n, h, buf: &mut [i64], scratch: &mut [i64]| {
        second(Kind::F, n, h, buf, scratch).map(|p| (p.coeffs.len(), p.additions, p.height, p.peak, p.gain))
    };
    for n in [0, 65536, u64::MAX] {
        assert_eq!(ask(n, 0, &mut [], &mut scratch), Err(Refusal::Index));
        assert_eq!(ask(n, 1, &mut buf, &mut []), Err(Refusal::Index));
    }
    for limit in [i64::MIN, -1, 0] {
        assert_eq!(ask(105, limit, &mut buf, &mut []), Err(Refusal::Limit));
    }
    let short = Err(Refusal::Short { degree: Some(48) });
    assert_eq!(ask(105, 1, &mut [], &mut []), short);
    assert_eq!(ask(105, 1, &mut buf[..48], &mut scratch), short);
    assert_eq!(ask(105, 1, &mut buf, &mut scratch[..225]), short);
    assert_eq!((buf, scratch), ([77; 60], [77; 240]));
    assert_eq!(ask(105, 1, &mut buf, &mut scratch[..226]), Err(Refusal::Tall { degree: Some(48) }));
    assert!(buf[..49].iter().all(|&entry| entry == 0) && buf[49..].iter().all(|&entry| entry == 77));
    assert!(scratch[..226].iter().all(|&entry| entry == 0) && scratch[226..].iter().all(|&entry| entry == 77));
    assert_eq!(ask(105, 2, &mut buf, &mut scratch), Ok((49, 0, 2, 7, 1)));
    assert_eq!((buf[7], buf[48], buf[49], scratch), (-2, 1, 77, [0; 240]));
}

#[test]
fn both_engines_deliver_the_same() {
    let (mut first, mut other, mut scratch) = (vec![77; 65536], vec![-77; 65536], vec![77; 131086]);
    for n in [1, 2, 9, 105, 210, 1155, 15015, 32768, 65521, 65535] {
        for kind in [Kind::F, Kind::I] {
            let room = 2 * n as usize + 16;
            scratch.fill(77);
            let a = polynomial(kind, n, NO_LIMIT, NO_LIMIT, &mut first).unwrap();
            let b = second(kind, n, NO_LIMIT, &mut other, &mut scratch[..room]).unwrap();
            assert_eq!((a.coeffs, a.height, a.peak, a.gain), (b.coeffs, b.height, b.peak, b.gain));
            assert_eq!(b.additions, 0);
            assert!(scratch[..room].iter().all(|&entry| entry == 0));
            assert!(scratch[room..].iter().all(|&entry| entry == 77));
        }
    }
}

#[test]
fn a_half_record_is_written_or_refused() {
    let mut bytes = [7; 20];
    let mut ask = |kind, n, coeffs: &[i64], room| {
        bytes.fill(7);
        let told = write_half(kind, n, coeffs, &mut bytes[..room]).map(|b| b.to_vec());
        let used = told.as_ref().map_or(0, |b| b.len());
        assert!(bytes[used..].iter().all(|&b| b == 7));
        told
    };
    for n in [0, 65536, u64::MAX] {
        assert_eq!(ask(Kind::F, n, &SIX, 20), Err(Refusal::Index));
    }
    let count = Refusal::Field { field: Field::Count, byte: 6 };
    assert_eq!(ask(Kind::F, 6, &[], 20), Err(count));
    assert_eq!(ask(Kind::F, 6, &[i64::MIN, 1], 20), Err(count));
    assert_eq!(ask(Kind::F, 6, &[1, i64::MIN, 2], 0), Err(Refusal::Over { degree: Some(2) }));
    assert_eq!(ask(Kind::F, 6, &[1, -1, 2], 0), Err(Refusal::Uneven));
    assert_eq!(ask(Kind::F, 6, &[1, 0, -1], 20), Err(Refusal::Uneven));
    assert_eq!(ask(Kind::I, 6, &[-1, -1, 1, 1, 1], 20), Err(Refusal::Uneven));
    assert_eq!(ask(Kind::F, 6, &SIX, 11), Err(Refusal::Short { degree: Some(2) }));
    assert_eq!(ask(Kind::F, 6, &SIX, 12), Ok(HALF.to_vec()));
    assert_eq!(ask(Kind::I, 6, &INVERSE, 20), Ok(INVERSE_HALF.to_vec()));
    assert_eq!(ask(Kind::F, 6, &[-128, 0, -128], 20).map(|b| (b.len(), b[3])), Ok((14, 2)));
    // F(1) negates, and I(1) does not
    assert_eq!(ask(Kind::F, 1, &[-1, 1], 20), Ok(vec![0xC9, 0x51, 1, 1, 1, 0, 2, 0, 0, 0, 0xFF]));
    assert_eq!(ask(Kind::I, 1, &[1], 20), Ok(vec![0xC9, 0x51, 2, 1, 1, 0, 1, 0, 0, 0, 1]));
}

/// What is wrong with I(6)'s half record when one byte of it is another.
const HALF_FAULTS: [(usize, u8, Refusal); 8] = [
    (0, 0, Refusal::Mark),
    (1, 0x50, Refusal::Mark),
    (2, 3, Refusal::Field { field: Field::Kind, byte: 2 }),
    (3, 3, Refusal::Field { field: Field::Width, byte: 3 }),
    (4, 0, Refusal::Field { field: Field::Index, byte: 4 }),
    (6, 4, Refusal::Field { field: Field::Count, byte: 6 }),
    (12, 0x80, Refusal::Width),
    (12, 1, Refusal::Uneven),
];

#[test]
fn a_half_record_is_read_or_refused() {
    let mut coeffs = [77; 6];
    for end in 0..13 {
        assert_eq!(read_half(&INVERSE_HALF[..end], &mut coeffs).map(|r| r.n), Err(Refusal::Cut));
    }
    assert_eq!(read_half(&INVERSE_HALF, &mut coeffs[..4]).map(|r| r.n), Err(Refusal::Short { degree: Some(4) }));
    for (at, byte, refusal) in HALF_FAULTS {
        let mut bytes = INVERSE_HALF;
        bytes[at] = byte;
        assert_eq!(read_half(&bytes, &mut coeffs).map(|r| r.n), Err(refusal));
    }
    assert_eq!(read_half(&INVERSE_RECORD, &mut coeffs).map(|r| r.n), Err(Refusal::Mark));
    assert_eq!(read(&INVERSE_HALF, &mut coeffs).map(|r| r.n), Err(Refusal::Mark));
    assert_eq!(coeffs, [77; 6]);
    let r = read_half(&[&INVERSE_HALF[..], &[9; 9]].concat(), &mut coeffs).unwrap();
    assert_eq!((r.kind, r.n, r.used, &*r.coeffs), (Kind::I, 6, 13, &INVERSE[..]));
    assert_eq!(coeffs[5], 77);
    let r = read_half(&HALF, &mut coeffs).unwrap();
    assert_eq!((r.kind, r.n, r.used, &*r.coeffs), (Kind::F, 6, 12, &SIX[..]));
}

#[test]
fn a_record_is_converted_both_ways_or_refused() {
    let mut out = [7; 20];
    for (record, half) in [(&RECORD[..], &HALF[..]), (&INVERSE_RECORD, &INVERSE_HALF)] {
        let degree = record.len() - 11;
        let short = Some(Refusal::Short { degree: Some(degree) });
        for room in 0..half.len() {
            assert_eq!(to_half(record, &mut out[..room]).err(), short);
        }
        for room in 0..record.len() {
            assert_eq!(to_whole(half, &mut out[..room]).err(), short);
        }
        for end in 0..record.len() {
            assert_eq!(to_half(&record[..end], &mut out).err(), Some(Refusal::Cut));
        }
        for end in 0..half.len() {
            assert_eq!(to_whole(&half[..end], &mut []).err(), Some(Refusal::Cut));
        }
        assert_eq!(to_half(half, &mut out).err(), Some(Refusal::Mark));
        assert_eq!(to_whole(record, &mut out).err(), Some(Refusal::Mark));
        assert_eq!(out, [7; 20]);
        // what follows the record is not looked at, and what follows the other is not touched
        let made = to_half(&[record, &[9; 3]].concat(), &mut out).unwrap();
        assert_eq!((made.degree, made.read, &*made.bytes), (degree, record.len(), half));
        assert!(out[half.len()..].iter().all(|&b| b == 7));
        let made = to_whole(&[half, &[9; 3]].concat(), &mut out[..record.len()]).unwrap();
        assert_eq!((made.degree, made.read, &*made.bytes), (degree, half.len(), record));
        out.fill(7);
    }
    for (at, byte, refusal) in HALF_FAULTS {
        let mut bytes = INVERSE_HALF;
        bytes[at] = byte;
        assert_eq!(to_whole(&bytes, &mut []).err(), Some(refusal));
        let mut bytes = INVERSE_RECORD;
        bytes[at] = if at == 1 { 0x51 } else { byte };
        assert_eq!(to_half(&bytes, &mut []).err(), Some(refusal));
    }
    assert_eq!(out, [7; 20]);
}

#[test]
fn half_records_of_polynomials_go_there_and_back() {
    let (mut room, mut again) = (vec![77; 65536], vec![77; 65536]);
    let [mut record, mut half, mut other] = [(); 3].map(|_| vec![0; 10 + 8 * 65536]);
    for n in [1, 2, 3, 4, 9, 105, 1155, 32768, 40755, 62205, 65521, 65535] {
        for kind in [Kind::F, Kind::I] {
            let f = polynomial(kind, n, NO_LIMIT, NO_LIMIT, &mut room).unwrap().coeffs;
            let record = write(kind, n, f, &mut record).unwrap();
            let half = write_half(kind, n, f, &mut half).unwrap();
            assert_eq!(half.len(), 10 + record[3] as usize * f.len().div_ceil(2));
            let r = read_half(half, &mut again).unwrap();
            assert_eq!((r.kind, r.n, r.used), (kind, n, half.len()));
            assert!(r.coeffs == f);
            assert!(to_half(record, &mut other).unwrap().bytes == half);
            assert!(to_whole(half, &mut other).unwrap().bytes == record);
        }
    }
}

/// F(6) with another coefficient, I(6), and I(1), each as a record.
fn three() -> [Vec<u8>; 3] {
    let record = |kind, n, coeffs: &[i64]| write(kind, n, coeffs, &mut [0; 99]).unwrap().to_vec();
    [record(Kind::F, 6, &[5, 5, 5]), record(Kind::I, 6, &[-1, -1, 0, 1, 300]), record(Kind::I, 1, &[NO_LIMIT])]
}

fn broken(fault: Fault, byte: usize, shelf: Option<Shelf>) -> Refusal {
    Refusal::Record { fault, byte, shelf }
}

/// What is wrong with F(6)'s record when one byte of it is another.
const FAULTS: [(usize, u8, Fault); 6] = [
    (1, 0x51, Fault::Mark),
    (2, 0, Fault::Field(Field::Kind)),
    (3, 3, Fault::Field(Field::Width)),
    (4, 0, Fault::Field(Field::Index)),
    (6, 2, Fault::Field(Field::Count)),
    (12, 0x80, Fault::Width),
];

#[test]
fn a_record_is_found_in_ones_own_shelf_first_and_not_copied() {
    let [six, inverse, one] = three();
    let own = [&inverse[..], &RECORD, &six].concat();
    let house = [&six[..], &one, &inverse, &one].concat();
    // the stretch outlives all but the shelves
    fn asked<'a>(kind: Kind, n: u64, own: &'a [u8], house: &'a [u8]) -> Stretch<'a> {
        lookup(kind, n, own, house).unwrap()
    }
    let f = asked(Kind::F, 6, &own, &house);
    assert_eq!((f.from, f.start, f.bytes), (Shelf::Own, 20, &RECORD[..]));
    assert!(std::ptr::eq(f.bytes, &own[20..33]));
    let f = asked(Kind::I, 1, &own, &house);
    assert_eq!((f.from, f.start, f.bytes), (Shelf::House, 13, &one[..]));
    assert!(std::ptr::eq(f.bytes, &house[13..31]));
    // the other way round, and with one shelf empty
    let f = asked(Kind::F, 6, &house, &own);
    assert_eq!((f.from, f.start, f.bytes), (Shelf::Own, 0, &six[..]));
    assert_eq!(asked(Kind::I, 6, &[], &own), Stretch { bytes: &inverse, from: Shelf::House, start: 0 });
    assert_eq!(asked(Kind::I, 6, &own, &[]), Stretch { bytes: &inverse, from: Shelf::Own, start: 0 });
    // and read where it is
    let mut coeffs = [77; 6];
    let r = read(asked(Kind::I, 6, &own, &house).bytes, &mut coeffs).unwrap();
    assert_eq!((r.kind, r.n, &*r.coeffs, r.used), (Kind::I, 6, &[-1, -1, 0, 1, 300][..], 20));
}

#[test]
fn a_lookup_is_refused_with_the_place_and_the_shelf() {
    let [six, inverse, one] = three();
    let good = [&inverse[..], &one].concat();
    for n in [0, 65536, u64::MAX] {
        assert_eq!(lookup(Kind::F, n, &[1], &[2]), Err(Refusal::Index));
    }
    assert_eq!(lookup(Kind::F, 6, &[], &[]), Err(Refusal::Absent));
    assert_eq!(lookup(Kind::F, 6, &good, &good), Err(Refusal::Absent));
    assert_eq!(lookup(Kind::F, 262, &six, &six), Err(Refusal::Absent));
    let mut cases: Vec<_> = (1..13).map(|end| (RECORD[..end].to_vec(), Fault::Cut)).collect();
    for (at, byte, fault) in FAULTS {
        let mut bytes = RECORD.to_vec();
        bytes[at] = byte;
        cases.push((bytes, fault));
    }
    for (bytes, fault) in cases {
        let shelf = [&good[..], &bytes].concat();
        let refused = |shelf| Err(broken(fault, good.len(), Some(shelf)));
        // the house is not looked at where one's own shelf stops
        assert_eq!(lookup(Kind::F, 6, &shelf, &six), refused(Shelf::Own));
        assert_eq!(lookup(Kind::F, 6, &good, &shelf), refused(Shelf::House));
        assert_eq!(lookup(Kind::F, 6, &[], &shelf), refused(Shelf::House));
        assert_eq!(lookup(Kind::F, 6, &bytes, &six), Err(broken(fault, 0, Some(Shelf::Own))));
        // a match before it ends the lookup
        assert_eq!(lookup(Kind::I, 1, &shelf, &six).map(|f| f.start), Ok(inverse.len()));
        assert_eq!(lookup(Kind::F, 6, &six, &shelf).map(|f| f.from), Ok(Shelf::Own));
    }
}

#[test]
fn the_records_of_a_shelf_come_in_order_and_not_copied() {
    let [six, inverse, one] = three();
    let shelf = [&inverse[..], &RECORD, &one, &six].concat();
    let shown: Vec<_> = records(&shelf).map(|r| r.unwrap()).collect();
    let told: Vec<_> = shown.iter().map(|r| (r.kind, r.n, r.degree, r.start, r.bytes)).collect();
    assert_eq!(
        told,
        [
            (Kind::I, 6, 4, 0, &inverse[..]),
            (Kind::F, 6, 2, 20, &RECORD),
            (Kind::I, 1, 0, 33, &one),
            (Kind::F, 6, 2, 51, &six),
        ]
    );
    for r in shown {
        assert!(std::ptr::eq(r.bytes, &shelf[r.start..r.start + r.bytes.len()]));
    }
    let mut walk = records(&shelf);
    assert_eq!(walk.by_ref().count(), 4);
    assert_eq!((walk.next(), walk.next()), (None, None));
    assert_eq!(records(&[]).next(), None);
}

#[test]
fn a_record_that_does_not_read_is_told_once_and_then_nothing() {
    let [_, inverse, _] = three();
    for (at, byte, fault) in FAULTS {
        let mut bytes = RECORD;
        bytes[at] = byte;
        // what follows it is never shown
        let shelf = [&inverse[..], &bytes, &RECORD].concat();
        let mut walk = records(&shelf);
        assert_eq!(walk.next().unwrap().unwrap().bytes, inverse);
        assert_eq!(walk.next(), Some(Err(broken(fault, 20, None))));
        for _ in 0..3 {
            assert_eq!(walk.next(), None);
        }
    }
    for end in 1..13 {
        let mut walk = records(&RECORD[..end]);
        assert_eq!(walk.next(), Some(Err(broken(Fault::Cut, 0, None))));
        assert_eq!((walk.next(), walk.next()), (None, None));
    }
    // a program that takes all or nothing
    let all: Result<Vec<_>, _> = records(&[&RECORD[..], &RECORD[..12]].concat()).map(|r| r.map(|r| r.n)).collect();
    assert_eq!(all, Err(broken(Fault::Cut, 13, None)));
}

/// What is kept of a shelf, and which of its places are skipped, in so much room. What is lent past the parts told, and
/// what is not lent, is not touched.
fn rescued(shelf: &[u8], room: usize, slots: usize, entries: usize) -> Result<(Vec<u8>, Vec<Range<usize>>), Refusal> {
    let (mut out, mut list, mut coeffs) = ([7; 99], [77; 20], [77; 9]);
    let told = rescue(shelf, &mut out[..room], &mut list[..slots], &mut coeffs[..entries])
        .map(|r| (r.kept.to_vec(), r.skipped().collect::<Vec<_>>()));
    let (kept, stretches) = told.as_ref().map_or((0, 0), |(kept, skipped)| (kept.len(), skipped.len()));
    assert!(out[kept..].iter().all(|&byte| byte == 7) && list[2 * stretches..].iter().all(|&number| number == 77));
    assert!(coeffs[..entries].iter().all(|&entry| entry == 0) && coeffs[entries..].iter().all(|&entry| entry == 77));
    told
}

#[test]
fn a_damaged_shelf_is_rescued_or_refused_without_a_degree() {
    let [six, inverse, one] = three(); // these read, and their coefficients are others
    let short = Err(Refusal::Short { degree: None });
    assert_eq!(rescued(&[], 0, 0, 0), Ok((vec![], vec![])));
    assert_eq!(rescued(&[1], 0, 2, 0), Ok((vec![], vec![0..1])));
    assert_eq!(rescued(&[1], 0, 1, 0), short);
    assert_eq!(rescued(&RECORD, 13, 0, 3), Ok((RECORD.to_vec(), vec![])));
    // before, between and after
    let shelf = [&[1, 2][..], &RECORD, &six, &inverse, &INVERSE_RECORD, &one].concat();
    let kept = [&RECORD[..], &INVERSE_RECORD].concat();
    for (room, slots, entries) in [(28, 6, 5), (99, 20, 9), (28, 7, 5)] {
        assert_eq!(rescued(&shelf, room, slots, entries), Ok((kept.clone(), vec![0..2, 15..48, 63..81])));
    }
    for (room, slots, entries) in [(27, 20, 9), (99, 5, 9), (99, 20, 4), (0, 20, 9), (99, 0, 9), (99, 20, 0)] {
        assert_eq!(rescued(&shelf, room, slots, entries), short);
    }
    assert_eq!(rescued(&kept, 28, 0, 5), Ok((kept, vec![])));
    // half records are skipped, and so is what doesn't read, whatever there is room for
    let shelf = [&HALF[..], &INVERSE_HALF, &RECORD[..12]].concat();
    assert_eq!(rescued(&shelf, 0, 2, 0), Ok((vec![], vec![0..37])));
    let wide = [0xC9, 0x50, 1, 2, 6, 0, 3, 0, 0, 0, 1, 0, 0xFF, 0xFF, 1, 0];
    assert_eq!(rescued(&wide, 0, 2, 0), Ok((vec![], vec![0..16])));
    // a record among the coefficients of one that is skipped, which counts for the entries
    let inside = [&[0xC9, 0x50, 1, 1, 15, 0, 9, 0, 0, 0][..], &[0xC9, 0x50, 2, 1, 1, 0, 1, 0, 0, 0, 1]].concat();
    assert_eq!(rescued(&inside, 11, 2, 9), Ok((inside[10..].to_vec(), vec![0..10])));
    assert_eq!(rescued(&inside, 11, 2, 8), short);
}

#[test]
fn each_byte_of_a_record_that_is_another_has_it_skipped() {
    let shelf = [&RECORD[..], &INVERSE_RECORD, &RECORD].concat();
    for at in 0..15 {
        for bit in 0..8 {
            let mut damaged = shelf.clone();
            damaged[13 + at] ^= 1 << bit;
            assert_eq!(rescued(&damaged, 26, 2, 5), Ok((RECORD.repeat(2), vec![13..28])));
        }
    }
    for end in 0..shelf.len() {
        let cut = if end >= 28 { 28 } else if end >= 13 { 13 } else { 0 };
        let rest = if cut < end { vec![cut..end] } else { vec![] };
        assert_eq!(rescued(&shelf[..end], cut, 2, 5), Ok((shelf[..cut].to_vec(), rest)));
    }
}

#[test]
fn every_record_of_a_polynomial_is_kept_in_as_much_room_as_it_needs() {
    let (mut room, mut record) = (vec![77; 65536], vec![0; 10 + 8 * 65536]);
    for n in [1, 2, 3, 4, 9, 105, 1155, 32768, 40755, 62205, 65521, 65535] {
        for kind in [Kind::F, Kind::I] {
            let count = polynomial(kind, n, NO_LIMIT, NO_LIMIT, &mut room).unwrap().coeffs.len();
            let record = write(kind, n, &room[..count], &mut record).unwrap();
            let shelf = [&[9][..], record].concat();
            let (mut out, mut list, mut coeffs) = (vec![7; record.len()], [77; 2], vec![77; count]);
            let r = rescue(&shelf, &mut out, &mut list, &mut coeffs).unwrap();
            assert!(r.kept == record && r.skipped().eq([0..1]));
            assert!(coeffs.iter().all(|&entry| entry == 0));
            let short = rescue(&shelf, &mut out, &mut list, &mut coeffs[1..]).map(|r| r.kept.len());
            assert_eq!(short, Err(Refusal::Short { degree: None }));
        }
    }
}

#[test]
fn the_text_has_the_place_on_the_shelf() {
    let at = |fault, shelf| broken(fault, 13, shelf).to_string();
    assert_eq!(at(Fault::Cut, Some(Shelf::Own)), "the record at byte 13 of the own shelf doesn't read: it ends early");
    assert_eq!(
        at(Fault::Field(Field::Width), Some(Shelf::House)),
        "the record at byte 13 of the house shelf doesn't read: its width is wrong: right is 1, 2, 4 or 8"
    );
    assert_eq!(
        at(Fault::Mark, None),
        "the record at byte 13 of the shelf doesn't read: its bytes are not those of a record"
    );
    assert_eq!(Refusal::Absent.to_string(), "neither shelf has such a record");
    assert_eq!(Refusal::Uneven.to_string(), "the halves of the polynomial don't match");
    assert_eq!(Refusal::Point.to_string(), "a part of the point is not from -1 to 1");
    assert_eq!(Refusal::Coarse.to_string(), "a coefficient is larger in magnitude than 2^53");
    assert_eq!(Refusal::Rows.to_string(), "there are more heights than rows for them");
}

/// The largest magnitude of a coefficient, and the number next to it.
const MOST: i64 = 1 << 53;
const PAST: i64 = MOST + 1;

fn at(real: f64, imag: f64) -> Point {
    Point { real, imag }
}

/// The value, as bits: so that -0 is not 0.
fn bits(value: Point) -> (u64, u64) {
    (value.real.to_bits(), value.imag.to_bits())
}

/// The sequence that is promised.
fn plain(coeffs: &[i64], at: Point) -> Point {
    coeffs.iter().rev().fold(Point::default(), |v, &c| Point {
        real: (v.real * at.real - v.imag * at.imag) + c as f64,
        imag: v.real * at.imag + v.imag * at.real,
    })
}

#[test]
fn a_point_outside_is_refused_before_a_coefficient() {
    let above = 1.0 + f64::EPSILON;
    for part in [above, -above, 2.0, f64::MAX, f64::INFINITY, f64::NEG_INFINITY, f64::NAN, -f64::NAN] {
        for other in [0.0, -0.0, 1.0, -1.0, 0.5, part, f64::NAN] {
            for coeffs in [&[][..], &[1, -1, 1], &[PAST], &[i64::MIN, 1]] {
                assert_eq!(response(coeffs, at(part, other)), Err(Refusal::Point));
                assert_eq!(response(coeffs, at(other, part)), Err(Refusal::Point));
            }
        }
    }
    for part in [0.0, -0.0, 1.0, -1.0, f64::MIN_POSITIVE, f64::from_bits(1), 1.0 - f64::EPSILON / 2.0] {
        assert_eq!(response(&[], at(part, -part)).map(bits), Ok((0, 0)));
        assert_eq!(response(&[PAST, 1], at(part, part)), Err(Refusal::Coarse));
        assert_eq!(response(&[MOST], at(part, -part)).map(|v| v.real), Ok(MOST as f64));
    }
}

#[test]
fn a_coefficient_above_2_to_the_53_is_refused_wherever_it_is() {
    for c in [PAST, -PAST, 1 << 54, i64::MAX, i64::MIN, i64::MIN + 1] {
        for place in 0..5 {
            let mut coeffs = [1, MOST, -MOST, 0, 2];
            assert!(response(&coeffs, at(0.5, 1.0)).is_ok());
            coeffs[place] = c;
            assert_eq!(response(&coeffs, at(0.5, 1.0)), Err(Refusal::Coarse));
        }
    }
}

#[test]
fn the_value_is_that_of_the_sequence_bit_by_bit() {
    let parts = [0.0, -0.0, 1.0, -1.0, 0.1, -0.3, 0.7, 1e-160, -3e-308, f64::from_bits(1), 1.0 - f64::EPSILON];
    let slices = [&[0][..], &[0, 0], &[0, 0, -3], &[-1, 1], &[1, MOST], &[3, -MOST, 7, MOST - 1], &[1, 2, 3, 4, 5, 6]];
    for coeffs in slices {
        for real in parts {
            for imag in parts {
                let point = at(real, imag);
                assert_eq!(response(coeffs, point).map(bits), Ok(bits(plain(coeffs, point))), "{coeffs:?} {point:?}");
            }
        }
    }
    // signs of zero, told
    assert_eq!(response(&[0], at(-1.0, -1.0)).map(bits), Ok((0, 1 << 63)));
    assert_eq!(response(&[5], at(-0.0, -0.0)).map(bits), Ok((5f64.to_bits(), 1 << 63)));
    assert_eq!(response(&[-1, 1], at(1.0, -0.0)).map(bits), Ok((0, 0)));
}

#[test]
fn far_out_it_becomes_infinite_and_then_no_number() {
    let told = |many| response(&vec![MOST; many], at(1.0, 1.0)).unwrap();
    assert!(told(1941).real.is_finite() && told(1941).imag.is_finite());
    assert!(told(1942).real.is_infinite() && told(1942).imag.is_finite());
    assert!(told(1943).real.is_infinite() && told(1943).imag.is_infinite());
    assert!(told(1944).real.is_nan() && told(1944).imag.is_infinite());
    assert!(told(1945).real.is_nan() && told(1945).imag.is_nan());
}

#[test]
fn at_one_it_is_the_gain_and_a_notch_is_zero() {
    let mut room = vec![0; 65536];
    for n in [1, 2, 3, 4, 9, 105, 1155, 32768, 65521, 65535] {
        for kind in [Kind::F, Kind::I] {
            let p = polynomial(kind, n, NO_LIMIT, NO_LIMIT, &mut room).unwrap();
            assert_eq!(response(p.coeffs, at(1.0, 0.0)), Ok(at(p.gain as f64, 0.0)));
        }
    }
    for (coeffs, real, imag) in [(&[-1, 1][..], 1.0, 0.0), (&[1, 1], -1.0, 0.0), (&[1, 0, 1], 0.0, 1.0)] {
        assert_eq!(response(coeffs, at(real, imag)), Ok(at(0.0, 0.0)));
        assert_eq!(response(coeffs, at(real, -imag)), Ok(at(0.0, 0.0)));
    }
}

/// A census in so many rows and entries: its rows and the additions. What is lent past the rows told, and what is not
/// lent, is not touched; of the entries the first 4,096 are 0, unless a bound or their number is refused.
fn counted(a: u64, b: u64, many: usize, entries: usize) -> Result<(Vec<(u64, u64, u64)>, u64), Refusal> {
    let other = Row { height: 7, smallest: 77, count: 777 };
    let (mut rows, mut work) = ([other; 70], [77; 4200]);
    let told = census(a, b, &mut rows[..many], &mut work[..entries])
        .map(|c| (c.rows.iter().map(|r| (r.height, r.smallest, r.count)).collect::<Vec<_>>(), c.additions));
    let written = told.as_ref().map_or(0, |(rows, _)| rows.len());
    assert!(rows[written..].iter().all(|&row| row == other));
    let cleared = if matches!(told, Ok(_) | Err(Refusal::Rows)) { 4096 } else { 0 };
    assert!(work[..cleared].iter().all(|&entry| entry == 0) && work[cleared..].iter().all(|&entry| entry == 77));
    told
}

#[test]
fn a_census_counts_heights_or_is_refused_without_a_degree() {
    assert_eq!(counted(1, 104, 1, 4096), Ok((vec![(1, 1, 104)], 1761)));
    assert_eq!(counted(1, 105, 2, 4097), Ok((vec![(1, 1, 104), (2, 105, 1)], 1859)));
    // the tallest comes first, and its row last
    assert_eq!(counted(385, 420, 64, 4200).map(|(rows, _)| rows), Ok(vec![(1, 386, 33), (2, 390, 2), (3, 385, 1)]));
    let all = [(1, 1, 3603), (2, 105, 417), (3, 385, 50), (4, 1365, 15), (5, 1785, 8), (6, 2805, 1), (7, 3135, 1)];
    assert_eq!(counted(1, 4095, 7, 4096), Ok((all.to_vec(), 4902791)));
    for many in 0..7 {
        assert_eq!(counted(1, 4095, many, 4096), Err(Refusal::Rows));
    }
    assert_eq!(counted(4095, 4095, 0, 4200), Err(Refusal::Rows));
    for (entries, many) in [(0, 0), (0, 64), (1, 1), (4095, 64), (4095, 0)] {
        assert_eq!(counted(1, 104, many, entries), Err(Refusal::Short { degree: None }));
    }
    let far = 1 << 32;
    for (a, b) in [(0, 0), (0, 1), (2, 1), (1, 4096), (4096, 4096), (far + 1, far + 2), (1, far + 1), (1, u64::MAX)] {
        for (many, entries) in [(64, 4096), (0, 4096), (64, 4095), (0, 0)] {
            assert_eq!(counted(a, b, many, entries), Err(Refusal::Range));
            assert_eq!(counted(u64::MAX, a, many, entries), Err(Refusal::Range));
        }
    }
}

#[test]
fn a_census_of_one_index_tells_what_its_polynomial_does() {
    let mut buf = vec![0; 65536];
    for n in (1..=4095).step_by(7).chain([105, 385, 1365, 1785, 2805, 3135, 4093, 4094, 4095]) {
        let p = polynomial(Kind::F, n, NO_LIMIT, NO_LIMIT, &mut buf).unwrap();
        assert_eq!(counted(n, n, 1, 4096), Ok((vec![(p.height, n, 1)], p.additions)));
    }
}
