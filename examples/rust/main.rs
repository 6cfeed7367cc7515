//! A mains notch in Rust, over the safe wrapper. At 750 samples a second 50 Hz is one turn in 15 samples, so F(15)
//! stops it. It asks, grows the buffer as the refusal tells, shows how the polynomial grows divisor by divisor, and
//! stores it. Then it asks which registers of a chip the steps of a larger one fit, for a cascade, and both engines;
//! finds the record on a shelf, and halves it; rescues a damaged shelf; asks what comes through of the hum; and counts
//! the heights up to that of F(105).
mod bonvedrick;

use bonvedrick::{
    Kind, NO_LIMIT, Point, Refusal, Row, accumulate, cascade, census, comb, lookup, partial, polynomial, read,
    read_half, records, registers, rescue, response, second, to_half, to_whole, write,
};
use std::f64::consts::TAU;

const RATE: u64 = 750;
const MAINS: u64 = 50;
const N: u64 = RATE / MAINS;
const LARGE: u64 = 15015;

/// How many entries the polynomial needs: lent none, the library refuses and tells the degree.
fn entries(kind: Kind, n: u64) -> Result<usize, Refusal> {
    match polynomial(kind, n, NO_LIMIT, NO_LIMIT, &mut []) {
        Err(Refusal::Short { degree: Some(degree) }) => Ok(degree + 1),
        Err(other) => Err(other),
        Ok(p) => Ok(p.coeffs.len()),
    }
}

fn main() -> Result<(), Refusal> {
    println!("notch for {MAINS} Hz at {RATE} samples a second: F({N})");
    println!("in 8 entries: {:?}", polynomial(Kind::F, N, 1, NO_LIMIT, &mut [0; 8]).map(|p| p.gain));
    let mut room = vec![0; entries(Kind::F, N)?];
    let f = polynomial(Kind::F, N, 1, NO_LIMIT, &mut room)?;
    println!("in {} entries: {:?}, {} additions", f.coeffs.len(), f.coeffs, f.additions);
    println!("height {} at degree {}, gain {}", f.height, f.peak, f.gain);

    for j in 0.. {
        let mut half = [0; 8];
        match partial(Kind::F, N, j, NO_LIMIT, &mut half) {
            Ok(p) => println!("after {j} divisors, {} due: {:?}, {} additions", p.due, p.half, p.additions),
            Err(e) => {
                println!("after {j} divisors: {e:?}");
                break;
            }
        }
    }

    let mut hum = [0, 1, 0, 0, i64::MAX];
    println!("accumulate 1: {:?}, entries as they were: {:?}", accumulate(1, NO_LIMIT, &mut hum), &hum[..4]);
    println!("comb 1:       {:?}, entries now: {:?}", comb(1, NO_LIMIT, &mut hum), &hum[..4]);

    let mut bytes = [0; 32];
    let record = write(Kind::F, N, f.coeffs, &mut bytes)?;
    let stored = record.to_vec();
    println!("record: {record:02X?}");
    let mut again = [0; 16];
    let r = read(record, &mut again)?;
    println!("read: {:?}({}), {} bytes, the same coefficients: {}", r.kind, r.n, r.used, r.coeffs == f.coeffs);
    // F(15)'s record as a script might write it: no mark, no kind, 3 bytes a coefficient, no index, 8 for 9
    // coefficients
    for (at, byte) in [(0, 0), (2, 0), (3, 3), (4, 0), (6, 8)] {
        let was = std::mem::replace(&mut record[at], byte);
        if let Err(e) = read(record, &mut again) {
            println!("{byte} for {was} at byte {at}: {e}");
        }
        record[at] = was;
    }
    println!("one coefficient too few: {:?}", write(Kind::F, N, &f.coeffs[1..], &mut bytes));
    println!("F(65536): {:?}", entries(Kind::F, 65536));

    let mut room = vec![0; entries(Kind::I, LARGE)?];
    for bits in 20.. {
        let Some(w) = registers(bits) else { break };
        let made = polynomial(Kind::I, LARGE, NO_LIMIT, w, &mut room).map(|p| (p.height, p.peak));
        println!("I({LARGE}) in registers of {bits} bits, height and peak: {made:?}");
        if !matches!(made, Err(Refusal::Over { .. })) {
            break;
        }
    }

    let (mut buf, mut scratch) = ([0; 16], [0; 9]);
    let by_8 = cascade(&[2, 4, 8, 30], NO_LIMIT, &mut buf, &mut scratch)?;
    println!("F(2) F(4) F(8) F(30): {:?}, gain {}", by_8.coeffs, by_8.gain);
    println!("of height 1: {:?}", cascade(&[2, 4, 8, 30], 1, &mut buf, &mut scratch));
    println!("no factor: {:?}", cascade(&[], 1, &mut buf, &mut scratch));

    let mut scratch = [0; 2 * N as usize + 16];
    println!("F({N}) by the second engine, no scratch: {:?}", second(Kind::F, N, 1, &mut buf, &mut []));
    let other = second(Kind::F, N, 1, &mut buf, &mut scratch)?;
    println!("in {} entries of scratch: the same coefficients: {}", scratch.len(), other.coeffs == f.coeffs);

    // the house has F(6) and our notch; one's own shelf is a copy that was cut short
    let mut house = write(Kind::F, 6, &[1, -1, 1], &mut bytes)?.to_vec();
    house.extend(&stored);
    for record in records(&house) {
        let r = record?;
        println!("on the house shelf: {:?}({}), {} bytes from byte {}", r.kind, r.n, r.bytes.len(), r.start);
    }
    let found = lookup(Kind::F, N, &[], &house)?;
    let again = read(found.bytes, &mut buf)?.coeffs == f.coeffs;
    println!("F({N}) is on the {:?} shelf, at byte {}: the same coefficients: {again}", found.from, found.start);
    println!("I({N}): {:?}", lookup(Kind::I, N, &[], &house));
    if let Err(e) = lookup(Kind::F, N, &house[..20], &house) {
        println!("with one's own shelf cut short: {e}");
    }

    let (mut bytes, mut back) = ([0; 32], [0; 32]);
    let half = to_half(found.bytes, &mut bytes)?.bytes;
    println!("half record: {half:02X?}");
    println!("rebuilt, the same coefficients: {}", read_half(half, &mut buf)?.coeffs == f.coeffs);
    println!("converted back, the same record: {}", to_whole(half, &mut back)?.bytes == found.bytes);
    println!("read as a record: {:?}", read(half, &mut buf).err());
    let mut uneven = stored;
    uneven[18] = 2;
    if let Err(e) = to_half(&uneven, &mut bytes) {
        println!("2 as the last coefficient: {e}");
    }

    // our notch, once more with that slip, which reads well, then F(6), and our notch cut short
    let damaged = [found.bytes, &uneven, &house[..13], &found.bytes[..12]].concat();
    let (mut kept, mut list) = ([0; 63], [0; 12]);
    println!("rescued in 8 entries: {:?}", rescue(&damaged, &mut kept, &mut list, &mut buf[..8]).err());
    let rescued = rescue(&damaged, &mut kept, &mut list, &mut buf)?;
    let skipped: Vec<_> = rescued.skipped().collect();
    println!("in {}: {} bytes kept of {}, skipped {skipped:?}", buf.len(), rescued.kept.len(), damaged.len());

    for hz in [0, MAINS, 3 * MAINS] {
        let (imag, real) = (TAU * hz as f64 / RATE as f64).sin_cos();
        let value = response(f.coeffs, Point { real, imag })?;
        println!("{hz} Hz comes through times {:.3}", value.real.hypot(value.imag));
    }
    println!("at half the rate: {:?}", response(f.coeffs, Point { real: -1.0, imag: 0.0 })?);
    println!("at 2: {:?}", response(f.coeffs, Point { real: 2.0, imag: 0.0 }));
    println!("2^53 + 1 as a coefficient: {:?}", response(&[1, (1 << 53) + 1], Point { real: 1.0, imag: 0.0 }));

    let (mut rows, mut work) = ([Row::default(); 7], [0; 4096]);
    println!("heights from 1 to {} in one row: {:?}", 7 * N, census(1, 7 * N, &mut rows[..1], &mut work).err());
    let counted = census(1, 7 * N, &mut rows, &mut work)?;
    for row in counted.rows.iter() {
        println!("height {}: {} of them, F({}) first", row.height, row.count, row.smallest);
    }
    println!("additions: {}", counted.additions);
    Ok(())
}
