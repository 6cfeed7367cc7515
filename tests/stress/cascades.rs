//! Cascades: lists of every sort, rooms and limits around what is needed, against the product by its definition.

use crate::library::{self, Answer};
use crate::random::Random;
use crate::reference::{Reference, LARGEST};

/// What a list of good indices makes: its degree, the degree of its largest factor, and the product, if that of no
/// first factors leaves the range.
struct Made {
    degree: usize,
    longest: usize,
    product: Option<Vec<i64>>,
}

/// Each coefficient summed from the product's definition, in 128 bits; `None` where one, or the gain, is out of range.
fn times(a: &[i64], b: &[i16]) -> Option<Vec<i64>> {
    let mut out = vec![0i128; a.len() + b.len() - 1];
    for (j, &c) in b.iter().enumerate().filter(|(_, &c)| c != 0) {
        for (o, &x) in out[j..].iter_mut().zip(a) {
            *o += c as i128 * x as i128;
        }
    }
    let fits = |v: i128| v.unsigned_abs() <= i64::MAX as u128;
    if !fits(out.iter().sum()) {
        return None;
    }
    out.into_iter().map(|v| if fits(v) { Some(v as i64) } else { None }).collect()
}

/// The code that the list alone gives, or what it makes.
fn made(of: &mut Reference, indices: &[u64]) -> Result<Made, u64> {
    if indices.is_empty() || indices.len() > 8 {
        return Err(16);
    }
    if indices.iter().any(|&n| n == 0 || n > LARGEST as u64) {
        return Err(2);
    }
    let degrees: Vec<usize> = indices.iter().map(|&n| of.degree(1, n as usize)).collect();
    let degree = degrees.iter().sum();
    if degree > LARGEST {
        return Err(16);
    }
    let mut product = Some(vec![1]);
    for &n in indices {
        product = product.and_then(|a| times(&a, &of.pair(n as usize).f));
    }
    Ok(Made { degree, longest: *degrees.iter().max().unwrap(), product })
}

/// What must come back, and whether both buffers are written.
fn expected(made: &Result<Made, u64>, h: i64, len: usize, room: usize) -> (Answer, bool) {
    let refused = |code, degree| Answer { code, degree, ..Answer::default() };
    let made = match made {
        Err(code) => return (refused(*code, 0), false),
        Ok(made) => made,
    };
    let degree = made.degree as u64;
    if h < 1 {
        return (refused(3, 0), false);
    }
    if len <= made.degree || room <= made.longest {
        return (refused(4, degree), false);
    }
    let Some(product) = &made.product else { return (refused(5, degree), true) };
    let height = product.iter().map(|c| c.unsigned_abs()).max().unwrap();
    if height > h as u64 {
        return (refused(6, degree), true);
    }
    let peak = product.iter().position(|c| c.unsigned_abs() == height).unwrap() as u64;
    (Answer { code: 0, degree, additions: 0, height, peak, gain: product.iter().sum() }, true)
}

fn held(made: &Result<Made, u64>, indices: &[u64], h: i64, before: &[i64], work: &[i64]) {
    let (answer, written) = expected(made, h, before.len(), work.len());
    let (mut after, mut clean) = (before.to_vec(), work.to_vec());
    if let (true, Ok(made)) = (written, made) {
        clean.fill(0);
        after[..made.degree + 1].fill(0);
        if answer.code == 0 {
            after[..made.degree + 1].copy_from_slice(made.product.as_ref().unwrap());
        }
    }
    let (mut buf, mut scratch) = (before.to_vec(), work.to_vec());
    let told = library::cascade(indices, h, &mut buf, &mut scratch);
    let asked = format!("cascade {indices:?} {h} in {} and {}", before.len(), work.len());
    assert!(told == answer, "{asked}: {told:?}, not {answer:?}");
    assert!(buf == after, "{asked}: another buffer");
    assert!(scratch == clean, "{asked}: another scratch");
}

/// An index of a sort: small; of many primes; a prime or twice one, whose products grow fast; any up to some thousands.
fn index(random: &mut Random, sort: usize) -> u64 {
    const PRIMES: [u64; 14] = [2, 3, 5, 7, 13, 31, 101, 211, 239, 401, 577, 751, 1009, 1499];
    match sort {
        0 => 1 + random.below(60) as u64,
        1 => random.of(&[105, 210, 315, 385, 420, 561, 1001, 1155, 1365, 2310, 3003]),
        2 => random.of(&PRIMES),
        3 => 2 * random.of(&PRIMES),
        4 => random.of(&PRIMES[8..12]) * (1 + random.below(2) as u64),
        _ => 1 + random.below(3000) as u64,
    }
}

/// Six to eight primes, or twice primes, whose product comes near the end of the range or past it; and often one other
/// among them, which may bring it back.
fn growing(random: &mut Random) -> Vec<u64> {
    const PRIMES: [u64; 12] = [157, 211, 239, 281, 401, 443, 499, 521, 569, 577, 601, 751];
    let (twice, same) = (1 + random.below(2) as u64, random.of(&PRIMES));
    let repeated = random.one_in(2);
    let count = 6 + random.below(3);
    let mut found: Vec<u64> = (0..count).map(|_| twice * if repeated { same } else { random.of(&PRIMES) }).collect();
    if random.one_in(2) {
        found[random.below(count)] = random.of(&[1, 2, 3, 4, 6, 15, 30, 90, 105, 210]);
    }
    found
}

/// A list: of one sort, of one index, or mixed; some with an index that is none, or more than there may be.
fn list(random: &mut Random) -> Vec<u64> {
    let count = if random.one_in(12) { random.of(&[0, 9, 10, 12]) } else { 1 + random.below(8) };
    let sort = random.below(8);
    let same = index(random, sort);
    let repeated = random.one_in(3);
    let mut found: Vec<u64> = (0..count)
        .map(|_| {
            let mixed = random.one_in(4) || sort > 5;
            let sort = if mixed { random.below(6) } else { sort };
            if repeated && !mixed { same } else { index(random, sort) }
        })
        .collect();
    if random.one_in(20) && count > 0 {
        found[random.below(count)] = random.of(&[0, LARGEST as u64 + 1, 1 << 32, (1 << 32) + 6, u64::MAX]);
    }
    found
}

/// A list in room enough under several limits, and with one entry too few in either buffer.
fn tried(random: &mut Random, of: &mut Reference, indices: &[u64]) -> u64 {
    let made = made(of, indices);
    let (need, longest) = made.as_ref().map_or((9, 5), |m| (m.degree + 1, m.longest + 1));
    let product = made.as_ref().ok().and_then(|m| m.product.as_ref());
    let height = product.map_or(1, |p| p.iter().map(|c| c.unsigned_abs()).max().unwrap() as i64);
    let (more, also) = (random.below(4), random.of(&[0, 0, 1, 2, 300]));
    let (before, work) = (random.slice(need + more), random.slice(longest + also));
    for h in [i64::MAX, height, height - 1, random.limit(height)] {
        held(&made, indices, h, &before, &work);
    }
    let h = random.limit(height);
    held(&made, indices, h, &before[..need - 1], &work);
    held(&made, indices, h, &before, &work[..longest - 1]);
    held(&made, indices, h, &before[..random.below(need)], &work[..random.below(longest)]);
    7
}

pub fn any(random: &mut Random, of: &mut Reference) -> u64 {
    let indices = if random.one_in(8) { growing(random) } else { list(random) };
    tried(random, of, &indices)
}

/// Of any indices, where the degree allows it; and in another order.
pub fn large(random: &mut Random, of: &mut Reference) -> u64 {
    let mut indices: Vec<u64> = (0..1 + random.below(3)).map(|_| 1 + random.below(LARGEST) as u64).collect();
    let mut count = tried(random, of, &indices);
    indices.reverse();
    indices.push(random.of(&[1, 2, 3, 4, 30]));
    count += tried(random, of, &indices);
    count
}
