//! Single steps on random words with extremes, under random working limits, against sums of 128 bits.

use crate::library::{self, Step};
use crate::random::Random;

/// Every entry after the step; those below d stay.
fn stepped(comb: bool, d: usize, a: &[i64]) -> Vec<i128> {
    let wide: Vec<i128> = a.iter().map(|&x| x as i128).collect();
    let entry = |i: usize| match (i < d, comb) {
        (true, _) => wide[i],
        (false, true) => wide[i] - wide[i - d],
        (false, false) => (0..=i / d).map(|k| wide[i - k * d]).sum(),
    };
    (0..a.len()).map(entry).collect()
}

fn expected(comb: bool, size: u64, w: i64, a: &[i64]) -> (Step, Vec<i64>) {
    if size == 0 || size > 65535 {
        return (Step { code: 7, count: 0 }, a.to_vec());
    }
    if w < 1 {
        return (Step { code: 3, count: 0 }, a.to_vec());
    }
    let d = size as usize;
    let new = stepped(comb, d, a);
    let most = w as i128;
    if new.iter().skip(d).any(|v| *v < -most || most < *v) {
        return (Step { code: 5, count: 0 }, a.to_vec());
    }
    let count = a.len().saturating_sub(d) as u64;
    (Step { code: 0, count }, new.into_iter().map(|v| v as i64).collect())
}

/// A slice of which a step of that size makes small values from place d on, whatever stands below and in the old entries: what it makes is
/// chosen, and undone.
fn undone(random: &mut Random, comb: bool, d: usize, len: usize) -> Vec<i64> {
    let bits = random.of(&[2, 4, 16, 62]);
    let new: Vec<i64> = (0..len).map(|i| if i < d { random.extreme() } else { random.signed(bits) }).collect();
    let mut old = new.clone();
    for i in d..len {
        old[i] = if comb { new[i].wrapping_add(old[i - d]) } else { new[i].wrapping_sub(new[i - d]) };
    }
    old
}

/// The least working limit that is enough for the step, if an i64 holds it.
fn least(comb: bool, size: u64, a: &[i64]) -> i64 {
    if size == 0 || size > 65535 {
        return 1;
    }
    let new = stepped(comb, size as usize, a);
    let largest = new.iter().skip(size as usize).map(|v| v.unsigned_abs()).max().unwrap_or(0);
    i64::try_from(largest).unwrap_or(i64::MAX).max(1)
}

fn hold(comb: bool, size: u64, w: i64, before: &[i64]) {
    let (answer, after) = expected(comb, size, w, before);
    let mut buf = before.to_vec();
    let told = library::step(comb, size, w, &mut buf);
    assert!(told == answer, "step {comb} {size} {w} on {before:?}: {told:?}, not {answer:?}");
    assert!(buf == after, "step {comb} {size} {w} on {before:?}: {buf:?}, not {after:?}");
}

/// Both sorts of every size on so many entries, at the least limit that delivers, one below and with none: so every number of chains side by
/// side, all that can be left over, and an OVER in any of them.
pub fn every_size(random: &mut Random, len: usize) -> u64 {
    let mut tried = 0;
    for size in 1..=len + 1 {
        for comb in [true, false] {
            let before = match size < len && random.one_in(2) {
                true => undone(random, comb, size, len),
                false => random.slice(len),
            };
            let least = least(comb, size as u64, &before);
            for w in [least, least - 1, i64::MAX] {
                hold(comb, size as u64, w, &before);
                tried += 1;
            }
        }
    }
    tried
}

pub fn any(random: &mut Random) -> u64 {
    let len = if random.one_in(200) { random.below(3000) } else { random.below(64) };
    let size = match random.below(6) {
        0 => random.of(&[0, 1, 65534, 65535, 65536, u64::MAX, 1 << 32, (1 << 32) + 1, 1 << 63]),
        1 => (len + random.below(3)).saturating_sub(1) as u64,
        _ => random.below(len + 2) as u64,
    };
    let comb = random.one_in(2);
    let before = match (1..len as u64).contains(&size) && random.one_in(4) {
        true => undone(random, comb, size as usize, len),
        false => random.slice(len),
    };
    let w = random.limit(least(comb, size, &before));
    hold(comb, size, w, &before);
    1
}
