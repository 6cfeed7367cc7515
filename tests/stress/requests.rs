//! Polynomial and partial requests: every n of both kinds, every stop, random rooms and limits, against the reference.

use crate::halves::{all_met, halves, least, met};
use crate::library::{self, Answer, Stop};
use crate::random::Random;
use crate::reference::{divisors, odd_part, Reference, LARGEST};

/// Demand 3's sum over the first j divisors of r.
pub fn additions(half: usize, divisors: &[(usize, i32)]) -> u64 {
    divisors.iter().filter(|(d, _)| *d <= half).map(|(d, _)| (half + 1 - d) as u64).sum()
}

/// What must come back, and what must stand in the buffer.
pub fn expected(of: &mut Reference, kind: u64, n: u64, h: i64, w: i64, before: &[i64]) -> (Answer, Vec<i64>) {
    let mut buf = before.to_vec();
    let refused = |code, degree| Answer { code, degree, ..Answer::default() };
    if kind != 1 && kind != 2 {
        return (refused(1, 0), buf);
    }
    if n == 0 || n > LARGEST as u64 {
        return (refused(2, 0), buf);
    }
    if h < 1 || w < 1 {
        return (refused(3, 0), buf);
    }
    let index = n as usize;
    let top = of.degree(kind, index);
    if buf.len() < top + 1 {
        return (refused(4, top as u64), buf);
    }
    if of.least(kind, index) > w {
        buf[..top + 1].fill(0);
        return (refused(5, top as u64), buf);
    }
    let pair = of.pair(index);
    let made = if kind == 1 { &pair.f } else { &pair.i };
    assert_eq!(made.len(), top + 1);
    let height = made.iter().map(|c| c.unsigned_abs() as u64).max().unwrap();
    if height > h as u64 {
        buf[..top + 1].fill(0);
        return (refused(6, top as u64), buf);
    }
    for (b, &c) in buf.iter_mut().zip(made) {
        *b = c as i64;
    }
    let r = odd_part(index);
    let count = if r == 1 { 0 } else { additions(of.degree(kind, r) / 2, &divisors(r)) };
    let peak = buf.iter().position(|c| c.unsigned_abs() == height).unwrap() as u64;
    let gain = buf[..top + 1].iter().sum();
    let answer = Answer { code: 0, degree: top as u64, additions: count, height, peak, gain };
    (answer, buf)
}

fn polynomial(of: &mut Reference, kind: u64, n: u64, h: i64, w: i64, before: &[i64]) {
    let (answer, after) = expected(of, kind, n, h, w, before);
    let mut buf = before.to_vec();
    let told = library::polynomial(kind, n, h, w, &mut buf);
    assert!(told == answer, "polynomial {kind} {n} {h} {w} in {}: {told:?}, not {answer:?}", before.len());
    assert!(buf == after, "polynomial {kind} {n} {h} {w} in {}: another buffer", before.len());
}

/// Both kinds of n: in room enough, in one entry less, at the least limits that are enough, at one less of each, and with no limit.
pub fn index(random: &mut Random, of: &mut Reference, n: usize) -> u64 {
    for kind in [1, 2] {
        let need = of.degree(kind, n) + 1;
        let pair = of.pair(n);
        let height = (if kind == 1 { &pair.f } else { &pair.i }).iter().map(|c| c.unsigned_abs()).max().unwrap() as i64;
        let extra = random.below(4);
        let pattern = random.slice(need + extra);
        let least = of.least(kind, n);
        let more = random.of(&[least, least + 1, 2 * least, 1 << 62, i64::MAX]);
        polynomial(of, kind, n as u64, height, least, &pattern);
        polynomial(of, kind, n as u64, height - 1, more, &pattern);
        polynomial(of, kind, n as u64, random.of(&[1, height, i64::MAX]), least - 1, &pattern);
        polynomial(of, kind, n as u64, i64::MAX, i64::MAX, &pattern);
        polynomial(of, kind, n as u64, i64::MAX, random.of(&[1, least, i64::MAX]), &pattern[..need - 1]);
    }
    10
}

/// Any kind, index, limits and room.
pub fn any(random: &mut Random, of: &mut Reference) -> u64 {
    let kind = if random.one_in(8) { random.of(&[0, 3, 4, 1 << 32, u64::MAX]) } else { 1 + random.below(2) as u64 };
    let n = match random.below(8) {
        0 => random.of(&[0, 1, 2, LARGEST as u64, LARGEST as u64 + 1, u64::MAX, 1 << 32, (1 << 32) + 6]),
        1 => random.below(LARGEST) as u64,
        2 => random.of(&[105, 420, 1001, 1155, 2310, 3465, 4620, 5005, 15015, 30030]),
        _ => random.below(1000) as u64,
    };
    let h = match random.below(4) {
        0 => random.extreme(),
        _ => random.below(4) as i64,
    };
    let edge = if (1..=LARGEST as u64).contains(&n) { of.degree(1 + kind % 2, n as usize) } else { 10 };
    let mut room = (edge + random.below(6)).saturating_sub(random.below(4));
    if random.one_in(20) {
        room = 0;
    }
    let least = if (1..=LARGEST as u64).contains(&n) { of.least(if kind == 1 { 1 } else { 2 }, n as usize) } else { 1 };
    let w = random.limit(least);
    let pattern = random.slice(room);
    polynomial(of, kind, n, h, w, &pattern);
    1
}

/// The product of the first j terms, cut after degree D, each coefficient summed from the product's definition; and the largest magnitude
/// that each step makes.
fn kept(kind: u64, half: usize, taken: &[(usize, i32)]) -> (Vec<i128>, Vec<i64>) {
    let mut largest = Vec::new();
    let mut now = vec![0i128; half + 1];
    now[0] = if kind == 1 { 1 } else { -1 };
    for &(d, mu) in taken {
        let comb = (mu == 1) == (kind == 1);
        let old = now.clone();
        let term = |i: usize| -> i128 {
            if comb { old[i] - if i >= d { old[i - d] } else { 0 } } else { (0..=i / d).map(|k| old[i - k * d]).sum() }
        };
        now = (0..=half).map(term).collect();
        largest.push(met(&now, d));
    }
    (now, largest)
}

/// What must come back, and what must stand in the buffer. `grown` tells the half after the divisors taken, and what each step made.
fn stopped(
    of: &Reference,
    (kind, n, j, w): (u64, u64, u64, i64),
    before: &[i64],
    grown: impl FnOnce(usize, &[(usize, i32)]) -> (Vec<i128>, Vec<i64>),
) -> (Stop, Vec<i64>) {
    let mut buf = before.to_vec();
    let refused = |code, degree| Stop { code, degree, ..Stop::default() };
    if kind != 1 && kind != 2 {
        return (refused(1, 0), buf);
    }
    if n == 0 || n > LARGEST as u64 || odd_part(n as usize) == 1 {
        return (refused(2, 0), buf);
    }
    let r = odd_part(n as usize);
    let all = divisors(r);
    if j > all.len() as u64 {
        return (refused(7, 0), buf);
    }
    if w < 1 {
        return (refused(3, 0), buf);
    }
    let half = of.degree(kind, r) / 2;
    if buf.len() < half + 1 {
        return (refused(4, half as u64), buf);
    }
    let taken = &all[..j as usize];
    let (kept, met) = grown(half, taken);
    if least(&met) > w {
        buf[..half + 1].fill(0);
        return (refused(5, half as u64), buf);
    }
    for (b, c) in buf.iter_mut().zip(kept) {
        *b = i64::try_from(c).expect("a kept half out of range");
    }
    let due = all.len() as u64 - j;
    (Stop { code: 0, degree: half as u64, additions: additions(half, taken), due }, buf)
}

fn partial(
    of: &Reference,
    asked: (u64, u64, u64, i64),
    before: &[i64],
    grown: impl FnOnce(usize, &[(usize, i32)]) -> (Vec<i128>, Vec<i64>),
) {
    let (answer, after) = stopped(of, asked, before, grown);
    let mut buf = before.to_vec();
    let told = library::partial(asked.0, asked.1, asked.2, asked.3, &mut buf);
    assert!(told == answer, "partial {asked:?} in {}: {told:?}, not {answer:?}", before.len());
    assert!(buf == after, "partial {asked:?} in {}: another buffer", before.len());
}

/// Any kind, index, stop, limit and room. The halves are made from the definition, and those of the other road agree.
pub fn stop(random: &mut Random, of: &mut Reference) -> u64 {
    let kind = if random.one_in(8) { random.of(&[0, 3, u64::MAX]) } else { 1 + random.below(2) as u64 };
    let n = match random.below(10) {
        0 => random.of(&[0, 1, 2, 1024, 32768, LARGEST as u64 + 1, u64::MAX]),
        1 | 2 => random.of(&[105, 1155, 3465, 15015, 30030, 4095, 8190, 2310, 6545]),
        _ => random.below(3000) as u64,
    };
    let known = n >= 1 && n <= LARGEST as u64 && odd_part(n as usize) > 1;
    let (count, half) = if known {
        let r = odd_part(n as usize);
        (divisors(r).len(), of.degree(1 + (kind + 1) % 2, r) / 2)
    } else {
        (5, 10)
    };
    let j = if random.one_in(20) { random.word() } else { random.below(count + 2) as u64 };
    let room = (half + 1 + random.below(6)).saturating_sub(if random.one_in(4) { random.below(9) } else { 0 });
    let before = random.slice(room);
    let other = if known { of.met(if kind == 1 { 1 } else { 2 }, odd_part(n as usize)) } else { Default::default() };
    let w = random.limit(least(&other[..other.len().min(j as usize)]));
    partial(of, (kind, n, j, w), &before, |half, taken| {
        let (now, met) = kept(kind, half, taken);
        assert!(met == other[..met.len()], "the two roads to what the steps of {n} meet differ");
        (now, met)
    });
    1
}

/// Where n is its own r, both kinds: at stops of its own at the least limit that is enough and at one less.
pub fn stops(random: &mut Random, of: &mut Reference, r: usize) -> u64 {
    if r == 1 || odd_part(r) != r {
        return 0;
    }
    let all = divisors(r);
    let mut tried = 0;
    for kind in [1, 2] {
        let half = of.degree(kind, r) / 2;
        let made = halves(kind, half, &all);
        let met = all_met(&made, &all);
        let pair = of.pair(r);
        let whole = if kind == 1 { &pair.f } else { &pair.i };
        assert!(made[all.len()].iter().zip(whole).all(|(a, &b)| *a == b as i128), "the last half of {r} is not the reference's");
        let n = (r * (1 + random.below(LARGEST / r))) as u64;
        let n = if odd_part(n as usize) == r { n } else { r as u64 };
        for j in 0..=all.len() {
            let extra = random.below(4);
            let pattern = random.slice(half + 1 + extra);
            let enough = least(&met[..j]);
            for w in [enough, enough - 1] {
                partial(of, (kind, n, j as u64, w), &pattern, |_, _| (made[j].clone(), met[..j].to_vec()));
                tried += 1;
            }
        }
    }
    tried
}
