//! The kept halves of an r after 0, 1, 2, .. divisors, and the largest value that each step makes, in sums of 128 bits: every half is a new
//! list, made from the one before it with no regard to the order of places, a quotient one chain at a time.

/// The half after 0, 1, 2, .. of the divisors, each with the sign mu of r / d.
pub fn halves(kind: u64, half: usize, divisors: &[(usize, i32)]) -> Vec<Vec<i128>> {
    let mut first = vec![0i128; half + 1];
    first[0] = if kind == 1 { 1 } else { -1 };
    let mut found = vec![first];
    for &(d, mu) in divisors {
        let old = found.last().unwrap();
        found.push(if (mu == 1) == (kind == 1) { times(old, d) } else { divided(old, d) });
    }
    found
}

/// Times 1 - z^d, cut to the length.
fn times(old: &[i128], d: usize) -> Vec<i128> {
    let shifted = std::iter::repeat(&0).take(d).chain(old);
    old.iter().zip(shifted).map(|(a, b)| a - b).collect()
}

/// Divided by 1 - z^d: along each chain of places d apart the sums of all so far.
fn divided(old: &[i128], d: usize) -> Vec<i128> {
    let mut new = vec![0; old.len()];
    for start in 0..d.min(old.len()) {
        let mut sum = 0;
        for (n, o) in new[start..].iter_mut().step_by(d).zip(old[start..].iter().step_by(d)) {
            sum += o;
            *n = sum;
        }
    }
    new
}

/// The largest magnitude among the new values of a step of size d, those from place d on; 0 where there are none.
pub fn met(new: &[i128], d: usize) -> i64 {
    let largest = new.iter().skip(d).map(|v| v.unsigned_abs()).max().unwrap_or(0);
    i64::try_from(largest).expect("a kept half out of range")
}

/// That of each step.
pub fn all_met(halves: &[Vec<i128>], divisors: &[(usize, i32)]) -> Vec<i64> {
    halves[1..].iter().zip(divisors).map(|(new, &(d, _))| met(new, d)).collect()
}

/// The least working limit under which the steps that met these can be taken.
pub fn least(met: &[i64]) -> i64 {
    met.iter().copied().max().unwrap_or(0).max(1)
}
