//! The yardstick: the same ascending steps with checked additions, as plain Rust.

#[derive(Debug, PartialEq, Clone, Copy)]
pub struct Answer {
    pub code: u64,
    pub degree: u64,
    pub additions: u64,
    pub height: u64,
    pub gain: i64,
}

/// A refusal: its code and the degree that it tells.
struct Refused(u64, usize);

struct Overflow;

fn comb(a: &mut [i64], d: usize) -> Result<(), Overflow> {
    for i in (d..a.len()).rev() {
        a[i] = a[i].checked_sub(a[i - d]).ok_or(Overflow)?;
    }
    Ok(())
}

fn accumulate(a: &mut [i64], d: usize) -> Result<(), Overflow> {
    for i in d..a.len() {
        a[i] = a[i].checked_add(a[i - d]).ok_or(Overflow)?;
    }
    Ok(())
}

pub fn odd_primes(n: usize) -> Vec<usize> {
    let mut rest = n >> n.trailing_zeros();
    let mut found = Vec::new();
    let mut p = 3;
    while p * p <= rest {
        if rest % p == 0 {
            found.push(p);
            while rest % p == 0 {
                rest /= p;
            }
        }
        p += 2;
    }
    if rest > 1 {
        found.push(rest);
    }
    found
}

/// The divisors of r below r, ascending, each with whether its step for F is a comb.
fn walk(primes: &[usize]) -> Vec<(usize, bool)> {
    let full = (1usize << primes.len()) - 1;
    let mut found: Vec<(usize, bool)> = (0..full)
        .map(|mask| {
            let d = (0..primes.len()).filter(|b| mask >> b & 1 == 1).map(|b| primes[b]).product();
            (d, (full & !mask).count_ones() % 2 == 0)
        })
        .collect();
    found.sort_unstable();
    found
}

/// The lower half, then the upper; answers the additions and the height, which is the lower half's.
fn squarefree(inverse: bool, primes: &[usize], a: &mut [i64]) -> Result<(u64, u64), Overflow> {
    let top = a.len() - 1;
    let half = top / 2 + 1;
    a[..half].fill(0);
    a[0] = if inverse { -1 } else { 1 };
    let mut additions = 0;
    for (d, plus) in walk(primes) {
        if plus != inverse {
            comb(&mut a[..half], d)?;
        } else {
            accumulate(&mut a[..half], d)?;
        }
        additions += half.saturating_sub(d) as u64;
    }
    let (low, high) = a.split_at_mut(half);
    let turned = low[..high.len()].iter().rev();
    if inverse {
        high.iter_mut().zip(turned).for_each(|(h, l)| *h = -l);
    } else {
        high.iter_mut().zip(turned).for_each(|(h, l)| *h = *l);
    }
    Ok((additions, height(low)))
}

fn height(a: &[i64]) -> u64 {
    a.iter().map(|c| c.unsigned_abs()).max().unwrap_or(0)
}

fn spread(a: &mut [i64], top: usize, t: usize) {
    for i in (1..=top).rev() {
        a[i * t] = a[i];
        a[(i - 1) * t + 1..i * t].fill(0);
    }
}

fn made(kind: u64, n: u64, h: i64, buf: &mut [i64]) -> Result<Answer, Refused> {
    if kind != 1 && kind != 2 {
        return Err(Refused(1, 0));
    }
    if n == 0 || n > 65535 {
        return Err(Refused(2, 0));
    }
    if h < 1 {
        return Err(Refused(3, 0));
    }
    let (inverse, index) = (kind == 2, n as usize);
    let primes = odd_primes(index);
    let r: usize = primes.iter().product();
    let m = if index % 2 == 0 { 2 * r } else { r };
    let t = index / m;
    let phi: usize = primes.iter().map(|p| p - 1).product();
    let degree = if inverse { m - phi } else { phi };
    let top = degree * t;
    if buf.len() < top + 1 {
        return Err(Refused(4, top));
    }
    let a = &mut buf[..top + 1];
    let (additions, height) = if r == 1 {
        let two: &[i64] = match (inverse, m) {
            (false, 1) => &[-1, 1],
            (false, _) => &[1, 1],
            (true, 1) => &[1],
            (true, _) => &[-1, 1],
        };
        a[..two.len()].copy_from_slice(two);
        (0, 1)
    } else {
        let own = if inverse { r - phi } else { phi };
        let Ok(told) = squarefree(inverse, &primes, &mut a[..own + 1]) else {
            a.fill(0);
            return Err(Refused(5, top));
        };
        if m != r {
            a[..own + 1].iter_mut().skip(1).step_by(2).for_each(|c| *c = -*c);
            if inverse {
                a[own + 1..r].fill(0);
                for i in 0..=own {
                    a[r + i] = -a[i];
                }
            }
        }
        told
    };
    if t > 1 {
        spread(a, degree, t);
    }
    if height > h as u64 {
        a.fill(0);
        return Err(Refused(6, top));
    }
    let power = primes.len() == 1 && m == r || m == 2;
    let gain = match (inverse, n) {
        (false, 1) => 0,
        (false, _) if power => m as i64,
        (false, _) => 1,
        (true, 1) => 1,
        (true, _) => 0,
    };
    Ok(Answer { code: 0, degree: top as u64, additions, height, gain })
}

pub fn polynomial(kind: u64, n: u64, h: i64, buf: &mut [i64]) -> Answer {
    made(kind, n, h, buf)
        .unwrap_or_else(|Refused(code, top)| Answer { code, degree: top as u64, additions: 0, height: 0, gain: 0 })
}

/// The lowest degree of the height's magnitude. bench/run doesn't time it: the yardstick there is what it was before
/// answers told it.
pub fn peak(a: Answer, buf: &[i64]) -> u64 {
    if a.code == 0 { buf.iter().position(|c| c.unsigned_abs() == a.height).unwrap() as u64 } else { 0 }
}

/// How many odd primes n has.
pub fn class(n: u64) -> usize {
    odd_primes(n as usize).len()
}
