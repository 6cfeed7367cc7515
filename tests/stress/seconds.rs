//! The second engine: requests of every sort, rooms and limits around what is needed, against what the plain request
//! owes with no working limit.

use crate::library::{self, Answer};
use crate::random::Random;
use crate::reference::{Reference, LARGEST};
use crate::requests;

/// How many entries the scratch needs.
fn needed(n: usize) -> usize {
    2 * n + 16
}

/// What must come back, what must stand in the buffer, and whether the scratch is cleared; if not, it stands as it was.
fn expected(of: &mut Reference, kind: u64, n: u64, h: i64, before: &[i64], room: usize) -> (Answer, Vec<i64>, bool) {
    let (mut answer, after) = requests::expected(of, kind, n, h, i64::MAX, before);
    if !matches!(answer.code, 0 | 6) {
        assert!(answer.code <= 4, "the plain request owes {}", answer.code);
        return (answer, after, false);
    }
    if room < needed(n as usize) {
        return (Answer { code: 4, degree: answer.degree, ..Answer::default() }, before.to_vec(), false);
    }
    answer.additions = 0;
    (answer, after, true)
}

fn held(of: &mut Reference, (kind, n, h): (u64, u64, i64), before: &[i64], work: &[i64]) {
    let (answer, after, cleared) = expected(of, kind, n, h, before, work.len());
    let (mut buf, mut scratch) = (before.to_vec(), work.to_vec());
    let told = library::second(kind, n, h, &mut buf, &mut scratch);
    let asked = format!("second {kind} {n} {h} in {} and {}", before.len(), work.len());
    assert!(told == answer, "{asked}: {told:?}, not {answer:?}");
    assert!(buf == after, "{asked}: another buffer");
    let clean = if cleared { scratch.iter().all(|&v| v == 0) } else { scratch == work };
    assert!(clean, "{asked}: another scratch");
}

/// A slice for a scratch: some hundred words again and again, since so many of their own would take most of the time.
fn long(random: &mut Random, len: usize) -> Vec<i64> {
    let count = 100 + random.below(100);
    let mut found = random.slice(count.min(len));
    while found.len() < len {
        found.extend_from_within(..found.len().min(len - found.len()));
    }
    found
}

/// One kind of n: in room enough, with no height limit, at the height or one below; and at some n with one entry too
/// few in the buffer or in the scratch.
pub fn index(random: &mut Random, of: &mut Reference, n: usize) -> u64 {
    let kind = 1 + random.below(2) as u64;
    let need = of.degree(kind, n) + 1;
    let pair = of.pair(n);
    let height = (if kind == 1 { &pair.f } else { &pair.i }).iter().map(|c| c.unsigned_abs()).max().unwrap() as i64;
    let (more, also) = (random.below(3), random.of(&[0, 0, 1, 40]));
    let (before, work) = (random.slice(need + more), long(random, needed(n) + also));
    let h = random.of(&[height, height - 1, i64::MAX]);
    held(of, (kind, n as u64, h), &before, &work);
    match random.below(8) {
        0 => held(of, (kind, n as u64, height), &before[..need - 1], &work),
        1 => held(of, (kind, n as u64, height), &before, &work[..needed(n) - 1]),
        _ => return 1,
    }
    2
}

/// Any kind, index, limit and rooms.
pub fn any(random: &mut Random, of: &mut Reference) -> u64 {
    let kind = if random.one_in(8) { random.of(&[0, 3, 4, 1 << 32, u64::MAX]) } else { 1 + random.below(2) as u64 };
    let n = match random.below(16) {
        0 => random.of(&[0, 1, 2, LARGEST as u64 + 1, u64::MAX, 1 << 32, (1 << 32) + 6]),
        1 => random.below(5000) as u64,
        2 => random.of(&[105, 420, 1001, 1155, 2310, 3465, 4620]),
        _ => random.below(400) as u64,
    };
    let h = match random.below(4) {
        0 => random.extreme(),
        _ => random.below(4) as i64,
    };
    let known = (1..=LARGEST as u64).contains(&n);
    let edge = if known { of.degree(if kind == 1 { 1 } else { 2 }, n as usize) } else { 10 };
    let mut room = (edge + random.below(6)).saturating_sub(random.below(4));
    let enough = needed(if known { n as usize } else { 5 });
    let mut work = enough + random.of(&[0, 0, 0, 1, 2, 500]) - random.of(&[0, 0, 0, 1, 2, 15]);
    if random.one_in(20) {
        room = 0;
    }
    if random.one_in(20) {
        work = random.below(enough);
    }
    let (before, work) = (random.slice(room), long(random, work));
    held(of, (kind, n, h), &before, &work);
    1
}
