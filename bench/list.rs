//! The listing as plain Rust, to measure `list` against: bench/list tells how.

#[allow(dead_code)]
mod plain;

use std::io::{self, BufRead, Write};

const ROOM: usize = 4096;

/// 1 to 9 digits.
fn number(word: &[u8]) -> Option<u64> {
    let digits = !word.is_empty() && word.len() <= 9 && word.iter().all(u8::is_ascii_digit);
    digits.then(|| word.iter().fold(0, |n, d| n * 10 + (d - b'0') as u64))
}

fn request(line: &[u8]) -> Option<(u8, u64, u64)> {
    let mut words = line.split(|&b| b == b' ');
    let letter = match words.next()? {
        b"F" => b'F',
        b"I" => b'I',
        _ => return None,
    };
    let (n, h) = (number(words.next()?)?, number(words.next()?)?);
    words.next().is_none().then_some((letter, n, h))
}

fn main() -> io::Result<()> {
    let mut input = io::BufReader::with_capacity(1 << 16, io::stdin().lock());
    let mut out = io::BufWriter::with_capacity(1 << 16, io::stdout().lock());
    let mut buf = [0i64; ROOM];
    let mut line = Vec::new();
    let mut count = 0;
    writeln!(out, "polynomials")?;
    while input.read_until(b'\n', &mut line)? > 0 {
        count += 1;
        let text = line.strip_suffix(b"\n").unwrap_or(&line);
        if let Some((letter, n, h)) = request(text) {
            let a = plain::polynomial(if letter == b'F' { 1 } else { 2 }, n, h as i64, &mut buf);
            let peak = plain::peak(a, &buf);
            write!(out, "{} {n} {} {} {} {} {peak} {} :", letter as char, a.code, a.degree, a.additions, a.height, a.gain)?;
            if a.code == 0 {
                for c in &buf[..a.degree as usize + 1] {
                    write!(out, " {c}")?;
                }
            }
            writeln!(out)?;
        } else {
            writeln!(out, "? {count}")?;
        }
        line.clear();
    }
    out.flush()
}
