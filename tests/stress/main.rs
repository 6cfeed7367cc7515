//! Drives the compiled library with random and damaged inputs and holds every answer and every buffer to a reference.
//! Stops at the first difference with a message and a status other than 0; else tells how many inputs were tried.
//! `stress [seed [share]]`: share is the part of the full run in percent, 100 if not given.

mod cascades;
mod censuses;
mod half_records;
mod halves;
mod library;
mod random;
mod records;
mod reference;
mod requests;
mod rescues;
mod responses;
mod seconds;
mod shelves;
mod steps;

use censuses::Table;
use random::Random;
use reference::{Reference, LARGEST};

fn tell(what: &str, tried: u64) -> u64 {
    println!("{what}: {tried} inputs, no difference");
    tried
}

fn main() {
    let words: Vec<u64> = std::env::args().skip(1).map(|w| w.parse().expect("a number")).collect();
    let seed = words.first().copied().unwrap_or(1);
    let share = words.get(1).copied().unwrap_or(100) as usize;
    println!("seed {seed}");
    let mut random = Random(seed);
    let mut of = Reference::new();
    let mut all = 0;
    all += tell("steps", (0..20_000 * share).map(|_| steps::any(&mut random)).sum());
    all += tell("steps, every size", (0..3 * share).map(|len| steps::every_size(&mut random, len % 300)).sum());
    all += tell("records", (0..5_000 * share).map(|_| records::any(&mut random, &of)).sum());
    all += tell("partial requests", (0..500 * share).map(|_| requests::stop(&mut random, &mut of)).sum());
    all += tell("polynomials, any request", (0..2_000 * share).map(|_| requests::any(&mut random, &mut of)).sum());
    let last = LARGEST * share.min(100) / 100;
    // together, since all need the reference for n
    let (mut stops, mut polynomials, mut seconds, mut halves, mut rescues, mut responses) = (0, 0, 0, 0, 0, 0);
    for n in 1..=last {
        polynomials += requests::index(&mut random, &mut of, n);
        stops += requests::stops(&mut random, &mut of, n);
        seconds += seconds::index(&mut random, &mut of, n);
        halves += half_records::index(&mut random, &mut of, n);
        rescues += rescues::index(&mut random, &mut of, n);
        responses += responses::index(&mut random, &mut of, n);
    }
    all += tell("polynomials, every index", polynomials);
    all += tell("partial requests, every r", stops);
    all += tell("second engine, every index", seconds);
    all += tell("half records, every index", halves);
    all += tell("rescues, every index", rescues);
    all += tell("responses, every index", responses);
    all += tell("second engine, any request", (0..5_000 * share).map(|_| seconds::any(&mut random, &mut of)).sum());
    all += tell("cascades", (0..100 * share).map(|_| cascades::any(&mut random, &mut of)).sum());
    all += tell("cascades of any indices", (0..share / 10).map(|_| cascades::large(&mut random, &mut of)).sum());
    all += tell("shelves", (0..2_000 * share).map(|_| shelves::any(&mut random, &of)).sum());
    all += tell("shelves, every byte", (0..share / 5).map(|_| shelves::every_byte(&mut random, &of)).sum());
    all += tell("shelves of large records", (0..5 * share).map(|_| shelves::large(&mut random, &of)).sum());
    all += tell("half records", (0..2_000 * share).map(|_| half_records::any(&mut random, &of)).sum());
    all += tell("half records, every byte", (0..share / 5).map(|_| half_records::every_byte(&mut random, &of)).sum());
    all += tell("half records, large", (0..5 * share).map(|_| half_records::large(&mut random, &of)).sum());
    all += tell("rescues", (0..2_000 * share).map(|_| rescues::any(&mut random, &mut of)).sum());
    all += tell("rescues, every byte", (0..share / 5).map(|_| rescues::every_byte(&mut random, &mut of)).sum());
    all += tell("rescues, more than 2^32 bytes", (0..share / 100).map(|_| rescues::far()).sum());
    all += tell("responses", (0..15_000 * share).map(|_| responses::any(&mut random)).sum());
    let table = Table::new(&mut of);
    all += tell("censuses, every index", censuses::every_index(&mut random, &table));
    all += tell("censuses, long", censuses::long(&mut random, &table));
    all += tell("censuses", (0..1_000 * share).map(|_| censuses::any(&mut random, &table)).sum());
    println!("{all} inputs tried, no difference");
}
