// The lines of crates/try_count_speed by a plain loop over runs of words and fixed bits, for the same arguments, so that the times can be
// compared. Built with `rustc -O`; it needs nothing but std.
use std::hint::black_box;

const COUNTS: u64 = 10_000;
const BUFFERS: u64 = 2_500;
const LITTLE: u64 = 15;
const ROOM: usize = 4_000;
const RULES: u64 = 200;
const PART: u64 = 100_000;
const FAILED: u64 = 50_000;
const MASK: u64 = 0x5555_5555;
const VALUE: u64 = 0x1450_4115;

// Words from one to another, both among them, that have the bits.
struct Run {
    from: u64,
    to: u64,
    mask: u64,
    value: u64,
}

fn free() -> Vec<Run> {
    vec![Run { from: 0, to: u64::MAX, mask: 0, value: 0 }]
}

// The second half of each part; after the last part all words fit.
fn full() -> Vec<Run> {
    let end = |i| if i + 1 == RULES { u64::MAX } else { (i + 1) * PART - 1 };
    (0..RULES).map(|i| Run { from: i * PART + FAILED, to: end(i), mask: 0, value: 0 }).collect()
}

fn bits() -> Vec<Run> {
    vec![Run { from: VALUE, to: u64::MAX & !MASK | VALUE, mask: MASK, value: VALUE }]
}

// Where a listing is carried on: a run, and its next word.
struct Place {
    run: usize,
    next: u64,
}

// Fills the buffer from the place on, run by run, and says how many words were written. From one word that has the bits to the next the
// free bits count up, with the others set to carry over them.
fn fill(runs: &[Run], place: &mut Place, out: &mut [u64]) -> usize {
    let mut at = 0;
    while at < out.len() && place.run < runs.len() {
        let run = &runs[place.run];
        let mut x = place.next;
        while at < out.len() && x < run.to {
            out[at] = x;
            at += 1;
            x = ((x | run.mask) + 1) & !run.mask | run.value;
        }
        place.next = x;
        if at < out.len() {
            out[at] = x;
            at += 1;
            place.run += 1;
            place.next = runs.get(place.run).map_or(0, |run| run.from);
        }
    }
    at
}

fn list(name: &str, runs: &[Run], buffers: u64) {
    let mut out = [0; ROOM];
    let mut place = Place { run: 0, next: runs[0].from };
    let (mut words, mut sum, mut all) = (0, 0u64, 0u64);
    for _ in 0..buffers {
        words += fill(runs, &mut place, &mut out);
        for x in black_box(&out) {
            sum = sum.wrapping_add(*x);
            all = all.wrapping_add(sum);
        }
    }
    println!("{name}: {words} words come to {all}");
}

fn count(times: u64) {
    let runs = full();
    let (mut quotients, mut remainders) = (0, 0);
    for _ in 0..times {
        let words: u128 = black_box(&runs).iter().map(|run| u128::from(run.to - run.from) + 1).sum();
        quotients += words >> 32;
        remainders += words & 0xffff_ffff;
    }
    println!("counts: {times} come to {quotients} * 2^32 + {remainders}");
}

fn main() {
    match std::env::args().nth(1).as_deref() {
        Some("counts") => count(COUNTS),
        Some("free") => list("free", &free(), BUFFERS),
        Some("full") => list("full", &full(), BUFFERS),
        Some("bits") => list("bits", &bits(), BUFFERS),
        _ => {
            count(LITTLE);
            list("free", &free(), LITTLE);
            list("full", &full(), LITTLE);
            list("bits", &bits(), LITTLE);
        }
    }
}
