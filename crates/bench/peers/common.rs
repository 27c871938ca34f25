// What the peers in Rust share, as `common.hpp` for those in C and C++: each of them is a program of its own, which reads
// this file by `include!`.

use std::hint::black_box;
use std::time::{Duration, Instant};

const WORDS: usize = 65536;

/// The bits of a memory but for the last seven, as the bench leaves three out at the start and four at the end.
#[allow(dead_code)]
const BITS: usize = WORDS * 64 - 7;

/// The nanoseconds of one of the units of a job: the best of nine rounds.
fn time(name: &str, peer: &str, units: usize, mut job: impl FnMut()) {
    let mut round = |repeats: usize| {
        let start = Instant::now();
        for _ in 0..repeats {
            job();
        }
        start.elapsed()
    };
    let mut repeats = 1;
    while repeats < 1 << 20 && round(repeats) < Duration::from_millis(2) {
        repeats *= 2;
    }
    let best = (0..9).map(|_| round(repeats)).min().unwrap_or_default();
    println!("{name} {peer} {:.3}", best.as_nanos() as f64 / (repeats * units) as f64);
}

fn draws(count: usize) -> Vec<u64> {
    let mut word = 1u64;
    (0..count)
        .map(|_| {
            word = word.wrapping_mul(6364136223846793005).wrapping_add(1442695040888963407);
            word
        })
        .collect()
}

/// Ends where an answer is not that of a plain loop, since then it is another job that is timed.
#[allow(dead_code)]
fn same(name: &str, answer: usize, wanted: impl Iterator<Item = usize>) {
    assert_eq!(answer, wanted.fold(0, |sum: usize, number| sum.wrapping_add(number)), "{name}");
}

/// Places in no order.
#[allow(dead_code)]
fn places() -> Vec<usize> {
    draws(WORDS).iter().map(|word| (word >> 20) as usize % (WORDS * 128 - 1024)).collect()
}

/// Words of which each n-th has one digit that is one; all of them where n is 0.
#[allow(dead_code)]
fn sparse(n: usize) -> Vec<u64> {
    (0..WORDS).map(|k| if n == 0 || k % n == n / 2 { 1 << (k % 61) } else { 0 }).collect()
}

#[allow(dead_code)]
fn is_one(words: &[u64], place: usize) -> bool {
    words[place / 64] >> (place % 64) & 1 == 1
}
