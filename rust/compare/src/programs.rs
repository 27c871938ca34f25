//! Whole programs, each over these crates and by hand.

use crate::compare;
use fixedbitset::FixedBitSet;
use smallbitvec::SmallBitVec;
use std::hint::black_box;
use worghulen::{BitReader, BitSlice, BitVec, Lsb0, Msb0};

const BELOW: usize = 5_000_000;
/// How many primes there are.
const PRIMES: usize = 348_513;

/// (In bytes, so that two multiples that follow each other lie less often in one word, whose second
/// change waits for the first.)
fn ours() -> usize {
    let mut is_prime = BitVec::<u8, Lsb0>::repeat(true, BELOW);
    is_prime.part_mut(..2).unwrap().fill(false);
    let mut next = is_prime.first_one();
    while let Some(prime) = next.filter(|prime| prime * prime < BELOW) {
        for multiple in (prime * prime..BELOW).step_by(prime) {
            is_prime.set(multiple, false);
        }
        next = is_prime.next_one(prime + 1);
    }
    is_prime.count_ones()
}

fn by_hand() -> usize {
    let mut words = vec![!0_u64; BELOW / 64];
    words[0] &= !3;
    for prime in (2..).take_while(|prime| prime * prime < BELOW) {
        if words[prime / 64] >> (prime % 64) & 1 == 1 {
            for multiple in (prime * prime..BELOW).step_by(prime) {
                words[multiple / 64] &= !(1 << (multiple % 64));
            }
        }
    }
    words.iter().map(|word| word.count_ones() as usize).sum()
}

fn of_bit_vec() -> usize {
    let mut is_prime = bit_vec::BitVec::from_elem(BELOW, true);
    is_prime.set(0, false);
    is_prime.set(1, false);
    for prime in (2..).take_while(|prime| prime * prime < BELOW) {
        if is_prime[prime] {
            for multiple in (prime * prime..BELOW).step_by(prime) {
                is_prime.set(multiple, false);
            }
        }
    }
    is_prime.blocks().map(|it| it.count_ones() as usize).sum()
}

fn of_fixedbitset() -> usize {
    let mut is_prime = FixedBitSet::with_capacity(BELOW);
    is_prime.insert_range(2..);
    for prime in (2..).take_while(|prime| prime * prime < BELOW) {
        if is_prime.contains(prime) {
            for multiple in (prime * prime..BELOW).step_by(prime) {
                is_prime.set(multiple, false);
            }
        }
    }
    is_prime.count_ones(..)
}

fn of_smallbitvec() -> usize {
    let mut is_prime = SmallBitVec::from_elem(BELOW, true);
    is_prime.set(0, false);
    is_prime.set(1, false);
    for prime in (2..).take_while(|prime| prime * prime < BELOW) {
        if is_prime[prime] {
            for multiple in (prime * prime..BELOW).step_by(prime) {
                is_prime.set(multiple, false);
            }
        }
    }
    is_prime.iter().filter(|bit| *bit).count()
}

/// The primes below five million: nanoseconds of a number.
pub fn sieves() {
    let run = |sieve: fn() -> usize| move || assert_eq!(black_box(sieve()), PRIMES);
    compare(
        "sieve",
        BELOW,
        [
            Some(&mut run(ours)),
            Some(&mut run(by_hand)),
            Some(&mut run(of_bit_vec)),
            Some(&mut run(of_fixedbitset)),
            Some(&mut run(of_smallbitvec)),
        ],
    );
}

/// Codes of 1 to 11 bits: that of the letter `n` is `n` ones and a zero, but for the last.
const LETTERS: u8 = 12;
const WIDTH: usize = 11;
const LENGTH: usize = 500_000;

fn length(letter: u8) -> usize {
    usize::from(letter + 1).min(WIDTH)
}

/// A text, and its letters' codes.
fn written() -> (Vec<u8>, Vec<u8>) {
    let mut state = 1_u64;
    let mut text = Vec::new();
    let mut bits = BitVec::<u8, Msb0>::new();
    for _ in 0..LENGTH {
        state = state
            .wrapping_mul(6_364_136_223_846_793_005)
            .wrapping_add(1);
        let letter = ((state >> 40).trailing_ones() as u8).min(LETTERS - 1);
        text.push(letter);
        bits.extend((0..length(letter)).map(|i| i < usize::from(letter)));
    }
    // (zeros behind them, so that as many as the longest code has are always there)
    bits.resize((bits.len() + 64).next_multiple_of(8), false);
    (text, bits.into_vec())
}

/// For each number of as many bits as the longest code the letter that it begins with, and how long
/// its code is.
fn table() -> Vec<(u8, u8)> {
    let ones = |first: usize| (first << (usize::BITS as usize - WIDTH)).leading_ones() as u8;
    let letter = |first| ones(first).min(LETTERS - 1);
    (0..1 << WIDTH)
        .map(|first| (letter(first), length(letter(first)) as u8))
        .collect()
}

/// By hand: 56 bits at least in a window, of which a letter takes its own.
fn decoded_by_hand(bytes: &[u8], table: &[(u8, u8)], text: &mut [u8]) {
    let (mut window, mut held, mut at) = (0_u64, 0, 0);
    for letter in text {
        if held < WIDTH {
            if let Some(next) = bytes[at..].first_chunk() {
                window |= u64::from_be_bytes(*next) >> held;
                at += (63 - held) / 8;
                held |= 56;
            } else {
                while let (true, Some(byte)) = (held <= 56, bytes.get(at)) {
                    window |= u64::from(*byte) << (56 - held);
                    at += 1;
                    held += 8;
                }
            }
        }
        let (found, len) = table[(window >> (64 - WIDTH)) as usize];
        *letter = found;
        window <<= len;
        held -= usize::from(len);
    }
}

fn decoded(bytes: &[u8], table: &[(u8, u8)], text: &mut [u8]) {
    let mut reader = BitReader::new(BitSlice::<u8, Msb0>::from_slice(bytes));
    for letter in text {
        let (found, len) = table[reader.peek::<usize>(WIDTH).unwrap()];
        *letter = found;
        reader.skip(len.into()).unwrap();
    }
}

/// A Huffman decoder by a table: nanoseconds of a letter.
pub fn decoders() {
    let ((text, bytes), table) = (written(), table());
    let (mut ours, mut theirs) = (vec![0; LENGTH], vec![0; LENGTH]);
    compare(
        "huffman",
        LENGTH,
        [
            Some(&mut || decoded(black_box(&bytes), &table, &mut ours)),
            Some(&mut || decoded_by_hand(black_box(&bytes), &table, &mut theirs)),
            None,
            None,
            None,
        ],
    );
    if crate::timing::is_asked("huffman") {
        assert_eq!((&ours, &theirs), (&text, &text));
    }
}
