//! The jobs of the bench that the crate `bit-vec` does.

include!("common.rs");

use bit_vec::BitVec;

const PEER: &str = "bit-vec";

fn vec(words: &[u64], bits: usize) -> BitVec {
    BitVec::from_fn(bits, |i| is_one(words, i))
}

fn main() {
    let words = draws(WORDS);
    let mut turned = words.clone();
    turned.reverse();
    let (mut half, copy, other) = (vec(&words, BITS), vec(&words, BITS), vec(&turned, BITS));
    time("count-ones-lsb0", PEER, WORDS, || {
        black_box(black_box(&half).blocks().map(|block| block.count_ones() as usize).sum::<usize>());
    });
    time("iter-bits-lsb0", PEER, WORDS, || {
        black_box(black_box(&half).iter().filter(|bit| *bit).count());
    });
    time("equal-lsb0", PEER, WORDS, || {
        black_box(black_box(&half) == black_box(&copy));
    });
    time("or-lsb0-aligned", PEER, WORDS, || {
        black_box(black_box(&mut half).or(black_box(&other)));
    });
    time("fill", PEER, WORDS, || black_box(&mut half).set_all());
    let places = places();
    let mut bits = vec(&draws(2 * WORDS), WORDS * 128);
    time("get-random-lsb0", PEER, WORDS, || {
        let bits = black_box(&bits);
        black_box(black_box(&places).iter().fold(0, |sum, place| sum + bits.get(*place).unwrap_or(false) as usize));
    });
    time("set-random-lsb0", PEER, WORDS, || {
        let bits = black_box(&mut bits);
        for place in black_box(&places) {
            bits.set(*place, *place % 3 == 0);
        }
    });
    let list: Vec<bool> = (0..WORDS).map(|i| is_one(&words, i)).collect();
    let mut made = BitVec::new();
    time("vec-push", PEER, WORDS, || {
        made.truncate(0);
        for bit in black_box(&list) {
            made.push(*bit);
        }
        black_box(&mut made);
    });
}
