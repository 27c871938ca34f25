//! The jobs of the bench that the crate `smallbitvec` does.

include!("common.rs");

use smallbitvec::SmallBitVec;

const PEER: &str = "smallbitvec";

fn vec(words: &[u64], bits: usize) -> SmallBitVec {
    (0..bits).map(|i| is_one(words, i)).collect()
}

fn main() {
    let words = draws(WORDS);
    let (half, copy) = (vec(&words, BITS), vec(&words, BITS));
    time("iter-bits-lsb0", PEER, WORDS, || {
        black_box(black_box(&half).iter().filter(|bit| *bit).count());
    });
    time("equal-lsb0", PEER, WORDS, || {
        black_box(black_box(&half) == black_box(&copy));
    });
    let places = places();
    let mut bits = vec(&draws(2 * WORDS), WORDS * 128);
    time("get-random-lsb0", PEER, WORDS, || {
        let bits = black_box(&bits);
        black_box(black_box(&places).iter().fold(0, |sum, place| sum + bits.get(*place).unwrap_or(false) as usize));
    });
    time("set-random-lsb0", PEER, WORDS, || {
        let bits = black_box(&mut bits);
        for place in black_box(&places) {
            bits.set(*place, *place % 3 == 0);
        }
    });
    let list: Vec<bool> = (0..WORDS).map(|i| is_one(&words, i)).collect();
    let mut made = SmallBitVec::new();
    time("vec-push", PEER, WORDS, || {
        made.clear();
        for bit in black_box(&list) {
            made.push(*bit);
        }
        black_box(&mut made);
    });
}
