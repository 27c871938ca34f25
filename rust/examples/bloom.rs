//! A Bloom filter: which words were seen, with no word kept.

use std::hash::{DefaultHasher, Hash, Hasher};
use worghulen::prelude::*;

struct Bloom {
    bits: BitVec,
    probes: usize,
}

impl Bloom {
    fn new(bits: usize, probes: usize) -> Self {
        let bits = bitvec![0; bits];
        Self { bits, probes }
    }

    /// The bits of a thing: by two hashes, as many as are asked.
    fn places<H: Hash>(&self, thing: H) -> impl Iterator<Item = usize> + use<H> {
        let hash = |salt: u8| {
            let mut hasher = DefaultHasher::new();
            (salt, &thing).hash(&mut hasher);
            hasher.finish()
        };
        let (first, step, len) = (hash(0), hash(1) | 1, self.bits.len() as u64);
        (0..self.probes as u64).map(move |i| {
            let place = first.wrapping_add(i.wrapping_mul(step)) % len;
            usize::try_from(place).expect("it is less than a `usize`")
        })
    }

    fn insert(&mut self, thing: impl Hash) {
        for place in self.places(thing) {
            self.bits.set(place, true);
        }
    }

    /// Whether it may have been seen: always, where it was.
    fn contains(&self, thing: impl Hash) -> bool {
        self.places(thing).all(|place| self.bits[place])
    }
}

fn main() {
    let (mut even, mut odd) = (Bloom::new(20_000, 7), Bloom::new(20_000, 7));
    for number in 0..1000 {
        even.insert(2 * number);
        odd.insert(2 * number + 1);
    }
    assert!((0..1000).all(|number| even.contains(2 * number)));
    let wrong = (0..1000)
        .filter(|number| even.contains(2 * number + 1))
        .count();
    assert!(wrong < 20, "{wrong} of 1000");

    // The union of two is the filter of both.
    let common = even.bits.count_and(&odd.bits.as_bitslice());
    let ones = even.bits.count_ones() + odd.bits.count_ones() - common;
    even.bits |= &odd.bits;
    assert_eq!(even.bits.count_ones(), ones);
    assert!((0..2000).all(|number| even.contains(number)));
    println!(
        "{ones} of {} bits, {wrong} of 1000 by mistake",
        even.bits.len()
    );
}
