//! The jobs of the bench that the crate `fixedbitset` does.

include!("common.rs");

use fixedbitset::FixedBitSet;

const PEER: &str = "fixedbitset";

fn set(words: &[u64], bits: usize) -> FixedBitSet {
    let blocks = words.iter().flat_map(|word| [*word as u32, (*word >> 32) as u32]);
    FixedBitSet::with_capacity_and_blocks(bits, blocks)
}

fn sum(ones: impl Iterator<Item = usize>) -> usize {
    ones.fold(0, |sum: usize, i| sum.wrapping_add(i))
}

fn reads() {
    let words = draws(WORDS);
    let mut turned = words.clone();
    turned.reverse();
    let (half, copy, other) = (set(&words, BITS), set(&words, BITS), set(&turned, BITS));
    same("without", sum(half.difference(&other)), (0..BITS).filter(|i| is_one(&words, *i) && !is_one(&turned, *i)));
    let either = (0..BITS).filter(|i| is_one(&words, *i) || is_one(&turned, *i));
    same("either", half.union(&other).count(), either.map(|_| 1));
    assert!(half == copy && half.is_subset(&copy));
    let mut last = vec![0; WORDS];
    last[WORDS - 1] = 1 << 31;
    let last = set(&last, BITS);
    time("count-ones-lsb0", PEER, WORDS, || {
        black_box(black_box(&half).count_ones(..));
    });
    time("first-one-lsb0", PEER, WORDS, || {
        black_box(black_box(&last).ones().next());
    });
    for (name, words) in [("ones-half-lsb0", draws(WORDS)), ("ones-64th-lsb0", sparse(0)), ("ones-4096th-lsb0", sparse(64))] {
        let set = set(&words, BITS);
        same(name, sum(set.ones()), (0..BITS).filter(|i| is_one(&words, *i)));
        time(name, PEER, WORDS, || {
            black_box(sum(black_box(&set).ones()));
        });
    }
    time("iter-bits-lsb0", PEER, WORDS, || {
        let set = black_box(&half);
        black_box((0..BITS).filter(|i| set.contains(*i)).count());
    });
    time("equal-lsb0", PEER, WORDS, || {
        black_box(black_box(&half) == black_box(&copy));
    });
    time("subset-aligned-lsb0", PEER, WORDS, || {
        black_box(black_box(&half).is_subset(black_box(&copy)));
    });
    time("count-and-aligned-lsb0", PEER, WORDS, || {
        black_box(black_box(&half).intersection(black_box(&copy)).count());
    });
    time("without-walked-lsb0", PEER, WORDS, || {
        black_box(sum(black_box(&half).difference(black_box(&other))));
    });
    time("either-counted-lsb0", PEER, WORDS, || {
        black_box(black_box(&half).union(black_box(&other)).count());
    });
}

fn edits() {
    let half = draws(WORDS);
    let mut turned = half.clone();
    turned.reverse();
    let (mut half, other) = (set(&half, BITS), set(&turned, BITS));
    time("or-lsb0-aligned", PEER, WORDS, || black_box(&mut half).union_with(black_box(&other)));
    time("fill", PEER, WORDS, || black_box(&mut half).set_range(3.., black_box(true)));
}

fn at_places() {
    let places = places();
    let mut set = set(&draws(2 * WORDS), WORDS * 128);
    time("get-random-lsb0", PEER, WORDS, || {
        let set = black_box(&set);
        black_box(black_box(&places).iter().fold(0, |sum, place| sum + set.contains(*place) as usize));
    });
    time("set-random-lsb0", PEER, WORDS, || {
        let set = black_box(&mut set);
        for place in black_box(&places) {
            set.set(*place, *place % 3 == 0);
        }
    });
}

fn main() {
    reads();
    edits();
    at_places();
}
