//! Times calls of this crate beside those of other crates of bits, as Debian packages them, and
//! beside loops by hand, and prints a line for each job: NAME OURS `BY_HAND` `BIT_VEC` `FIXEDBITSET`
//! `SMALLBITVEC`, each in nanoseconds, the least of forty rounds in which they take turns; `-` where
//! a crate has no such call. `sieve` and `huffman` are whole programs. Run it here, by
//! `cargo run --release`: the folder `.cargo` names where Debian has the crates. Words that it is
//! given are the names of those jobs that it is to time.

#[allow(dead_code)]
#[path = "../../examples/compare/by_hand.rs"]
mod by_hand;
mod programs;
#[path = "../../examples/compare/timing.rs"]
mod timing;

use fixedbitset::FixedBitSet;
use smallbitvec::SmallBitVec;
use std::hint::black_box;
use worghulen::{BitVec, Lsb0};

const BITS: usize = 1 << 20;
const READS: usize = 4096;

/// Times jobs in turn, and prints their line: ours, by hand, and the others, where there is one.
pub fn compare(name: &str, units: usize, jobs: [Option<&mut dyn FnMut()>; 5]) {
    if !timing::is_asked(name) {
        return;
    }
    let mut nothing: [Box<dyn FnMut()>; 5] = std::array::from_fn(|_| Box::new(|| ()) as _);
    let is_there = jobs.each_ref().map(Option::is_some);
    let mut nothing = nothing.iter_mut();
    let jobs = jobs.map(|job| {
        let nothing = nothing.next().expect("as many");
        job.unwrap_or(nothing)
    });
    let times = timing::least(units, jobs);
    let ours = times[0];
    print!("{name} {ours:.3}");
    for (time, is_there) in times.into_iter().zip(is_there).skip(1) {
        if is_there {
            print!(" {time:.3}");
        } else {
            print!(" -");
        }
    }
    println!(" by hand {:.2}", times[1] / ours);
}

/// Whether a bit is one: those of a list that looks like none.
fn bit(i: usize) -> bool {
    (i as u64).wrapping_mul(0x9e37_79b9_7f4a_7c15) >> 63 == 1
}

/// The same of a list that a processor cannot foretell.
fn random(i: usize) -> bool {
    let word = (i as u64 + 1).wrapping_mul(0x9e37_79b9_7f4a_7c15);
    let word = (word ^ word >> 30).wrapping_mul(0xbf58_476d_1ce4_e5b9);
    word >> 40 & 1 == 1
}

/// Places all over a memory, one for each read.
fn places() -> impl Iterator<Item = usize> {
    (0..READS).map(|i| i * 7919 % BITS)
}

/// The same bits in each crate.
#[derive(Clone)]
struct All {
    ours: BitVec<u64, Lsb0>,
    hand: by_hand::Bits,
    vec: bit_vec::BitVec,
    fixed: FixedBitSet,
    small: SmallBitVec,
}

impl All {
    fn new(bit: impl Fn(usize) -> bool + Copy) -> Self {
        let mut all = Self {
            ours: (0..BITS).map(bit).collect(),
            hand: by_hand::Bits::default(),
            vec: (0..BITS).map(bit).collect(),
            fixed: FixedBitSet::with_capacity(BITS),
            small: (0..BITS).map(bit).collect(),
        };
        all.hand.extend((0..BITS).map(bit));
        (0..BITS).for_each(|i| all.fixed.set(i, bit(i)));
        all
    }
}

/// Bits that are pushed one by one.
fn compare_pushes(name: &str, bit: impl Fn(usize) -> bool) {
    compare(
        name,
        BITS,
        [
            Some(&mut || {
                let mut bits = BitVec::<u64, Lsb0>::new();
                (0..BITS).for_each(|i| bits.push(bit(i)));
                black_box(bits);
            }),
            Some(&mut || {
                let mut bits = by_hand::Bits::default();
                (0..BITS).for_each(|i| bits.push(bit(i)));
                black_box(bits);
            }),
            Some(&mut || {
                let mut bits = bit_vec::BitVec::new();
                (0..BITS).for_each(|i| bits.push(bit(i)));
                black_box(bits);
            }),
            None,
            Some(&mut || {
                let mut bits = SmallBitVec::new();
                (0..BITS).for_each(|i| bits.push(bit(i)));
                black_box(bits);
            }),
        ],
    );
}

fn compare_growth() {
    let regular = |i: usize| i & 5 == 4;
    compare_pushes("push", regular);
    compare_pushes("push-random", random);
    compare(
        "collect",
        BITS,
        [
            Some(&mut || {
                black_box((0..BITS).map(regular).collect::<BitVec<u64, Lsb0>>());
            }),
            Some(&mut || {
                let mut bits = by_hand::Bits::default();
                bits.extend((0..BITS).map(regular));
                black_box(bits);
            }),
            Some(&mut || {
                black_box((0..BITS).map(regular).collect::<bit_vec::BitVec>());
            }),
            None,
            Some(&mut || {
                black_box((0..BITS).map(regular).collect::<SmallBitVec>());
            }),
        ],
    );
}

fn compare_bits(all: &mut All) {
    compare(
        "get",
        READS,
        [
            Some(&mut || {
                let bits = black_box(&all.ours);
                black_box(
                    places()
                        .filter(|i| bits.get(*i).is_some_and(bool::from))
                        .count(),
                );
            }),
            Some(&mut || {
                let bits = black_box(&all.hand.words);
                let is_one = |i: &usize| by_hand::get(bits, *i) == Some(true);
                black_box(places().filter(is_one).count());
            }),
            Some(&mut || {
                let bits = black_box(&all.vec);
                black_box(places().filter(|i| bits.get(*i) == Some(true)).count());
            }),
            Some(&mut || {
                let bits = black_box(&all.fixed);
                black_box(places().filter(|i| bits.contains(*i)).count());
            }),
            Some(&mut || {
                let bits = black_box(&all.small);
                black_box(places().filter(|i| bits.get(*i) == Some(true)).count());
            }),
        ],
    );
    compare(
        "set",
        READS,
        [
            Some(&mut || {
                let bits = black_box(&mut all.ours);
                places().for_each(|i| bits.set(i, bit(i)));
            }),
            Some(&mut || {
                let bits = black_box(&mut all.hand.words);
                places().for_each(|i| by_hand::set(bits, i, bit(i)).unwrap());
            }),
            Some(&mut || {
                let bits = black_box(&mut all.vec);
                places().for_each(|i| bits.set(i, bit(i)));
            }),
            Some(&mut || {
                let bits = black_box(&mut all.fixed);
                places().for_each(|i| bits.set(i, bit(i)));
            }),
            Some(&mut || {
                let bits = black_box(&mut all.small);
                places().for_each(|i| bits.set(i, bit(i)));
            }),
        ],
    );
}

/// How many of bits are one at an even index.
fn even(bits: impl Iterator<Item = bool>) {
    black_box(
        bits.enumerate()
            .filter(|(i, bit)| *bit && i % 2 == 0)
            .count(),
    );
}

fn compare_iterators(all: &All) {
    compare(
        "iter-bits",
        BITS,
        [
            Some(&mut || even(black_box(&all.ours).iter().map(|bit| *bit))),
            Some(&mut || {
                black_box(by_hand::even_ones(black_box(&all.hand.words)));
            }),
            Some(&mut || even(black_box(&all.vec).iter())),
            None,
            Some(&mut || even(black_box(&all.small).iter())),
        ],
    );
    compare(
        "iter-ones",
        BITS,
        [
            Some(&mut || {
                black_box(black_box(&all.ours).iter_ones().sum::<usize>());
            }),
            Some(&mut || {
                black_box(by_hand::sum_of_ones(black_box(&all.hand.words)));
            }),
            Some(&mut || {
                let ones = black_box(&all.vec)
                    .iter()
                    .enumerate()
                    .filter(|(_, bit)| *bit);
                black_box(ones.map(|(i, _)| i).sum::<usize>());
            }),
            Some(&mut || {
                black_box(black_box(&all.fixed).ones().sum::<usize>());
            }),
            Some(&mut || {
                let ones = black_box(&all.small)
                    .iter()
                    .enumerate()
                    .filter(|(_, bit)| *bit);
                black_box(ones.map(|(i, _)| i).sum::<usize>());
            }),
        ],
    );
}

fn compare_passes(all: &mut All, other: &All) {
    compare(
        "or",
        BITS / 64,
        [
            Some(&mut || *black_box(&mut all.ours) |= black_box(&other.ours)),
            Some(&mut || by_hand::or(black_box(&mut all.hand.words), black_box(&other.hand.words))),
            Some(&mut || {
                black_box(&mut all.vec).or(black_box(&other.vec));
            }),
            Some(&mut || black_box(&mut all.fixed).union_with(black_box(&other.fixed))),
            None,
        ],
    );
    compare(
        "count-ones",
        BITS / 64,
        [
            Some(&mut || {
                black_box(black_box(&all.ours).count_ones());
            }),
            Some(&mut || {
                black_box(by_hand::count_ones(black_box(&all.hand.words)));
            }),
            Some(&mut || {
                let blocks = black_box(&all.vec).blocks();
                black_box(blocks.map(|it| it.count_ones() as usize).sum::<usize>());
            }),
            Some(&mut || {
                black_box(black_box(&all.fixed).count_ones(..));
            }),
            None,
        ],
    );
    let same = all.clone();
    compare(
        "equal",
        BITS / 64,
        [
            Some(&mut || {
                black_box(black_box(&all.ours) == black_box(&same.ours));
            }),
            Some(&mut || {
                black_box(by_hand::equal(
                    black_box(&all.hand.words),
                    black_box(&same.hand.words),
                ));
            }),
            Some(&mut || {
                black_box(black_box(&all.vec) == black_box(&same.vec));
            }),
            Some(&mut || {
                black_box(black_box(&all.fixed) == black_box(&same.fixed));
            }),
            Some(&mut || {
                black_box(black_box(&all.small) == black_box(&same.small));
            }),
        ],
    );
}

fn main() {
    programs::sieves();
    programs::decoders();
    compare_growth();
    let (mut all, other) = (All::new(bit), All::new(|i| bit(i + 1)));
    compare_bits(&mut all);
    compare_iterators(&all);
    compare_passes(&mut all, &other);
}
