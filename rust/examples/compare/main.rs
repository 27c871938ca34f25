//! Times calls of this crate beside the loops that a person would write in plain Rust, in one
//! process, and prints a line for each job: NAME OURS `BY_HAND` RATIO. The first two are nanoseconds,
//! of a word where the job goes over a memory, each the least of forty rounds in which the two take
//! turns; the ratio is that of by hand to ours. Words that it is given are the names of those jobs
//! that it is to time. `rust/compare` has the same beside other crates.
//!
//! Where a branch is slow that meets the end of 32 bytes of code, the ratios would change with each
//! build: `.cargo/config.toml` keeps branches from there.

mod by_hand;
mod timing;

use std::cell::RefCell;
use std::hint::black_box;
use worghulen::{
    BitReader, BitSlice, BitSliceMut, BitVec, BitView, BitWriter, Lsb0, Msb0, copy_bits,
};

const WORDS: usize = 65536;
/// All bits of the words but those of four.
const COPIED: usize = (WORDS - 4) * 64;
const READS: usize = 4096;

/// Times both in turn, and prints their line.
fn compare(name: &str, units: usize, mut ours: impl FnMut(), mut by_hand: impl FnMut()) {
    if timing::is_asked(name) {
        let [ours, by_hand] = timing::least(units, [&mut ours, &mut by_hand]);
        println!("{name} {ours:.3} {by_hand:.3} {:.2}", by_hand / ours);
    }
}

fn words() -> Vec<u64> {
    let mut word = 1_u64;
    let next = |_| {
        word = word
            .wrapping_mul(6_364_136_223_846_793_005)
            .wrapping_add(1_442_695_040_888_963_407);
        word
    };
    (0..WORDS).map(next).collect()
}

fn compare_copies(source: &[u64]) {
    let (mut target, mut other) = (words(), words());
    let words = COPIED / 64;
    compare(
        "copy-aligned",
        words,
        || {
            copy_bits::<_, Lsb0>(
                black_box(source),
                64..64 + COPIED,
                black_box(&mut target),
                64,
            )
            .unwrap();
        },
        || black_box(&mut other)[1..=words].copy_from_slice(&black_box(source)[1..=words]),
    );
    compare(
        "copy-shifted",
        words,
        || {
            copy_bits::<_, Lsb0>(
                black_box(source),
                67..67 + COPIED,
                black_box(&mut target),
                78,
            )
            .unwrap();
        },
        || by_hand::copy_shifted::<true>(black_box(source), 67, black_box(&mut other), 78, COPIED),
    );
    compare(
        "copy-shifted-msb0",
        words,
        || {
            copy_bits::<_, Msb0>(
                black_box(source),
                67..67 + COPIED,
                black_box(&mut target),
                78,
            )
            .unwrap();
        },
        || by_hand::copy_shifted::<false>(black_box(source), 67, black_box(&mut other), 78, COPIED),
    );
    compare(
        "copy-200-bits",
        1,
        || {
            copy_bits::<_, Lsb0>(
                black_box(source),
                67..black_box(267),
                black_box(&mut target),
                78,
            )
            .unwrap();
        },
        || {
            by_hand::copy_plain::<true>(
                black_box(source),
                67,
                black_box(&mut other),
                78,
                black_box(200),
            );
        },
    );
    assert_eq!(target, other);
}

/// Places all over a memory, one for each read.
fn places() -> impl Iterator<Item = usize> {
    (0..READS).map(|i| i * 7919 % (WORDS * 64))
}

fn compare_bits(source: &[u64]) {
    let (mut target, mut other) = (words(), words());
    let ours = BitSlice::<_, Lsb0>::new(source, ..).unwrap();
    compare(
        "bit-get",
        READS,
        || {
            let bits = black_box(ours);
            let is_one = |place: &usize| bits.get(black_box(*place)).is_some_and(|bit| *bit);
            black_box(places().filter(is_one).count());
        },
        || {
            let words = black_box(source);
            let is_one = |place: &usize| by_hand::get(words, black_box(*place)) == Some(true);
            black_box(places().filter(is_one).count());
        },
    );
    // (of words as both have them, so that where the bits start, and how many they are, is known)
    compare(
        "bit-get-view",
        READS,
        || {
            let bits = black_box(source).view_bits::<Lsb0>();
            let is_one = |place: &usize| bits.get(black_box(*place)).is_some_and(|bit| *bit);
            black_box(places().filter(is_one).count());
        },
        || {
            let words = black_box(source);
            let is_one = |place: &usize| by_hand::get(words, black_box(*place)) == Some(true);
            black_box(places().filter(is_one).count());
        },
    );
    let mut bits = BitSliceMut::<_, Lsb0>::new(&mut target, ..).unwrap();
    compare(
        "bit-set",
        READS,
        || {
            let bits = black_box(&mut bits);
            places().for_each(|place| bits.set(black_box(place), place % 3 == 0));
        },
        || {
            let words = black_box(&mut other);
            places()
                .for_each(|place| by_hand::set(words, black_box(place), place % 3 == 0).unwrap());
        },
    );
    assert_eq!(target, other);
    let load = |place| BitSlice::<_, Lsb0>::new(source, place..place + 13)?.try_load_le::<u64>();
    compare(
        "field-13",
        READS,
        || {
            black_box(
                places()
                    .map(|place| load(black_box(place)).unwrap())
                    .sum::<u64>(),
            );
        },
        || {
            let load = |place| by_hand::load(source, black_box(place), 13);
            black_box(places().map(load).sum::<u64>());
        },
    );
}

fn compare_passes(source: &[u64]) {
    let (mut target, mut other) = (words(), words());
    let inner = 3..WORDS * 64 - 4;
    compare(
        "fill",
        WORDS,
        || {
            BitSliceMut::<_, Lsb0>::new(black_box(&mut target), inner.clone())
                .unwrap()
                .fill(true);
        },
        || by_hand::fill(black_box(&mut other), true),
    );
    assert_eq!(target, other);
    let slice = |words| BitSlice::<u64, Lsb0>::new(words, inner.clone()).unwrap();
    compare(
        "count-ones",
        WORDS,
        || {
            black_box(slice(black_box(source)).count_ones());
        },
        || {
            black_box(by_hand::count_ones(black_box(source)));
        },
    );
    let mut one_bit = vec![0; WORDS];
    one_bit[WORDS - 1] = 1 << 59;
    compare(
        "first-one",
        WORDS,
        || {
            black_box(slice(black_box(&one_bit)).first_one());
        },
        || {
            black_box(by_hand::first_one(black_box(&one_bit)));
        },
    );
    let copy = source.to_vec();
    compare(
        "equal",
        WORDS,
        || {
            black_box(slice(black_box(source)) == slice(black_box(&copy)));
        },
        || {
            black_box(by_hand::equal(black_box(source), black_box(&copy)));
        },
    );
    // (`==` of slices is `memcmp`, which has the machine's widest vectors)
    compare(
        "equal-memcmp",
        WORDS,
        || {
            black_box(slice(black_box(source)) == slice(black_box(&copy)));
        },
        || {
            black_box(by_hand::equal_slices(black_box(source), black_box(&copy)));
        },
    );
}

fn compare_iterators(source: &[u64]) {
    let bits = |words| BitSlice::<u64, Lsb0>::new(words, ..).unwrap();
    compare(
        "iter-bits",
        WORDS,
        || {
            let indexed = bits(black_box(source)).iter().enumerate();
            black_box(indexed.filter(|(i, bit)| **bit && i % 2 == 0).count());
        },
        || {
            black_box(by_hand::even_ones(black_box(source)));
        },
    );
    compare(
        "iter-ones",
        WORDS,
        || {
            black_box(bits(black_box(source)).iter_ones().sum::<usize>());
        },
        || {
            black_box(by_hand::sum_of_ones(black_box(source)));
        },
    );
    let sparse: Vec<_> = source
        .iter()
        .map(|word| u64::from(word % 64 == 0))
        .collect();
    compare(
        "iter-ones-sparse",
        WORDS,
        || {
            black_box(bits(black_box(&sparse)).iter_ones().sum::<usize>());
        },
        || {
            black_box(by_hand::sum_of_ones(black_box(&sparse)));
        },
    );
}

fn compare_sets(source: &[u64]) {
    // (into one memory, since where it lies matters as much)
    let target = RefCell::new(vec![0; WORDS]);
    compare(
        "or",
        WORDS,
        || {
            let mut target = target.borrow_mut();
            let mut bits = BitSliceMut::<_, Lsb0>::new(black_box(&mut target), ..).unwrap();
            bits |= BitSlice::<_, Lsb0>::new(black_box(source), ..).unwrap();
        },
        || by_hand::or(black_box(&mut target.borrow_mut()), black_box(source)),
    );
}

fn compare_vectors() {
    const BITS: usize = WORDS * 4;
    let (mut ours, mut theirs) = (BitVec::<u64, Lsb0>::new(), by_hand::Bits::default());
    let bit = |i: usize| i & 5 == 4;
    compare(
        "push",
        BITS,
        || {
            let bits = black_box(&mut ours);
            bits.clear();
            (0..BITS).for_each(|i| bits.push(bit(i)));
        },
        || {
            let bits = black_box(&mut theirs);
            bits.clear();
            (0..BITS).for_each(|i| bits.push(bit(i)));
        },
    );
    compare(
        "push-pop",
        BITS,
        || {
            let bits = black_box(&mut ours);
            (0..BITS).for_each(|i| {
                bits.push(bit(i));
                black_box(bits.pop());
            });
        },
        || {
            let bits = black_box(&mut theirs);
            (0..BITS).for_each(|i| {
                bits.push(bit(i));
                black_box(bits.pop());
            });
        },
    );
    compare(
        "extend",
        BITS,
        || {
            let bits = black_box(&mut ours);
            bits.clear();
            bits.extend((0..BITS).map(bit));
        },
        || {
            let bits = black_box(&mut theirs);
            bits.clear();
            bits.extend((0..BITS).map(bit));
        },
    );
    compare(
        "collect",
        BITS,
        || {
            ours = (0..BITS).map(bit).collect();
        },
        || {
            theirs = by_hand::Bits::default();
            theirs.extend((0..BITS).map(bit));
        },
    );
    assert_eq!(
        (ours.len(), ours.as_raw_slice()),
        (theirs.len, &theirs.words[..])
    );
}

/// Reads of `BITS` bits each, from words and from bytes.
fn compare_reads<const BITS: usize>(source: &[u64]) {
    let numbers = WORDS * 64 / BITS;
    compare(
        &format!("read-{BITS}"),
        numbers,
        || {
            let mut reader = BitReader::new(BitSlice::<_, Lsb0>::from_slice(black_box(source)));
            let sum = (0..numbers).map(|_| reader.read::<u64>(black_box(BITS)).unwrap());
            black_box(sum.sum::<u64>());
        },
        || {
            let mut reader = by_hand::Reader::new(black_box(source));
            let sum = (0..numbers).map(|_| reader.read(black_box(BITS)).unwrap());
            black_box(sum.sum::<u64>());
        },
    );
    let bytes: Vec<u8> = source.iter().flat_map(|word| word.to_be_bytes()).collect();
    compare(
        &format!("read-{BITS}-bytes"),
        numbers,
        || {
            let mut reader = BitReader::new(BitSlice::<_, Msb0>::from_slice(black_box(&bytes)));
            let sum = (0..numbers).map(|_| reader.read::<u64>(black_box(BITS)).unwrap());
            black_box(sum.sum::<u64>());
        },
        || {
            let mut reader = by_hand::ByteReader::new(black_box(&bytes));
            let sum = (0..numbers).map(|_| reader.read(black_box(BITS)).unwrap());
            black_box(sum.sum::<u64>());
        },
    );
}

/// Writes of `BITS` bits each, to words and to bytes.
fn compare_writes<const BITS: usize>() {
    let numbers = WORDS * 64 / BITS;
    let number = |i: usize| i as u64 & ((1 << BITS) - 1);
    let (mut target, mut other) = (words(), words());
    compare(
        &format!("write-{BITS}"),
        numbers,
        || {
            let words = black_box(&mut target[..]);
            let mut writer = BitWriter::new(BitSlice::<_, Lsb0>::from_slice_mut(words));
            (0..numbers).for_each(|i| writer.write(black_box(BITS), number(i)).unwrap());
        },
        || {
            let mut writer = by_hand::Writer::new(black_box(&mut other[..]));
            (0..numbers).for_each(|i| writer.write(black_box(BITS), number(i)).unwrap());
            writer.finish();
        },
    );
    assert_eq!(target, other);
    compare_writes_to_bytes::<BITS>(numbers, number);
}

/// Writes of `BITS` bits each to bytes.
fn compare_writes_to_bytes<const BITS: usize>(
    numbers: usize,
    number: impl Fn(usize) -> u64 + Copy,
) {
    let (mut target, mut other) = (vec![0_u8; WORDS * 8], vec![0_u8; WORDS * 8]);
    compare(
        &format!("write-{BITS}-bytes"),
        numbers,
        || {
            let bytes = black_box(&mut target[..]);
            let mut writer = BitWriter::new(BitSlice::<_, Msb0>::from_slice_mut(bytes));
            (0..numbers).for_each(|i| writer.write(black_box(BITS), number(i)).unwrap());
        },
        || {
            let mut writer = by_hand::ByteWriter::new(black_box(&mut other[..]));
            (0..numbers).for_each(|i| writer.write(black_box(BITS), number(i)).unwrap());
            writer.finish();
        },
    );
    assert_eq!(target, other);
}

/// Bytes in one call, to a place that is a multiple of 8 and to one that is not; and words that a
/// vector is extended by. (Both into one memory, since where it lies matters as much.)
fn compare_bytes(source: &[u64]) {
    let bytes: Vec<u8> = source.iter().flat_map(|word| word.to_be_bytes()).collect();
    let target = RefCell::new(vec![0_u8; WORDS * 8 + 1]);
    for (name, place) in [("write-bytes", 8), ("write-bytes-shifted", 3)] {
        let ours = |target: &mut [u8]| {
            let bits = BitSlice::<_, Msb0>::from_slice_mut(black_box(target));
            let mut writer = BitWriter::new(bits);
            writer.skip(place).unwrap();
            writer.write_bytes(black_box(&bytes)).unwrap();
        };
        let by_hand =
            |target: &mut [u8]| by_hand::copy_bytes(black_box(&bytes), black_box(target), place);
        compare(
            name,
            WORDS,
            || ours(&mut target.borrow_mut()),
            || by_hand(&mut target.borrow_mut()),
        );
        let (mut one, mut other) = (vec![0; WORDS * 8 + 1], vec![0; WORDS * 8 + 1]);
        ours(&mut one);
        by_hand(&mut other);
        assert_eq!(one, other);
    }
    let words = RefCell::new(Vec::new());
    compare(
        "extend-bytes",
        WORDS,
        || {
            let mut bits = BitVec::<u8, Msb0>::from_vec(words.take());
            bits.clear();
            black_box(&mut bits).extend(black_box(&bytes).iter().copied());
            assert_eq!(bits.len(), WORDS * 64);
            words.replace(bits.into_vec());
        },
        || {
            let mut words = words.borrow_mut();
            words.clear();
            black_box(&mut *words).extend(black_box(&bytes).iter().copied());
        },
    );
}

fn main() {
    let source = words();
    compare_vectors();
    compare_reads::<13>(&source);
    compare_reads::<1>(&source);
    compare_writes::<13>();
    compare_writes::<1>();
    compare_bytes(&source);
    compare_iterators(&source);
    compare_sets(&source);
    compare_copies(&source);
    compare_bits(&source);
    compare_passes(&source);
}
