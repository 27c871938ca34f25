//! Bits that are owned, against a plain model of a list of truth values; the proxies, the pieces and
//! the free maps too.

mod common;

use common::{Layout, Random, Word, bits_of};
use std::collections::hash_map::DefaultHasher;
use std::hash::{Hash, Hasher};
use std::iter::zip;
use std::ops::Range;
use std::panic::{AssertUnwindSafe, catch_unwind};
use worghulen::prelude::*;
use worghulen::{Domain, FreeMap};

/// How many random steps each vector takes.
const STEPS: usize = 4_000;

/// Random truth values.
fn truths(random: &mut Random, most: usize) -> Vec<bool> {
    let kind = random.below(4);
    let mut bit = || match kind {
        0 => false,
        1 => true,
        _ => random.bit(),
    };
    let list: Vec<bool> = (0..most).map(|_| bit()).collect();
    let len = random.below(most + 1);
    list[..len].to_vec()
}

/// A range of places that lies among `len`.
fn within(random: &mut Random, len: usize) -> Range<usize> {
    let (one, other) = (random.below(len + 1), random.below(len + 1));
    one.min(other)..one.max(other)
}

fn hash_of(it: &impl Hash) -> u64 {
    let mut hasher = DefaultHasher::new();
    it.hash(&mut hasher);
    hasher.finish()
}

/// What was said where a call panics.
fn panics(call: impl FnOnce()) -> String {
    let said = catch_unwind(AssertUnwindSafe(call)).expect_err("it did not panic");
    *said.downcast::<String>().expect("a text")
}

/// One random edit, of a vector and of its model.
#[allow(clippy::too_many_lines)]
fn step<T: Word, O: Layout>(
    random: &mut Random,
    bits: &mut BitVec<T, O>,
    model: &mut Vec<bool>,
) -> usize {
    let (len, bit) = (model.len(), random.bit());
    let kind = random.below(32);
    let index = random.below(len + 3);
    match kind {
        0..4 => {
            bits.push(bit);
            model.push(bit);
        }
        4 => assert_eq!(bits.pop(), model.pop()),
        5 | 6 => {
            let expected = if index > len {
                Err(Refusal::Outside { index, len })
            } else {
                Ok(())
            };
            assert_eq!(bits.try_insert(index, bit), expected);
            if index <= len {
                model.insert(index, bit);
            }
        }
        7 | 8 => {
            let expected = if index < len {
                Ok(model.remove(index))
            } else {
                Err(Refusal::Outside { index, len })
            };
            assert_eq!(bits.try_remove(index), expected);
        }
        9 => {
            let expected = if index < len {
                Ok(model.swap_remove(index))
            } else {
                Err(Refusal::Outside { index, len })
            };
            assert_eq!(bits.try_swap_remove(index), expected);
        }
        10 => {
            let rest = bits.try_split_off(index);
            if index > len {
                assert_eq!(rest.err(), Some(Refusal::Outside { index, len }));
            } else {
                assert_eq!(rest.unwrap(), model.split_off(index)[..]);
            }
        }
        11 => {
            let more = truths(random, 150);
            let mut other: BitVec<u16, Msb0> = more.iter().collect();
            bits.append(&mut other);
            assert!(other.is_empty());
            model.extend(more);
        }
        12 => {
            let more = truths(random, 150);
            bits.extend(more.iter());
            model.extend(more);
        }
        13 => {
            let more = truths(random, 150);
            let other: BitVec<u32, Lsb0> = more.iter().copied().collect();
            let part = within(random, more.len());
            bits.extend_from_bitslice(other.get(part.clone()).unwrap());
            model.extend(&more[part]);
        }
        14 => {
            let words: Vec<T> = (0..random.below(3))
                .map(|_| T::of(random.number()))
                .collect();
            if bit {
                bits.extend(words.iter().copied());
            } else {
                bits.extend_from_raw_slice(&words);
            }
            model.extend(bits_of::<T, O>(&words));
        }
        15 => {
            let to = random.below(300);
            bits.resize(to, bit);
            model.resize(to, bit);
        }
        16 => {
            bits.truncate(index);
            model.truncate(index);
        }
        17 => {
            let of = 1 + random.below(4);
            bits.retain(|i, bit| *bit || i % of == 0);
            let mut i = 0;
            model.retain(|bit| {
                i += 1;
                *bit || (i - 1) % of == 0
            });
        }
        18 => {
            let range = within(random, len);
            let drained: Vec<bool> = model.drain(range.clone()).collect();
            assert!(bits.drain(range).eq(drained));
        }
        19 => {
            bits.reserve(index);
            assert!(bits.capacity() >= len + index);
        }
        20 if index < len => {
            bits.set(index, bit);
            model[index] = bit;
        }
        21 => {
            let expected = if index < len {
                Ok(())
            } else {
                Err(Refusal::Outside { index, len })
            };
            assert_eq!(bits.try_set(index, bit), expected);
            if index < len {
                model[index] = bit;
            }
        }
        22 if index < len => {
            *bits.get_mut(index).unwrap() = bit;
            model[index] = bit;
        }
        23 => {
            for (i, mut bit) in bits.iter_mut().enumerate().skip(index) {
                *bit ^= i % 3 == 0;
            }
            for (i, bit) in model.iter_mut().enumerate().skip(index) {
                *bit ^= i % 3 == 0;
            }
        }
        24 => {
            let other = truths(random, 200);
            let there: BitVec<u64, Msb0> = other.iter().collect();
            let it = |i: usize| other.get(i).copied().unwrap_or(false);
            let all = model.iter().copied().enumerate();
            (*model, *bits) = match random.below(4) {
                0 => (
                    all.map(|(i, bit)| bit & it(i)).collect(),
                    bits.clone() & &there,
                ),
                1 => (
                    all.map(|(i, bit)| bit | it(i)).collect(),
                    bits.clone() | there.as_bitslice(),
                ),
                2 => (
                    all.map(|(i, bit)| bit ^ it(i)).collect(),
                    bits.clone() ^ there,
                ),
                _ => (model.iter().map(|bit| !bit).collect(), !bits.clone()),
            };
        }
        25 => {
            let range = within(random, len);
            bits.as_mut_bitslice()
                .get_mut(range.clone())
                .unwrap()
                .reverse();
            model[range].reverse();
        }
        26 => {
            let by = random.below(len + 1);
            bits.rotate_left(by);
            model.rotate_left(by);
        }
        27 if bit && len > 200 => {
            bits.clear();
            model.clear();
        }
        28 => {
            let range = within(random, len);
            let from = random.below(len - range.len() + 1);
            bits.copy_within(range.clone(), from);
            model.copy_within(range, from);
        }
        29 => *bits = bits.to_string().parse().unwrap(),
        30 => *bits = bits.clone().into_boxed_bitslice().into_bitvec(),
        _ => {
            let (whole, kept) = (bits.clone().into_vec(), bits.len());
            *bits = BitVec::from_vec(whole);
            bits.truncate(kept);
        }
    }
    kind
}

/// What is asked of a vector, and of its model.
fn questions<T: Word, O: Layout>(random: &mut Random, bits: &BitVec<T, O>, model: &[bool]) {
    assert_eq!(bits.len(), model.len());
    assert_eq!(*bits, *model);
    assert!(bits.iter().eq(model.iter().copied()));
    assert!(bits.iter().by_vals().eq(model.iter().copied()));
    assert_eq!(bits.count_ones(), model.iter().filter(|bit| **bit).count());
    assert_eq!(bits.first_one(), model.iter().position(|bit| *bit));
    let (index, range) = (random.below(model.len() + 2), within(random, model.len()));
    assert_eq!(bits.get(index).as_deref(), model.get(index));
    let (part, own) = (bits.get(range.clone()).unwrap(), &model[range]);
    assert_eq!(part, *own);
    assert_eq!(part.to_bitvec(), part);
    if random.one_in(16) {
        let copy: BitVec<u8, Msb0> = model.iter().collect();
        assert_eq!(copy, *bits);
        assert_eq!(
            (hash_of(&copy), copy.to_string()),
            (hash_of(bits), bits.to_string())
        );
        let other = truths(random, 20);
        let there: BitVec<u32, Lsb0> = other.iter().collect();
        assert_eq!(bits.partial_cmp(&there), model.partial_cmp(&other[..]));
        assert_eq!(*bits == there, model == other);
        pieces(part, own, 1 + random.below(9));
    }
}

fn listed<T: Word, O: Layout>(bits: BitSlice<'_, T, O>) -> Vec<bool> {
    bits.iter().by_vals().collect()
}

/// The pieces of a slice, as those of its list.
fn pieces<T: Word, O: Layout>(bits: BitSlice<'_, T, O>, list: &[bool], size: usize) {
    assert!(bits.windows(size).map(listed).eq(list.windows(size)));
    assert!(bits.rchunks(size).map(listed).eq(list.rchunks(size)));
    let (exact, own) = (bits.chunks_exact(size), list.chunks_exact(size));
    assert_eq!(exact.remainder(), *own.remainder());
    assert!(exact.rev().map(listed).eq(own.rev()));
    let (some, own) = (bits.windows(size).nth(size), list.windows(size).nth(size));
    assert_eq!(some.map(listed).as_deref(), own);
    let (some, own) = (
        bits.rchunks(size).nth_back(1),
        list.rchunks(size).nth_back(1),
    );
    assert_eq!(some.map(listed).as_deref(), own);
    let mut i = 0;
    let own = list.split(move |bit| {
        i += 1;
        *bit && (i - 1) % 5 != 0
    });
    assert!(bits.split(|i, bit| *bit && i % 5 != 0).map(listed).eq(own));
    let pattern: Vec<bool> = list.iter().rev().take(size).rev().copied().collect();
    let found = (0..=list.len()).find(|i| list[*i..].starts_with(&pattern));
    assert_eq!(
        bits.find(pattern.iter().collect::<BitVec<u8, Msb0>>()),
        found
    );
    assert!(bits.contains(bits.get(list.len() - pattern.len()..).unwrap()));
    match bits.domain() {
        Domain::Enclave(part) => assert_eq!(part, bits),
        Domain::Region { head, body, tail } => {
            let mut all = head.unwrap_or_default().to_bitvec();
            all.extend_from_raw_slice(body);
            all.extend(tail);
            assert_eq!(all, bits);
            let parts = head.iter().chain(tail.iter());
            assert!(parts.map(BitSlice::len).all(|len| 0 < len && len < T::BITS));
        }
    }
}

fn a_vector_is_a_list<T: Word, O: Layout>(random: &mut Random) {
    let (mut bits, mut model) = (BitVec::<T, O>::new(), Vec::new());
    let mut kinds = [0; 32];
    for _ in 0..STEPS {
        kinds[step(random, &mut bits, &mut model)] += 1;
        if model.len() > 1_200 {
            bits.truncate(40);
            model.truncate(40);
        }
        questions(random, &bits, &model);
    }
    assert!(kinds.iter().all(|times| *times > 0), "{kinds:?}");
    let back: Vec<bool> = bits.into_iter().rev().collect();
    assert!(back.iter().rev().eq(model.iter()));
}

/// Bits behind the last, one by one up to 200, and away again.
fn ends_move<T: Word, O: Layout>(random: &mut Random) {
    let (mut bits, mut model) = (BitVec::<T, O>::new(), Vec::new());
    assert_eq!(bits.pop(), None);
    let is_as = |bits: &BitVec<T, O>, model: &[bool]| {
        assert_eq!(bits, model);
        assert_eq!(bits.as_raw_slice().len(), model.len().div_ceil(T::BITS));
    };
    for _ in 0..200 {
        let (last, other) = (random.bit(), random.bit());
        bits.push(!last);
        assert_eq!(bits.pop(), Some(!last));
        is_as(&bits, &model);
        bits.push(last);
        bits.try_push(other).unwrap();
        assert_eq!(bits.pop(), Some(other));
        model.push(last);
        is_as(&bits, &model);
    }
    while let Some(bit) = model.pop() {
        assert_eq!(bits.pop(), Some(bit));
        is_as(&bits, &model);
    }
    assert_eq!(bits.pop(), None);
}

#[test]
fn bits_are_pushed_and_popped_at_each_length() {
    macro_rules! of_words {
        ($($word:ident)*) => { $(
            ends_move::<$word, Lsb0>(&mut Random::new(308));
            ends_move::<$word, Msb0>(&mut Random::new(309));
        )* };
    }
    of_words!(u8 u16 u32 u64 usize);
}

macro_rules! vectors {
    ($($name:ident: $seed:literal, $word:ident, $order:ident;)*) => { $(
        #[test]
        fn $name() {
            a_vector_is_a_list::<$word, $order>(&mut Random::new($seed));
        }
    )* };
}

vectors! {
    a_vector_of_u8_in_lsb0_is_a_list: 301, u8, Lsb0;
    a_vector_of_u8_in_msb0_is_a_list: 302, u8, Msb0;
    a_vector_of_u16_in_lsb0_is_a_list: 303, u16, Lsb0;
    a_vector_of_u32_in_msb0_is_a_list: 304, u32, Msb0;
    a_vector_of_u64_in_lsb0_is_a_list: 305, u64, Lsb0;
    a_vector_of_u64_in_msb0_is_a_list: 306, u64, Msb0;
    a_vector_of_usize_in_lsb0_is_a_list: 307, usize, Lsb0;
}

fn an_array_is_a_list<T: Word, O: Layout, const N: usize>(random: &mut Random) {
    for _ in 0..1_000 {
        let mut words = || [(); N].map(|()| T::of(random.number()));
        let (one, other) = (words(), words());
        let (mut bits, there) = (
            BitArray::<[T; N], O>::new(one),
            BitArray::<[T; N], Msb0>::new(other),
        );
        let (mut model, others) = (bits_of::<T, O>(&one), bits_of::<T, Msb0>(&other));
        let of = |call: fn(bool, bool) -> bool| -> Vec<bool> {
            zip(&model, &others)
                .map(|(here, there)| call(*here, *there))
                .collect()
        };
        assert_eq!(bits & there, of(|here, there| here & there)[..]);
        assert_eq!(bits | there, of(|here, there| here | there)[..]);
        assert_eq!(bits ^ there, of(|here, there| here ^ there)[..]);
        assert_eq!(!bits, of(|here, _| !here)[..]);
        assert_eq!(bits.cmp(&bits.clone()), std::cmp::Ordering::Equal);
        assert_eq!(bits.partial_cmp(&there), model.partial_cmp(&others));
        let (range, index) = (within(random, model.len()), random.below(model.len()));
        bits.get_mut(range.clone()).unwrap().reverse();
        bits.set(index, true);
        model[range].reverse();
        model[index] = true;
        assert_eq!(bits, model[..]);
        assert_eq!(BitArray::<_, O>::from(bits.into_inner()), bits);
    }
}

#[test]
fn an_array_of_any_words_is_a_list() {
    let mut random = Random::new(310);
    an_array_is_a_list::<u8, Lsb0, 1>(&mut random);
    an_array_is_a_list::<u8, Msb0, 7>(&mut random);
    an_array_is_a_list::<u64, Lsb0, 3>(&mut random);
    an_array_is_a_list::<u64, Msb0, 2>(&mut random);
    assert!(BitArray::<[u32; 0], Lsb0>::default().is_empty());
}

/// The first blocks of a list, not before one and from a multiple on, that are all free.
fn first(used: &[bool], from: usize, count: usize, of: usize) -> Option<usize> {
    let are_free = |at: usize| {
        used.get(at..at + count)
            .is_some_and(|it| it.iter().all(|it| !it))
    };
    (from..=used.len()).find(|at| at.is_multiple_of(of) && are_free(*at))
}

fn a_map_hands_out_free_blocks<O: Layout>(random: &mut Random) {
    for _ in 0..400 {
        let mut words: Vec<u64> = random.words();
        let blocks = random.below(words.len() * 64 + 1);
        let behind = bits_of::<u64, O>(&words)[blocks..].to_vec();
        let mut model = bits_of::<u64, O>(&words)[..blocks].to_vec();
        let most = words.len() * 64 + 1;
        assert!(FreeMap::<O>::from_words(&mut words, most).is_err());
        let mut map = FreeMap::<O>::from_words(&mut words, blocks).unwrap();
        for _ in 0..40 {
            let (at, count) = (random.below(blocks + 2), random.below(12));
            let is_used = model
                .get(at..at + count)
                .is_some_and(|it| it.iter().all(|it| *it));
            let is_free = model
                .get(at..at + count)
                .is_some_and(|it| it.iter().all(|it| !it));
            let multiple = random.below(9);
            let (kind, mut handed) = (random.below(6), None);
            match kind {
                0..4 => {
                    let (from, count, of) = match kind {
                        0 => (0, 1, 1),
                        1 => (at, 1, 1),
                        2 => (0, count, 1),
                        _ => (0, count, multiple.max(1)),
                    };
                    let found = first(&model, from, count, of);
                    handed = found.map(|at| at..at + count);
                    assert_eq!(
                        match kind {
                            0 => map.alloc(),
                            1 => map.alloc_at_or_after(at),
                            2 => map.alloc_run(count),
                            _ => map.alloc_run_aligned(count, multiple),
                        },
                        found
                    );
                }
                4 => {
                    assert_eq!(map.is_in_use(at, count), is_used);
                    assert_eq!(map.try_free(at, count).is_ok(), is_used);
                    if is_used {
                        model[at..at + count].fill(false);
                    }
                }
                _ => {
                    assert_eq!(map.is_free(at, count), is_free);
                    assert_eq!(map.reserve(at, count), is_free);
                    if is_free {
                        model[at..at + count].fill(true);
                    }
                }
            }
            if let Some(range) = handed {
                model[range].fill(true);
            }
            let list: Vec<bool> = map
                .iter_free_runs()
                .flat_map(|(at, count)| at..at + count)
                .fold(vec![true; blocks], |mut list, i| {
                    list[i] = false;
                    list
                });
            assert_eq!(list, model);
            assert_eq!(map.count_free(), model.iter().filter(|it| !**it).count());
            assert_eq!(
                map.largest_run(),
                map.iter_free_runs().map(|run| run.1).max().unwrap_or(0)
            );
        }
        assert_eq!(bits_of::<u64, O>(&words)[blocks..], behind);
    }
}

#[test]
fn a_map_hands_out_what_is_free() {
    let mut random = Random::new(311);
    a_map_hands_out_free_blocks::<Lsb0>(&mut random);
    a_map_hands_out_free_blocks::<Msb0>(&mut random);
}

#[test]
fn what_is_refused_is_said_and_changes_nothing() {
    let mut bits = bitvec![u8, Msb0; 1, 0, 1];
    let said = [
        panics(|| bits.insert(4, true)),
        panics(|| assert!(bits.remove(3))),
        panics(|| assert!(bits.swap_remove(3))),
        panics(|| drop(bits.split_off(4))),
        panics(|| drop(bits.drain(2..4))),
        panics(|| bits.set(3, true)),
        panics(|| bits.swap(0, 3)),
        panics(|| bits.rotate_left(4)),
        panics(|| bits.copy_within(2..4, 0)),
        panics(|| bits.resize(usize::MAX, true)),
        panics(|| bits.reserve(usize::MAX)),
        panics(|| assert!(bits[3])),
        panics(|| bits.copy_from_bitslice(bits![1, 1])),
        panics(|| drop(BitVec::<u8, Msb0>::repeat(true, usize::MAX))),
        panics(|| assert_eq!(bits![0; 65].load_le::<u64>(), 0)),
    ];
    let expected = [
        "insert (4, true) of 3 bits: 4 lies outside of 3 bits (`try_insert` answers that)",
        "remove 3 of 3 bits: 3 lies outside of 3 bits (`try_remove` answers that)",
        "swap_remove 3 of 3 bits: 3 lies outside of 3 bits (`try_swap_remove` answers that)",
        "split_off 4 of 3 bits: 4 lies outside of 3 bits (`try_split_off` answers that)",
        "drain (Included(2), Excluded(4)) of 3 bits: 4 lies outside of 3 bits (`try_drain` answers that)",
        "set (3, true) of 3 bits: 3 lies outside of 3 bits (`try_set` answers that)",
        "swap (0, 3) of 3 bits: 3 lies outside of 3 bits (`try_swap` answers that)",
        "rotate_left 4 of 3 bits: 4 lies outside of 3 bits (`try_rotate_left` answers that)",
        "copy_within ((Included(2), Excluded(4)), 0) of 3 bits: 4 lies outside of 3 bits (`try_copy_within` answers that)",
        "resize (18446744073709551615, true) of 3 bits: there is no memory for that many bits (`try_resize` answers that)",
        "reserve () of 18446744073709551615 bits: there is no memory for that many bits (`try_reserve` answers that)",
        "there is no bit 3 in a slice of 3 bits",
        "copy_from_bitslice of 2 bits to 3: these are not as many (`copy_from` answers that)",
        "repeat () of 18446744073709551615 bits: there is no memory for that many bits (`try_repeat` answers that)",
        "load_le () of 65 bits: a number is to have more bits than its type (`try_load_le` answers that)",
    ];
    let greatest = usize::MAX.to_string();
    for (said, expected) in zip(said, expected) {
        assert_eq!(said, expected.replace("18446744073709551615", &greatest));
    }
    assert_eq!(bits.to_string(), "101");
    assert_eq!("1 1".parse::<BitVec>(), Err(Refusal::NotADigit(1)));
}

/// Extends a vector of `len` bits by the bits of `count` words, and then by truth values.
fn extended<T: Word, O: Layout>(random: &mut Random, len: usize, count: usize) {
    let words: Vec<T> = (0..count).map(|_| T::of(random.number())).collect();
    let listed = bits_of::<T, O>(&words);
    let mut model: Vec<bool> = (0..len).map(|_| random.bit()).collect();
    let mut bits: BitVec<T, O> = model.iter().collect();
    bits.extend(words.iter().copied());
    model.extend(&listed);
    assert_eq!(bits, model[..]);
    let some = listed.len() - random.below(T::BITS).min(listed.len());
    bits.extend(&listed[..some]);
    model.extend(&listed[..some]);
    assert_eq!(bits, model[..]);
    assert_eq!(bits.as_raw_slice().len(), model.len().div_ceil(T::BITS));
    assert_eq!(words.into_iter().collect::<BitVec<T, O>>(), listed[..]);
}

#[test]
fn words_and_bits_extend_a_vector_of_any_length() {
    let mut random = Random::new(312);
    for len in (0..=65).chain([127, 128, 129]) {
        for count in [0, 1, 2, 63, 64, 65, 128, 200] {
            extended::<u8, Msb0>(&mut random, len, count);
            extended::<u16, Lsb0>(&mut random, len, count);
            extended::<u32, Msb0>(&mut random, len, count);
            extended::<u64, Lsb0>(&mut random, len, count);
            extended::<usize, Msb0>(&mut random, len, count);
        }
    }
}

#[test]
fn what_an_iterator_gave_before_it_panics_is_there() {
    for len in [0, 3, 8, 16, 19] {
        let ends = |at: usize| move |i: usize| if i == at { panic!("it ends at {i}") } else { i };
        let mut bits = BitVec::<u16, Msb0>::repeat(true, len);
        panics(|| bits.extend((0..200).map(ends(150)).map(|i| i % 3 == 0)));
        let had = bits.len() - len;
        assert!((150 - 64..=150).contains(&had), "{had} of 150 bits");
        let mut model = vec![true; len];
        model.extend((0..had).map(|i| i % 3 == 0));
        assert_eq!(bits, model[..]);
        let word = |i: usize| u16::try_from(i).unwrap().wrapping_mul(40_503);
        panics(|| bits.extend((0..200).map(ends(150)).map(word)));
        let had = (bits.len() - model.len()) / 16;
        assert!((150 - 64..=150).contains(&had), "{had} of 150 words");
        let words: Vec<u16> = (0..had).map(word).collect();
        model.extend(bits_of::<u16, Msb0>(&words));
        assert_eq!(bits, model[..]);
        bits.push(true);
        assert_eq!(bits.len(), model.len() + 1);
    }
}

#[test]
fn macros_write_bits_down() {
    const TWO: usize = 2;
    assert_eq!(
        bits![u8, Lsb0; 0, 1, TWO, 0, 0, 0, 0, 0, 1].to_string(),
        "011000001"
    );
    assert_eq!(bits![1; TWO], bitvec![1; TWO]);
    assert_eq!(bitarr![u16, Msb0; 1, 0, 1].into_inner(), [0xa000]);
    assert_eq!(bitvec![u64, Msb0; 0; 3].to_string(), "000");
    assert_eq!(bitvec![], bits![]);
    assert_eq!(bitbox![1, 0,].len(), 2);
    let flags: BitArr!(for 9, in u8, Msb0) = bitarr![u8, Msb0; 1; 9];
    assert_eq!(flags.into_inner(), [0xff, 0xff]);
}

/// Slices go to other threads as those of words do, and vectors as those of words do.
#[test]
fn other_threads_take_what_they_take_of_words() {
    fn goes<T: Send + Sync>() {}
    goes::<BitSlice<'_, u8, Lsb0>>();
    goes::<BitSliceMut<'_, u64, Msb0>>();
    goes::<BitVec<u16, Lsb0>>();
    goes::<BitBox<u32, Msb0>>();
    goes::<BitArray<[u8; 2], Lsb0>>();
}
