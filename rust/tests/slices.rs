//! Each call on slices against the model: its answer or its refusal, and every bit of the memory
//! after it.

mod common;

use common::{CASES, Layout, Random, Word, bits_of, for_all_edges, for_all_memories};
use std::ops::Bound;
use worghulen::{BitSlice, BitSliceMut, Lsb0, Msb0, Refusal, copy_bits};

for_all_memories!(a_slice_has_the_bits_of_its_range, 1);
for_all_memories!(get_reads_one_bit, 2);
for_all_memories!(set_writes_one_bit, 3);
for_all_memories!(fill_makes_all_bits_the_same, 4);
for_all_memories!(load_le_reads_a_number, 5);
for_all_memories!(load_be_reads_a_number, 6);
for_all_memories!(store_le_writes_a_number, 7);
for_all_memories!(store_be_writes_a_number, 8);
for_all_memories!(count_ones_counts, 9);
for_all_memories!(first_one_finds_the_first, 10);
for_all_memories!(iter_ones_finds_all, 11);
for_all_memories!(equals_compares_all_bits, 12);
for_all_memories!(copy_from_copies_all_bits, 13);
for_all_memories!(copy_within_moves_bits, 14);
for_all_memories!(copy_bits_copies_a_range, 15);
for_all_edges!(all_ones_and_zeros_are_listed, 16);
for_all_edges!(numbers_are_loaded_from_each_place, 17);

mod cases {
    use crate::common::{Layout, Random, Word, bits_of, checked, moved, word_and_digit};
    use std::cmp::Reverse;
    use std::ops::Range;
    use worghulen::{BitSlice, BitSliceMut, Refusal, copy_bits};

    pub fn a_slice_has_the_bits_of_its_range<T: Word, O: Layout>(random: &mut Random) {
        let mut words = random.words::<T>();
        let model = bits_of::<T, O>(&words);
        let range = random.range(model.len());
        let expected = checked(&range, model.len()).map(|range| model[range].to_vec());
        let len = expected.as_ref().map(Vec::len).map_err(|it| *it);
        let answer = BitSlice::<T, O>::new(&words, range.clone());
        assert_eq!(answer.map(|bits| bits.len()), len);
        assert_eq!(answer.map(|bits| bits.is_empty()), len.map(|len| len == 0));
        let read = |bits: BitSlice<T, O>| {
            let bit = |i| bits.get(i).map(bool::from);
            (0..bits.len()).map_while(bit).collect()
        };
        assert_eq!(answer.map(read), expected);
        let answer = BitSliceMut::<T, O>::new(&mut words, range);
        assert_eq!(answer.map(|bits| read(bits.as_bitslice())), expected);
    }

    pub fn get_reads_one_bit<T: Word, O: Layout>(random: &mut Random) {
        let words = random.words::<T>();
        let model = bits_of::<T, O>(&words);
        let range = random.range(model.len());
        let Ok(bits) = BitSlice::<T, O>::new(&words, range.clone()) else {
            return;
        };
        let index = random.place(range.len());
        assert_eq!(bits.get(index).as_deref(), model[range].get(index));
    }

    pub fn set_writes_one_bit<T: Word, O: Layout>(random: &mut Random) {
        let mut words = random.words::<T>();
        let mut model = bits_of::<T, O>(&words);
        let range = random.range(model.len());
        let (index, bit) = (random.place(range.len()), random.bit());
        let answer = BitSliceMut::<T, O>::new(&mut words, range.clone())
            .and_then(|mut bits| bits.try_set(index, bit));
        let expected = checked(&range, model.len()).and_then(|range| {
            let len = range.len();
            let outside = Refusal::Outside { index, len };
            let place = model[range].get_mut(index).ok_or(outside)?;
            *place = bit;
            Ok(())
        });
        assert_eq!(answer, expected);
        assert_eq!(bits_of::<T, O>(&words), model);
    }

    pub fn fill_makes_all_bits_the_same<T: Word, O: Layout>(random: &mut Random) {
        let mut words = random.words::<T>();
        let mut model = bits_of::<T, O>(&words);
        let (range, bit) = (random.range(model.len()), random.bit());
        let answer =
            BitSliceMut::<T, O>::new(&mut words, range.clone()).map(|mut bits| bits.fill(bit));
        let expected = checked(&range, model.len()).map(|range| model[range].fill(bit));
        assert_eq!(answer, expected);
        assert_eq!(bits_of::<T, O>(&words), model);
    }

    /// The places of a range from that of the number's least digit on.
    fn by_digit<T: Word, O: Layout>(range: Range<usize>, big: bool) -> Vec<usize> {
        let mut places: Vec<_> = range.collect();
        places.sort_by_key(|place| word_and_digit::<T, O>(*place).1);
        if big {
            places.sort_by_key(|place| Reverse(place / T::BITS));
        } else {
            places.sort_by_key(|place| place / T::BITS);
        }
        places
    }

    /// A range of a number where it lies among `len` bits.
    fn checked_number(range: &Range<usize>, len: usize) -> Result<Range<usize>, Refusal> {
        let range = checked(range, len)?;
        if range.len() > 64 {
            return Err(Refusal::TooWide);
        }
        Ok(range)
    }

    fn loads<T: Word, O: Layout>(random: &mut Random, big: bool) {
        let words = random.words::<T>();
        let model = bits_of::<T, O>(&words);
        let range = random.short_range(model.len());
        let answer = BitSlice::<T, O>::new(&words, range.clone()).and_then(|bits| {
            if big {
                bits.try_load_be()
            } else {
                bits.try_load_le()
            }
        });
        let expected = checked_number(&range, model.len()).map(|range| {
            let places = by_digit::<T, O>(range, big).into_iter().rev();
            places.fold(0, |number, place| number << 1 | u64::from(model[place]))
        });
        assert_eq!(answer, expected);
    }

    fn stores<T: Word, O: Layout>(random: &mut Random, big: bool) {
        let mut words = random.words::<T>();
        let mut model = bits_of::<T, O>(&words);
        let range = random.short_range(model.len());
        let number = random.number() >> random.below(64);
        let answer = BitSliceMut::<T, O>::new(&mut words, range.clone()).and_then(|mut bits| {
            if big {
                bits.try_store_be(number)
            } else {
                bits.try_store_le(number)
            }
        });
        let expected = checked_number(&range, model.len()).and_then(|range| {
            if u128::from(number) >> range.len() != 0 {
                return Err(Refusal::TooLarge);
            }
            let places = by_digit::<T, O>(range, big).into_iter().enumerate();
            places.for_each(|(digit, place)| model[place] = number >> digit & 1 == 1);
            Ok(())
        });
        assert_eq!(answer, expected);
        assert_eq!(bits_of::<T, O>(&words), model);
    }

    /// The number of places, of as many digits as the type has at most.
    fn loaded<T: Word, O: Layout>(
        model: &[bool],
        range: Range<usize>,
        big: bool,
        width: usize,
    ) -> Result<u64, Refusal> {
        if range.len() > width {
            return Err(Refusal::TooWide);
        }
        let places = by_digit::<T, O>(range, big).into_iter().rev();
        let bits = places.map(|place| u64::from(model[place]));
        Ok(bits.fold(0, |number, bit| number << 1 | bit))
    }

    pub fn numbers_are_loaded_from_each_place<T: Word, O: Layout>(
        random: &mut Random,
        range: Range<usize>,
    ) {
        let count = range.end.div_ceil(T::BITS) + random.below(3);
        let words: Vec<T> = (0..count).map(|_| T::of(random.number())).collect();
        let model = bits_of::<T, O>(&words);
        let bits = BitSlice::<T, O>::new(&words, range.clone()).unwrap();
        let number = |big, width| loaded::<T, O>(&model, range.clone(), big, width);
        assert_eq!(bits.try_load_be::<u64>(), number(true, 64));
        assert_eq!(bits.try_load_le::<u64>(), number(false, 64));
        assert_eq!(bits.try_load_be::<u8>().map(u64::from), number(true, 8));
        assert_eq!(bits.try_load_le::<u32>().map(u64::from), number(false, 32));
        let above = 64 - range.len().clamp(1, 64);
        let signed = |number: u64| (number << above).cast_signed() >> above;
        assert_eq!(bits.try_load_be::<i64>(), number(true, 64).map(signed));
        assert_eq!(
            bits.try_load_le::<i16>().map(i64::from),
            number(false, 16).map(signed)
        );
    }

    pub fn load_le_reads_a_number<T: Word, O: Layout>(random: &mut Random) {
        loads::<T, O>(random, false);
    }

    pub fn load_be_reads_a_number<T: Word, O: Layout>(random: &mut Random) {
        loads::<T, O>(random, true);
    }

    pub fn store_le_writes_a_number<T: Word, O: Layout>(random: &mut Random) {
        stores::<T, O>(random, false);
    }

    pub fn store_be_writes_a_number<T: Word, O: Layout>(random: &mut Random) {
        stores::<T, O>(random, true);
    }

    pub fn count_ones_counts<T: Word, O: Layout>(random: &mut Random) {
        let words = random.words::<T>();
        let model = bits_of::<T, O>(&words);
        let range = random.range(model.len());
        let answer = BitSlice::<T, O>::new(&words, range.clone()).map(|bits| bits.count_ones());
        let expected = checked(&range, model.len())
            .map(|range| model[range].iter().filter(|bit| **bit).count());
        assert_eq!(answer, expected);
    }

    pub fn first_one_finds_the_first<T: Word, O: Layout>(random: &mut Random) {
        let words = random.words::<T>();
        let model = bits_of::<T, O>(&words);
        let range = random.range(model.len());
        let answer = BitSlice::<T, O>::new(&words, range.clone()).map(|bits| bits.first_one());
        let expected =
            checked(&range, model.len()).map(|range| model[range].iter().position(|bit| *bit));
        assert_eq!(answer, expected);
    }

    pub fn iter_ones_finds_all<T: Word, O: Layout>(random: &mut Random) {
        let words = random.words::<T>();
        let model = bits_of::<T, O>(&words);
        let range = random.range(model.len());
        let Ok(bits) = BitSlice::<T, O>::new(&words, range.clone()) else {
            return;
        };
        let bit_of = |index: &usize| model[range.start + index];
        let expected: Vec<_> = (0..range.len()).filter(bit_of).collect();
        let mut ones = bits.iter_ones();
        assert_eq!(ones.by_ref().collect::<Vec<_>>(), expected);
        assert_eq!(ones.next(), None);
    }

    pub fn all_ones_and_zeros_are_listed<T: Word, O: Layout>(
        random: &mut Random,
        range: Range<usize>,
    ) {
        let mask = [0, 1, !0][random.below(3)];
        let count = range.end.div_ceil(T::BITS) + random.below(3);
        let words: Vec<T> = (0..count)
            .map(|_| T::of(random.number() & mask ^ mask << 7))
            .collect();
        let list = &bits_of::<T, O>(&words)[range.clone()];
        let bits = BitSlice::<T, O>::new(&words, range).unwrap();
        let of = |bit| -> Vec<usize> { (0..list.len()).filter(|i| list[*i] == bit).collect() };
        let (mut ones, mut zeros) = (vec![], vec![]);
        bits.iter_ones().for_each(|index| ones.push(index));
        bits.iter_zeros().for_each(|index| zeros.push(index));
        assert_eq!((ones, zeros), (of(true), of(false)));
        // (behind some that were taken from both ends)
        let (mut some, mut own) = (bits.iter_zeros(), of(false).into_iter());
        assert_eq!(some.next(), own.next());
        assert_eq!(some.next_back(), own.next_back());
        let mut left = vec![];
        some.for_each(|index| left.push(index));
        assert!(left.into_iter().eq(own));
    }

    pub fn equals_compares_all_bits<T: Word, O: Layout>(random: &mut Random) {
        let words = random.words::<T>();
        let mut others = random.words::<T>();
        let range = random.range(words.len() * T::BITS);
        let mut start = random.start(range.len(), others.len() * T::BITS);
        if !random.one_in(4) {
            // mostly the same bits, at the same place, but for one
            others.clone_from(&words);
            start = range.start;
            if let Some(word) = others.last_mut() {
                *word = T::of(word.number() ^ u64::from(random.bit()));
            }
        }
        let (model, other_model) = (bits_of::<T, O>(&words), bits_of::<T, O>(&others));
        let Ok(bits) = BitSlice::<T, O>::new(&words, range.clone()) else {
            return;
        };
        let other_range = moved(&range, start, other_model.len()).unwrap_or(0..other_model.len());
        let other = BitSlice::<T, O>::new(&others, other_range.clone()).unwrap();
        let expected = model[range] == other_model[other_range];
        assert_eq!(bits.equals(&other), expected);
        assert_eq!(bits == other, expected);
    }

    pub fn copy_from_copies_all_bits<T: Word, O: Layout>(random: &mut Random) {
        let (source, mut target) = (random.words::<T>(), random.words::<T>());
        let (read, mut model) = (bits_of::<T, O>(&source), bits_of::<T, O>(&target));
        let from = random.range(read.len());
        let start = random.start(from.len(), model.len());
        let to = moved(&from, start, model.len()).unwrap_or_else(|_| random.range(model.len()));
        let (Ok(source), Ok(mut bits)) = (
            BitSlice::<T, O>::new(&source, from.clone()),
            BitSliceMut::<T, O>::new(&mut target, to.clone()),
        ) else {
            return;
        };
        let expected = if from.len() == to.len() {
            model[to].copy_from_slice(&read[from]);
            Ok(())
        } else {
            let (len, other) = (to.len(), from.len());
            Err(Refusal::Lengths { len, other })
        };
        assert_eq!(bits.copy_from(source), expected);
        assert_eq!(bits_of::<T, O>(&target), model);
    }

    pub fn copy_within_moves_bits<T: Word, O: Layout>(random: &mut Random) {
        let mut words = random.words::<T>();
        let mut model = bits_of::<T, O>(&words);
        let range = random.range(model.len());
        let Ok(mut bits) = BitSliceMut::<T, O>::new(&mut words, range.clone()) else {
            return;
        };
        let source = random.range(range.len());
        let start = random.start(source.len(), range.len());
        let expected = checked(&source, range.len()).and_then(|source| {
            moved(&source, start, range.len())?;
            model[range].copy_within(source, start);
            Ok(())
        });
        assert_eq!(bits.try_copy_within(source, start), expected);
        assert_eq!(bits_of::<T, O>(&words), model);
    }

    pub fn copy_bits_copies_a_range<T: Word, O: Layout>(random: &mut Random) {
        let (source, mut target) = (random.words::<T>(), random.words::<T>());
        let (read, mut model) = (bits_of::<T, O>(&source), bits_of::<T, O>(&target));
        let from = random.range(read.len());
        let start = random.start(from.len(), model.len());
        let expected = checked(&from, read.len()).and_then(|from| {
            let to = moved(&from, start, model.len())?;
            model[to].copy_from_slice(&read[from]);
            Ok(())
        });
        let answer = copy_bits::<T, O>(&source, from, &mut target, start);
        assert_eq!(answer, expected);
        assert_eq!(bits_of::<T, O>(&target), model);
    }
}

/// Copies and compares `len` bits, of words of which many lie whole in the ranges, from two places on:
/// what std's slices copy and compare.
fn many_words_move<T: Word, O: Layout>(random: &mut Random, from: usize, to: usize, len: usize) {
    let words = |random: &mut Random, bits: usize| -> Vec<T> {
        let count = bits.div_ceil(T::BITS) + random.below(3);
        (0..count).map(|_| T::of(random.number())).collect()
    };
    let (source, mut target) = (words(random, from + len), words(random, to + len));
    let (read, mut model) = (bits_of::<T, O>(&source), bits_of::<T, O>(&target));
    let bits = BitSlice::<T, O>::new(&source, from..from + len).unwrap();
    let mut copy = BitSliceMut::<T, O>::new(&mut target, to..to + len).unwrap();
    copy.copy_from(bits).unwrap();
    assert!(bits == copy);
    model[to..to + len].copy_from_slice(&read[from..from + len]);
    assert_eq!(bits_of::<T, O>(&target), model);
    let mut again = words(random, to + len);
    let mut other = bits_of::<T, O>(&again);
    copy_bits::<T, O>(&source, from..from + len, &mut again, to).unwrap();
    other[to..to + len].copy_from_slice(&read[from..from + len]);
    assert_eq!(bits_of::<T, O>(&again), other);
    let past = other.len() - len + 1;
    let refused = copy_bits::<T, O>(&source, from..from + len, &mut again, past);
    let outside = |len| Refusal::Outside {
        index: len + 1,
        len,
    };
    assert_eq!(refused, Err(outside(other.len())));
    assert_eq!(bits_of::<T, O>(&again), other);
    for place in [to, to + random.below(len), to + len - 1] {
        let mut all = BitSlice::<T, O>::from_slice_mut(&mut target);
        all.set(place, !model[place]);
        assert!(bits != all.part(to..to + len).unwrap());
        all.set(place, model[place]);
    }
    for place in [to.wrapping_sub(1), to + len] {
        let mut all = BitSlice::<T, O>::from_slice_mut(&mut target);
        if let Some(mut bit) = all.get_mut(place) {
            *bit = !*bit;
        }
        assert!(bits == all.part(to..to + len).unwrap());
    }
}

fn many_words<T: Word, O: Layout>(random: &mut Random) {
    for words in [63, 64, 65, 130] {
        for from in 0..T::BITS {
            let len = words * T::BITS + random.below(2 * T::BITS);
            let near = from + T::BITS * random.below(3);
            for to in [near, near + 1, random.below(3 * T::BITS)] {
                many_words_move::<T, O>(random, from, to, len);
                many_words_move::<T, O>(random, to, from, words * T::BITS);
            }
        }
    }
}

#[test]
fn many_words_are_copied_and_compared_from_any_places() {
    let mut random = Random::new(36);
    many_words::<u8, Lsb0>(&mut random);
    many_words::<u8, Msb0>(&mut random);
    many_words::<u16, Msb0>(&mut random);
    many_words::<u32, Lsb0>(&mut random);
    many_words::<u64, Lsb0>(&mut random);
    many_words::<u64, Msb0>(&mut random);
    many_words::<usize, Msb0>(&mut random);
}

/// Combines ranges of some 4 KiB, whose words begin at each place of 16 bytes.
fn many_words_are_combined<T: Word, O: Layout>(random: &mut Random) {
    const BITS: usize = 1 << 15;
    let words = |random: &mut Random| -> Vec<T> {
        let words = 0..BITS / T::BITS + 40;
        words.map(|_| T::of(random.number())).collect()
    };
    let (source, before) = (words(random), words(random));
    let (read, list) = (bits_of::<T, O>(&source), bits_of::<T, O>(&before));
    for skip in 0..17 {
        let (from, to) = (
            random.below(9 * T::BITS),
            skip * T::BITS + random.below(T::BITS),
        );
        let len = BITS - 1 + random.below(20 * T::BITS);
        let (mut target, mut model) = (before.clone(), list.clone());
        let bits = BitSlice::<T, O>::new(&source, from..from + len).unwrap();
        let mut part = BitSliceMut::<T, O>::new(&mut target, to..to + len).unwrap();
        let operator: fn(bool, bool) -> bool = match skip % 4 {
            0 => {
                part &= bits;
                |here, there| here & there
            }
            1 => {
                part |= bits;
                |here, there| here | there
            }
            2 => {
                part ^= bits;
                |here, there| here ^ there
            }
            _ => {
                part.and_not_from(bits).unwrap();
                |here, there| here && !there
            }
        };
        for (bit, other) in model[to..to + len].iter_mut().zip(&read[from..]) {
            *bit = operator(*bit, *other);
        }
        assert_eq!(bits_of::<T, O>(&target), model);
    }
}

#[test]
fn many_words_are_combined_at_any_places() {
    let mut random = Random::new(71);
    many_words_are_combined::<u8, Lsb0>(&mut random);
    many_words_are_combined::<u8, Msb0>(&mut random);
    many_words_are_combined::<u16, Msb0>(&mut random);
    many_words_are_combined::<u32, Lsb0>(&mut random);
    many_words_are_combined::<u64, Lsb0>(&mut random);
    many_words_are_combined::<u64, Msb0>(&mut random);
    many_words_are_combined::<usize, Msb0>(&mut random);
}

#[test]
fn a_range_has_any_bounds() {
    let words = [0b1011_0010_u8, 0b0100_1101];
    let bits = BitSlice::<_, Lsb0>::new(&words, ..).unwrap();
    assert_eq!(bits.len(), 16);
    let of = |start, end| BitSlice::<_, Lsb0>::new(&words, (start, end));
    let (included, excluded) = (Bound::Included, Bound::Excluded);
    let (all, last) = (Bound::Unbounded, usize::MAX);
    assert_eq!(of(included(3), all), BitSlice::new(&words, 3..16));
    assert_eq!(of(excluded(3), included(15)), BitSlice::new(&words, 4..16));
    assert_eq!(of(excluded(3), excluded(3)), Err(Refusal::Reversed));
    let outside = |index| Err(Refusal::Outside { index, len: 16 });
    assert_eq!(of(included(3), included(16)), outside(17));
    assert_eq!(of(included(last - 3), included(last)), outside(last));
    assert_eq!(of(excluded(last), all), outside(last));
    assert_eq!(of(all, excluded(last)), Err(Refusal::TooLong));
}

#[test]
fn bits_have_a_text() {
    let mut words = [0b1011_0010_u8];
    let bits = BitSliceMut::<_, Msb0>::new(&mut words, 2..6).unwrap();
    assert_eq!(format!("{bits:?}"), "[1, 1, 0, 0]");
}

/// Reads and writes the bit at each index near either end of each range of three words, and at the
/// greatest indices, whose places would be past the greatest.
fn single_bits_of_each_range<O: Layout>() {
    let model = bits_of::<u8, O>(&[0x5a, 0xc3, 0x96]);
    for (start, end) in (0..=24).flat_map(|end| (0..=end).map(move |start| (start, end))) {
        let len = end - start;
        for index in (0..=len + 17).chain(usize::MAX - 32..=usize::MAX) {
            let mut words = [0x5a, 0xc3, 0x96];
            let mut bits = BitSliceMut::<u8, O>::new(&mut words, start..end).unwrap();
            let expected = model[start..end].get(index).copied();
            let read = bits.as_bitslice().get(index).map(bool::from);
            assert_eq!(read, expected, "{index} of {start}..{end}");
            let outside = Refusal::Outside { index, len };
            let written = bits.try_set(index, expected != Some(true));
            assert_eq!(written, expected.map(|_| ()).ok_or(outside));
            let mut model = model.clone();
            if let Some(bit) = expected {
                model[start + index] = !bit;
            }
            assert_eq!(bits_of::<u8, O>(&words), model, "{index} of {start}..{end}");
        }
    }
}

#[test]
fn a_bit_is_among_those_of_its_range() {
    single_bits_of_each_range::<Lsb0>();
    single_bits_of_each_range::<Msb0>();
}
