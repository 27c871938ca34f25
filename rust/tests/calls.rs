//! Parts, iterators, what is found, texts, comparisons, edits and sets, against the model.

mod common;

use common::{CASES, Random, for_all_memories};
use std::cmp::Ordering;
use std::collections::HashSet;
use std::hash::{DefaultHasher, Hash, Hasher};
use worghulen::{
    BitSlice, BitSliceMut, BitView, Lsb0, Msb0, Number, Order, Refusal, Register, Spans,
};

for_all_memories!(parts_have_the_bits_of_their_ranges, 21);
for_all_memories!(bits_come_from_both_ends, 22);
for_all_memories!(ones_and_zeros_come_from_both_ends, 23);
for_all_memories!(what_is_found_is_there, 24);
for_all_memories!(texts_have_the_bits, 25);
for_all_memories!(slices_compare_as_lists, 26);
for_all_memories!(sets_are_asked, 27);
for_all_memories!(copies_turn_words_and_orders, 28);
for_all_memories!(sets_combine, 29);
for_all_memories!(bits_are_edited, 30);
for_all_memories!(bits_are_moved, 31);
for_all_memories!(parts_are_lent, 32);
for_all_memories!(numbers_have_types, 33);
for_all_memories!(folds_go_over_blocks, 34);

mod cases {
    use crate::common::{Layout, Random, Word, bits_of, checked, with_any_other};
    use std::cmp::Ordering;
    use std::hash::{DefaultHasher, Hash, Hasher};
    use std::ops::Range;
    use worghulen::{BitRef, BitSlice, BitSliceMut, BitWriter, Lsb0, Msb0, Number, Refusal};

    /// A range that lies among `len` bits.
    fn inner(random: &mut Random, len: usize) -> Range<usize> {
        let range = random.range(len);
        checked(&range, len).unwrap_or(0..len)
    }

    /// Words, a range among their bits, and the bits of the range.
    fn case<T: Word, O: Layout>(random: &mut Random) -> (Vec<T>, Range<usize>, Vec<bool>) {
        let words = random.words::<T>();
        let bits = bits_of::<T, O>(&words);
        let range = inner(random, bits.len());
        let model = bits[range.clone()].to_vec();
        (words, range, model)
    }

    fn list<T: Word, O: Layout>(bits: BitSlice<'_, T, O>) -> Vec<bool> {
        (0..bits.len()).map(|i| bits[i]).collect()
    }

    pub fn parts_have_the_bits_of_their_ranges<T: Word, O: Layout>(random: &mut Random) {
        let (words, range, model) = case::<T, O>(random);
        let bits = BitSlice::<T, O>::new(&words, range).unwrap();
        let part = random.range(model.len());
        let expected = checked(&part, model.len()).map(|it| model[it].to_vec());
        assert_eq!(bits.part(part.clone()).map(list), expected);
        assert_eq!(bits.get(part).map(list), expected.ok());
        let mid = random.place(model.len());
        assert_eq!(bits.get(mid).as_deref(), model.get(mid));
        assert_eq!(
            bits.get(..mid).map(list),
            model.get(..mid).map(<[bool]>::to_vec)
        );
        assert_eq!(
            bits.get(mid..).map(list),
            model.get(mid..).map(<[bool]>::to_vec)
        );
        assert_eq!(
            bits.get(..=mid).map(list),
            model.get(..=mid).map(<[bool]>::to_vec)
        );
        let parts = bits.split_at_checked(mid).map(|(a, b)| (list(a), list(b)));
        assert_eq!(
            parts,
            model
                .split_at_checked(mid)
                .map(|(a, b)| (a.to_vec(), b.to_vec()))
        );
        assert_eq!(bits.first().as_deref(), model.first());
        assert_eq!(bits.last().as_deref(), model.last());
        let split = bits.split_first().map(|(bit, rest)| (*bit, list(rest)));
        assert_eq!(
            split,
            model.split_first().map(|(bit, rest)| (*bit, rest.to_vec()))
        );
        let split = bits.split_last().map(|(bit, rest)| (*bit, list(rest)));
        assert_eq!(
            split,
            model.split_last().map(|(bit, rest)| (*bit, rest.to_vec()))
        );
        let size = 1 + random.below(80);
        assert!(
            bits.chunks(size)
                .map(list)
                .eq(model.chunks(size).map(<[bool]>::to_vec))
        );
        let back = bits.chunks(size).rev().map(list);
        assert!(back.eq(model.chunks(size).rev().map(<[bool]>::to_vec)));
        let (chunks, lists) = (bits.chunks(size), model.chunks(size));
        assert_eq!(chunks.len(), lists.len());
        assert_eq!(chunks.clone().count(), lists.len());
        assert_eq!(
            chunks.clone().last().map(list),
            lists.clone().last().map(<[bool]>::to_vec)
        );
        same_from_both_ends(random, chunks.map(list), lists.map(<[bool]>::to_vec));
    }

    /// Takes from both ends, in any turns, what an iterator and its model have.
    fn same_from_both_ends<I: PartialEq + std::fmt::Debug>(
        random: &mut Random,
        mut ours: impl DoubleEndedIterator<Item = I>,
        mut theirs: impl DoubleEndedIterator<Item = I> + Clone,
    ) {
        loop {
            let (low, high) = ours.size_hint();
            let left = theirs.clone().count();
            assert!(low <= left && high.is_none_or(|high| left <= high));
            let n = random.below(70);
            let (one, other) = match random.below(4) {
                0 => (ours.next(), theirs.next()),
                1 => (ours.next_back(), theirs.next_back()),
                2 => (ours.nth(n), theirs.nth(n)),
                _ => (ours.nth_back(n), theirs.nth_back(n)),
            };
            assert_eq!(one, other);
            if one.is_none() {
                assert_eq!((ours.next(), ours.next_back()), (None, None));
                return;
            }
        }
    }

    pub fn bits_come_from_both_ends<T: Word, O: Layout>(random: &mut Random) {
        let (mut words, range, model) = case::<T, O>(random);
        let bits = BitSlice::<T, O>::new(&words, range.clone()).unwrap();
        same_from_both_ends(random, bits.iter().by_vals(), model.iter().copied());
        let behind = bits.iter().map(|bit| *bit);
        same_from_both_ends(random, behind, model.iter().copied());
        same_from_both_ends(random, bits.iter().by_refs(), model.iter());
        let proxies = model.iter().map(|bit| BitRef::from(*bit));
        same_from_both_ends(random, bits.iter(), proxies);
        let mut iter = bits.iter().by_vals();
        let mut left = model.iter().copied();
        for _ in 0..random.below(9) {
            assert_eq!(iter.len(), left.len());
            if random.bit() {
                assert_eq!(iter.next(), left.next());
            } else {
                assert_eq!(iter.next_back(), left.next_back());
            }
        }
        assert_eq!(iter.clone().last(), left.clone().last());
        assert_eq!(iter.clone().count(), left.len());
        let mut folded = Vec::new();
        iter.for_each(|bit| folded.push(bit));
        assert_eq!(folded, left.collect::<Vec<_>>());
        let mut turned = bits.into_iter().rev().collect::<Vec<_>>();
        turned.reverse();
        assert_eq!(turned, model);
        assert_eq!(bits, model[..]);
        let bits = BitSliceMut::<T, O>::new(&mut words, range).unwrap();
        let mut seen = Vec::new();
        for bit in &bits {
            seen.push(bit);
        }
        assert_eq!(seen, model);
    }

    pub fn ones_and_zeros_come_from_both_ends<T: Word, O: Layout>(random: &mut Random) {
        let (words, range, model) = case::<T, O>(random);
        let bits = BitSlice::<T, O>::new(&words, range).unwrap();
        let of = |bit| {
            (0..model.len())
                .filter(|i| model[*i] == bit)
                .collect::<Vec<_>>()
        };
        let (ones, zeros) = (of(true), of(false));
        same_from_both_ends(random, bits.iter_ones(), ones.iter().copied());
        same_from_both_ends(random, bits.iter_zeros(), zeros.iter().copied());
        let (mut some, mut other) = (bits.iter_ones(), bits.iter_zeros());
        let mut left = (ones.iter().copied(), zeros.iter().copied());
        for _ in 0..random.below(9) {
            if random.bit() {
                assert_eq!(some.next(), left.0.next());
                assert_eq!(other.next_back(), left.1.next_back());
            } else {
                assert_eq!(some.next_back(), left.0.next_back());
                assert_eq!(other.next(), left.1.next());
            }
        }
        let (mut ones_left, mut zeros_left) = (Vec::new(), Vec::new());
        some.clone().for_each(|index| ones_left.push(index));
        other.clone().for_each(|index| zeros_left.push(index));
        assert_eq!((some.count(), other.count()), (left.0.len(), left.1.len()));
        assert_eq!(ones_left, left.0.collect::<Vec<_>>());
        assert_eq!(zeros_left, left.1.collect::<Vec<_>>());
        assert_eq!(bits.iter_ones().last(), ones.last().copied());
        assert_eq!(bits.iter_zeros().last(), zeros.last().copied());
    }

    /// What was read in one call of many words, from any place on.
    pub fn folds_go_over_blocks<T: Word, O: Layout>(random: &mut Random) {
        if !random.one_in(64) {
            return;
        }
        let (kind, run) = (random.below(4), 1 + random.below(1500 / T::BITS));
        let word = |i: usize| match kind {
            0 => T::of(u64::MAX),
            1 if !random.one_in(40) => T::of(0),
            2 if (i / run).is_multiple_of(2) => T::of(0),
            _ => T::of(random.number()),
        };
        let words: Vec<T> = (0..4096 / T::BITS).map(word).collect();
        let range = inner(random, 4096);
        let model = bits_of::<T, O>(&words)[range.clone()].to_vec();
        let bits = BitSlice::<T, O>::new(&words, range).unwrap();
        let (mut iter, mut left) = (bits.iter().by_vals(), model.iter().copied());
        for _ in 0..random.below(9) {
            assert_eq!(iter.next(), left.next());
            assert_eq!(iter.next_back(), left.next_back());
        }
        let mut folded = Vec::new();
        iter.for_each(|bit| folded.push(bit));
        assert_eq!(folded, left.collect::<Vec<_>>());
        let of = |bit| {
            (0..model.len())
                .filter(|i| model[*i] == bit)
                .collect::<Vec<_>>()
        };
        let (mut ones, mut zeros) = (Vec::new(), Vec::new());
        bits.iter_ones().for_each(|index| ones.push(index));
        bits.iter_zeros().for_each(|index| zeros.push(index));
        assert_eq!((ones, zeros), (of(true), of(false)));
    }

    pub fn what_is_found_is_there<T: Word, O: Layout>(random: &mut Random) {
        let (mut words, range, model) = case::<T, O>(random);
        let bits = BitSliceMut::<T, O>::new(&mut words, range).unwrap();
        let ones = model.iter().filter(|bit| **bit).count();
        assert_eq!(
            (bits.count_ones(), bits.count_zeros()),
            (ones, model.len() - ones)
        );
        let first = |bit| model.iter().position(|it| *it == bit);
        let last = |bit| model.iter().rposition(|it| *it == bit);
        assert_eq!(
            (bits.first_one(), bits.first_zero()),
            (first(true), first(false))
        );
        assert_eq!(
            (bits.last_one(), bits.last_zero()),
            (last(true), last(false))
        );
        let leading = |bit| model.iter().take_while(|it| **it == bit).count();
        let trailing = |bit| model.iter().rev().take_while(|it| **it == bit).count();
        assert_eq!(
            (bits.leading_ones(), bits.leading_zeros()),
            (leading(true), leading(false))
        );
        assert_eq!(
            (bits.trailing_ones(), bits.trailing_zeros()),
            (trailing(true), trailing(false))
        );
        let from = random.place(model.len());
        let next = |bit| {
            model
                .get(from..)?
                .iter()
                .position(|it| *it == bit)
                .map(|i| from + i)
        };
        assert_eq!(
            (bits.next_one(from), bits.next_zero(from)),
            (next(true), next(false))
        );
        let upto = from.min(model.len());
        let previous = |bit| model[..upto].iter().rposition(|it| *it == bit);
        assert_eq!(
            (bits.previous_one(from), bits.previous_zero(from)),
            (previous(true), previous(false))
        );
        let run = if random.bit() {
            random.below(9)
        } else {
            random.place(model.len())
        };
        let free = (0..=model.len()).find(|i| {
            let end = i.checked_add(run);
            end.and_then(|end| model.get(*i..end))
                .is_some_and(|bits| !bits.contains(&true))
        });
        assert_eq!(bits.find_zeros(run), free);
        let (from, of) = (random.place(model.len()), random.below(9));
        let free = (0..=model.len()).find(|i| {
            let end = i.checked_add(run);
            from <= *i
                && i % of.max(1) == 0
                && end
                    .and_then(|end| model.get(*i..end))
                    .is_some_and(|bits| !bits.contains(&true))
        });
        assert_eq!(bits.find_zeros_from(from, run, of), free);
        assert_eq!((bits.any(), bits.all()), (ones != 0, ones == model.len()));
        assert_eq!(
            (bits.not_any(), bits.not_all()),
            (ones == 0, ones != model.len())
        );
    }

    pub fn texts_have_the_bits<T: Word, O: Layout>(random: &mut Random) {
        let (mut words, range, model) = case::<T, O>(random);
        let digits: String = model
            .iter()
            .map(|bit| if *bit { '1' } else { '0' })
            .collect();
        let numbers: Vec<_> = model.iter().map(|bit| u8::from(*bit)).collect();
        let start = range.start;
        let bits = BitSliceMut::<T, O>::new(&mut words, range).unwrap();
        assert_eq!(format!("{bits} {bits:b}"), format!("{digits} {digits}"));
        assert_eq!(
            format!("{bits:#b} {bits:?}"),
            format!("0b{digits} {numbers:?}")
        );
        let hex = by_words::<T>(&model, start, 4);
        assert_eq!(format!("{bits:x}"), list_of(&hex));
        assert_eq!(format!("{bits:X}"), list_of(&hex).to_uppercase());
        let octal = by_words::<T>(&model, start, 3);
        assert_eq!(format!("{bits:o}"), list_of(&octal));
        let lines = |prefix: &str| -> String {
            let line = |text: &String| format!("    {prefix}{text},\n");
            octal.iter().map(line).collect()
        };
        let expected = if model.is_empty() {
            "[]".to_owned()
        } else {
            format!("[\n{}]", lines("0o"))
        };
        assert_eq!(format!("{bits:#o}"), expected);
    }

    /// The bits of each word, the first the highest digit, as digits of `size` bits each.
    fn by_words<T: Word>(bits: &[bool], start: usize, size: usize) -> Vec<String> {
        let head = (T::BITS - start % T::BITS).min(bits.len());
        let (head, rest) = bits.split_at(head);
        let digit = |bits: &[bool]| {
            let number = bits.iter().fold(0, |all, bit| 2 * all + u32::from(*bit));
            char::from_digit(number, 16).unwrap()
        };
        std::iter::once(head)
            .chain(rest.chunks(T::BITS))
            .filter(|word| !word.is_empty())
            .map(|word| {
                let digits: Vec<char> = word.rchunks(size).map(digit).collect();
                digits.iter().rev().collect()
            })
            .collect()
    }

    fn list_of(texts: &[String]) -> String {
        format!("[{}]", texts.join(", "))
    }

    fn hash(value: &impl Hash) -> u64 {
        let mut hasher = DefaultHasher::new();
        value.hash(&mut hasher);
        hasher.finish()
    }

    /// Another case, of bits that are mostly nearly the same.
    fn alike<T: Word, O: Layout>(
        random: &mut Random,
        model: &[bool],
    ) -> (Vec<T>, Range<usize>, Vec<bool>) {
        if random.one_in(4) {
            return case::<T, O>(random);
        }
        let start = random.below(2 * T::BITS);
        let len = if random.one_in(4) {
            random.below(model.len() + 70)
        } else {
            model.len()
        };
        let mut words = vec![T::of(0); (start + len).div_ceil(T::BITS) + random.below(2)];
        let mut bits = BitSliceMut::<T, O>::new(&mut words, start..start + len).unwrap();
        for (i, bit) in model.iter().take(len).enumerate() {
            bits.set(i, *bit);
        }
        if len > 0 && random.one_in(2) {
            let i = random.below(len);
            let bit = bits[i];
            bits.set(i, !bit);
        }
        let other = list(bits.as_bitslice());
        (words, start..start + len, other)
    }

    pub fn slices_compare_as_lists<T: Word, O: Layout>(random: &mut Random) {
        fn with<T: Word, O: Layout, T2: Word, O2: Layout>(random: &mut Random) {
            let (words, range, model) = case::<T, O>(random);
            let (others, other_range, other_model) = alike::<T2, O2>(random, &model);
            let bits = BitSlice::<T, O>::new(&words, range).unwrap();
            let other = BitSlice::<T2, O2>::new(&others, other_range).unwrap();
            let pairs = model.iter().zip(&other_model);
            let first = pairs.clone().position(|(a, b)| a != b);
            assert_eq!(bits.first_difference(&other), first);
            assert_eq!(
                (bits == other, bits.equals(&other)),
                (model == other_model, model == other_model)
            );
            assert_eq!(bits.compare(&other), model.cmp(&other_model));
            assert_eq!(bits < other, model < other_model);
            if bits == other {
                assert_eq!(hash(&bits), hash(&other));
                assert_eq!(bits.compare(&other), Ordering::Equal);
            }
            assert_eq!(bits.starts_with(&other), model.starts_with(&other_model));
            assert_eq!(bits.ends_with(&other), model.ends_with(&other_model));
        }
        with_any_other!(random, with::<T, O>);
    }

    pub fn sets_are_asked<T: Word, O: Layout>(random: &mut Random) {
        fn with<T: Word, O: Layout, T2: Word, O2: Layout>(random: &mut Random) {
            let (words, range, model) = case::<T, O>(random);
            let (others, other_range, other_model) = alike::<T2, O2>(random, &model);
            let bits = BitSlice::<T, O>::new(&words, range).unwrap();
            let other = BitSlice::<T2, O2>::new(&others, other_range).unwrap();
            let there = |i: usize| other_model.get(i) == Some(&true);
            let ones = || (0..model.len()).filter(|i| model[*i]);
            assert_eq!(bits.is_subset(&other), ones().all(there));
            assert_eq!(bits.intersects(&other), ones().any(there));
            assert_eq!(bits.count_and(&other), ones().filter(|i| there(*i)).count());
            let here = |i: usize| model.get(i) == Some(&true);
            let either = (0..model.len().max(other_model.len())).filter(|i| here(*i) || there(*i));
            assert_eq!(bits.count_or(&other), either.count());
        }
        with_any_other!(random, with::<T, O>);
    }

    pub fn copies_turn_words_and_orders<T: Word, O: Layout>(random: &mut Random) {
        fn with<T: Word, O: Layout, T2: Word, O2: Layout>(random: &mut Random) {
            let mut words = random.words::<T>();
            let mut model = bits_of::<T, O>(&words);
            let range = inner(random, model.len());
            let (others, other_range, other_model) = alike::<T2, O2>(random, &model[range.clone()]);
            let other = BitSlice::<T2, O2>::new(&others, other_range).unwrap();
            let mut bits = BitSliceMut::<T, O>::new(&mut words, range.clone()).unwrap();
            let expected = if range.len() == other_model.len() {
                model[range].copy_from_slice(&other_model);
                Ok(())
            } else {
                let (len, other) = (range.len(), other_model.len());
                Err(Refusal::Lengths { len, other })
            };
            assert_eq!(bits.copy_from(other), expected);
            assert_eq!(bits_of::<T, O>(&words), model);
        }
        with_any_other!(random, with::<T, O>);
    }

    pub fn sets_combine<T: Word, O: Layout>(random: &mut Random) {
        fn with<T: Word, O: Layout, T2: Word, O2: Layout>(random: &mut Random) {
            let mut words = random.words::<T>();
            let mut model = bits_of::<T, O>(&words);
            let range = inner(random, model.len());
            let (mut others, other_range, other_model) =
                alike::<T2, O2>(random, &model[range.clone()]);
            let other = BitSliceMut::<T2, O2>::new(&mut others, other_range).unwrap();
            let mut bits = BitSliceMut::<T, O>::new(&mut words, range.clone()).unwrap();
            let kind = random.below(4);
            match kind {
                0 => bits &= &other,
                1 => bits |= other.as_bitslice(),
                2 => bits ^= other,
                _ => {
                    let answer = bits.and_not_from(other.as_bitslice());
                    if range.len() != other_model.len() {
                        let (len, other) = (range.len(), other_model.len());
                        assert_eq!(answer, Err(Refusal::Lengths { len, other }));
                        assert_eq!(bits_of::<T, O>(&words), model);
                        return;
                    }
                    assert_eq!(answer, Ok(()));
                }
            }
            for (i, bit) in model[range].iter_mut().enumerate() {
                let there = other_model.get(i).copied().unwrap_or(false);
                *bit = match kind {
                    0 => *bit && there,
                    1 => *bit || there,
                    2 => *bit != there,
                    _ => *bit && !there,
                };
            }
            assert_eq!(bits_of::<T, O>(&words), model);
        }
        with_any_other!(random, with::<T, O>);
    }

    pub fn bits_are_edited<T: Word, O: Layout>(random: &mut Random) {
        let mut words = random.words::<T>();
        let mut model = bits_of::<T, O>(&words);
        let range = inner(random, model.len());
        let own = &mut model[range.clone()];
        let mut bits = BitSliceMut::<T, O>::new(&mut words, range.clone()).unwrap();
        let (i, j, bit) = (
            random.place(own.len()),
            random.place(own.len()),
            random.bit(),
        );
        let outside = |index| Refusal::Outside {
            index,
            len: range.len(),
        };
        let expected = own.get(i).copied().ok_or(outside(i));
        assert_eq!(bits.try_replace(i, bit), expected);
        if expected.is_ok() {
            own[i] = bit;
        }
        let both = i.max(j) < own.len();
        let first = if i < own.len() { j } else { i };
        assert_eq!(
            bits.try_swap(i, j),
            if both { Ok(()) } else { Err(outside(first)) }
        );
        if both {
            own.swap(i, j);
        }
        if bit {
            bits.invert();
            for bit in &mut *own {
                *bit = !*bit;
            }
        }
        assert_eq!(bits_of::<T, O>(&words), model);
    }

    pub fn bits_are_moved<T: Word, O: Layout>(random: &mut Random) {
        let mut words = random.words::<T>();
        let mut model = bits_of::<T, O>(&words);
        let range = inner(random, model.len());
        let own = &mut model[range.clone()];
        let mut bits = BitSliceMut::<T, O>::new(&mut words, range.clone()).unwrap();
        let by = random.place(own.len());
        let (index, len) = (by, own.len());
        let expected = if index <= len {
            Ok(())
        } else {
            Err(Refusal::Outside { index, len })
        };
        let kind = random.below(5);
        let answer = match kind {
            0 => {
                bits.reverse();
                own.reverse();
                expected
            }
            1 => bits.try_shift_left(by),
            2 => bits.try_shift_right(by),
            3 => bits.try_rotate_left(by),
            _ => bits.try_rotate_right(by),
        };
        assert_eq!(answer, expected, "{kind} {by}");
        if expected.is_ok() {
            let len = own.len();
            match kind {
                0 => {}
                1 => {
                    own.copy_within(by.., 0);
                    own[len - by..].fill(false);
                }
                2 => {
                    own.copy_within(..len - by, by);
                    own[..by].fill(false);
                }
                3 => own.rotate_left(by),
                _ => own.rotate_right(by),
            }
        }
        assert_eq!(bits_of::<T, O>(&words), model);
    }

    pub fn parts_are_lent<T: Word, O: Layout>(random: &mut Random) {
        let mut words = random.words::<T>();
        let mut model = bits_of::<T, O>(&words);
        let range = inner(random, model.len());
        let mut bits = BitSliceMut::<T, O>::new(&mut words, range.clone()).unwrap();
        let mut mid = random.place(range.len());
        if !random.one_in(4) {
            mid = ((range.start + mid.min(range.len())) / T::BITS * T::BITS)
                .saturating_sub(range.start);
        }
        let own = &mut model[range.clone()];
        let between =
            mid == 0 || mid == own.len() || (range.start.wrapping_add(mid)).is_multiple_of(T::BITS);
        match bits.split_at_mut(mid) {
            Ok((mut low, mut high)) => {
                assert!(mid <= own.len() && between);
                assert_eq!((low.len(), high.len()), (mid, own.len() - mid));
                low.invert();
                high.fill(true);
                own[..mid].iter_mut().for_each(|bit| *bit = !*bit);
                own[mid..].fill(true);
            }
            Err(refusal) if mid > own.len() => {
                let (index, len) = (mid, own.len());
                assert_eq!(refusal, Refusal::Outside { index, len });
            }
            Err(refusal) => {
                assert!(!between);
                assert_eq!(refusal, Refusal::SharedWord);
            }
        }
        let part = random.range(range.len());
        let expected = checked(&part, own.len()).map(|it| own[it].fill(false));
        assert_eq!(
            bits.part_mut(part.clone()).map(|mut it| it.fill(false)),
            expected
        );
        assert_eq!(
            bits.get_mut(part.clone()).map(|it| it.len()),
            expected.ok().map(|()| part.len())
        );
        assert_eq!(bits.into_part(part).map(|mut it| it.fill(false)), expected);
        assert_eq!(bits_of::<T, O>(&words), model);
    }

    /// A number is loaded as it was stored, or refused as a writer of as many bits refuses it, and then
    /// no bit is changed.
    fn is_refused_as_written<T: Word, O: Layout, N: Number + Eq>(
        mut bits: BitSliceMut<T, O>,
        big: bool,
        number: N,
    ) {
        let (count, before) = (bits.len(), list(bits.as_bitslice()));
        let (stored, loaded) = if big {
            (bits.try_store_be(number), bits.try_load_be())
        } else {
            (bits.try_store_le(number), bits.try_load_le())
        };
        match stored {
            Ok(()) => assert_eq!(loaded, Ok(number)),
            Err(_) => assert_eq!(list(bits.as_bitslice()), before),
        }
        let mut writer = BitWriter::new(bits);
        let written = if big {
            writer.write_be(count, number)
        } else {
            writer.write_le(count, number)
        };
        assert_eq!(stored, written);
    }

    /// Asks of one type of numbers what `u64` says.
    fn number<T: Word, O: Layout, N: Number + Eq + std::fmt::Debug + TryFrom<i128>>(
        random: &mut Random,
        signed: bool,
        width: usize,
    ) {
        let mut words = random.words::<T>();
        let len = words.len() * T::BITS;
        let range = random.short_range(len);
        let range = checked(&range, len).unwrap_or(0..len.min(width));
        let count = range.len();
        let bits = BitSlice::<T, O>::new(&words, range.clone()).unwrap();
        let big = random.bit();
        let (all, own) = if big {
            (bits.try_load_be::<u64>(), bits.try_load_be::<N>())
        } else {
            (bits.try_load_le::<u64>(), bits.try_load_le::<N>())
        };
        let expected = all.and_then(|all| {
            if count > width {
                return Err(Refusal::TooWide);
            }
            let all = i128::from(all);
            let negative = signed && count > 0 && all >> (count - 1) & 1 == 1;
            N::try_from(if negative { all - (1 << count) } else { all })
                .map_err(|_| Refusal::NoOrder)
        });
        assert_eq!(own, expected);
        let Ok(number) = own else { return };
        let mut bits = BitSliceMut::<T, O>::new(&mut words, range).unwrap();
        let before = list(bits.as_bitslice());
        bits.fill(random.bit());
        let stored = if big {
            bits.try_store_be(number)
        } else {
            bits.try_store_le(number)
        };
        assert_eq!((stored, list(bits.as_bitslice())), (Ok(()), before));
        let (wide, above) = (random.number(), 64 - count);
        if big {
            bits.store_be_wrapping(wide);
        } else if random.bit() {
            bits.store_le_wrapping(wide);
        } else {
            bits.store_wrapping(wide);
        }
        let kept = if count == 0 {
            0
        } else {
            wide << above >> above
        };
        let loaded = if big {
            bits.load_be::<u64>()
        } else {
            bits.load_le()
        };
        assert_eq!(loaded, kept);
        let few = random.below(64);
        let some = if signed {
            i128::from(wide.cast_signed() >> few)
        } else {
            i128::from(wide >> few)
        };
        if let Ok(some) = N::try_from(some) {
            is_refused_as_written(bits, big, some);
        }
    }

    pub fn numbers_have_types<T: Word, O: Layout>(random: &mut Random) {
        match random.below(10) {
            0 => number::<T, O, u8>(random, false, 8),
            1 => number::<T, O, u16>(random, false, 16),
            2 => number::<T, O, u32>(random, false, 32),
            3 => number::<T, O, u64>(random, false, 64),
            4 => number::<T, O, usize>(random, false, usize::BITS as usize),
            5 => number::<T, O, i8>(random, true, 8),
            6 => number::<T, O, i16>(random, true, 16),
            7 => number::<T, O, i32>(random, true, 32),
            8 => number::<T, O, i64>(random, true, 64),
            _ => number::<T, O, isize>(random, true, usize::BITS as usize),
        }
    }
}

#[test]
fn views_see_all_bits() {
    let mut words = [0x0102_u16, 0x8000];
    assert_eq!(
        words.view_bits::<Lsb0>().iter_ones().collect::<Vec<_>>(),
        [1, 8, 31]
    );
    words.view_bits_mut::<Msb0>().fill(true);
    let mut word = 0_u64;
    word.view_bits_mut::<Msb0>().set(0, true);
    assert_eq!((words, word), ([0xffff; 2], 1 << 63));
    assert!(Vec::<u8>::new().view_bits::<Lsb0>().is_empty());
}

#[test]
#[should_panic(expected = "there is no bit 16 in a slice of 16 bits")]
fn an_index_past_the_end_panics() {
    let _ = [0_u8; 2].view_bits::<Lsb0>()[16];
}

#[test]
#[should_panic(expected = "there is no bit 17 in a slice of 16 bits")]
fn a_split_past_the_end_panics() {
    let _ = [0_u8; 2].view_bits::<Lsb0>().split_at(17);
}

#[test]
#[should_panic(expected = "a chunk has no bits")]
fn chunks_have_bits() {
    let _ = [0_u8; 2].view_bits::<Lsb0>().chunks(0);
}

#[test]
fn equal_slices_are_one_key() {
    let (words, turned) = ([0x0ff0_u16], [0xf00f_u16]);
    let mut seen = HashSet::new();
    seen.insert(words.view_bits::<Msb0>().get(4..12).unwrap());
    assert!(!seen.contains(&turned.view_bits::<Msb0>().get(..8).unwrap()));
    assert!(seen.contains(&words.view_bits::<Msb0>().get(4..12).unwrap()));
    let moved = [0x00ff_u16];
    assert!(seen.contains(&moved.view_bits::<Msb0>().get(8..).unwrap()));
}

#[test]
fn slices_for_reading_and_for_writing_are_alike() {
    let none = BitSliceMut::<u8, Msb0>::default();
    assert!(BitSlice::<u8, Lsb0>::default().is_empty() && none.is_empty());
    let (read, mut words) = ([0x0f_u8], [0x0f_u8]);
    let (one, other) = (read.view_bits::<Lsb0>(), words.view_bits_mut::<Lsb0>());
    assert_eq!(one, other);
    assert_eq!(other, one);
    assert_eq!(one.partial_cmp(&other), Some(Ordering::Equal));
    assert_eq!(other.partial_cmp(&one), Some(Ordering::Equal));
    assert_eq!(other.partial_cmp(&none), Some(Ordering::Greater));
    assert_eq!(other.cmp(&other), Ordering::Equal);
    assert_eq!(other, [true, true, true, true, false, false, false, false]);
    let hash = |feed: &dyn Fn(&mut DefaultHasher)| {
        let mut hasher = DefaultHasher::new();
        feed(&mut hasher);
        hasher.finish()
    };
    assert_eq!(hash(&|it| one.hash(it)), hash(&|it| other.hash(it)));
    assert_eq!((!other).to_string(), "00001111");
}

#[test]
fn texts_are_padded() {
    let words = [0b0000_1101_u8];
    let bits = words.view_bits::<Msb0>().get(4..).unwrap();
    assert_eq!(
        format!("{bits:6}|{bits:>6}|{bits:^7}|{bits:2}"),
        "1101  |  1101| 1101  |1101"
    );
    assert_eq!(format!("{bits:*>#8b}|{bits:08b}"), "**0b1101|1101    ");
}

#[test]
fn a_generic_caller_needs_no_bounds_of_its_own() {
    fn text<V: BitView + ?Sized>(words: &V) -> String {
        let bits = words.view_bits::<Msb0>();
        format!("{:?}", bits.iter().rev().nth(1))
    }
    fn shared<T: Register, O: Order>(bits: BitSlice<'_, T, O>) -> usize {
        let spans = Spans::<O>::new(&[]).unwrap();
        assert!(spans == spans && format!("{:?}", bits.iter_ones()).starts_with("Ones"));
        std::thread::scope(|scope| scope.spawn(|| bits.count_ones()).join().unwrap())
    }
    assert_eq!(text(&[0x02_u8; 2]), "Some(true)");
    assert_eq!(shared([0x02_u16; 2].view_bits::<Lsb0>()), 2);
}

#[test]
fn numbers_of_no_bits_are_zero() {
    fn zero<N: Number + Default + PartialEq + std::fmt::Debug>(of: Result<N, Refusal>) {
        assert_eq!(of, Ok(N::default()));
    }

    let bits = [0xff_u8].view_bits::<Lsb0>().len();
    assert_eq!(bits, 8);
    let words = [0xff_u8];
    let none = words.view_bits::<Lsb0>().get(3..3).unwrap();
    zero(none.try_load_le::<u8>());
    zero(none.try_load_be::<i64>());
}
