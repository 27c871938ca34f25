//! What the documents of the crate `bitvec` say of each method of its slices, vectors, boxes and
//! arrays, over the names of this crate: a test for each method, with values that its words give.
//! Where this crate means another thing, the test has a comment that says so.

use std::cmp::Ordering;
use std::collections::{BTreeSet, HashMap, HashSet};
use worghulen::prelude::*;
use worghulen::{Domain, Number};

/// The bits of a text of zeros and ones.
fn of(text: &str) -> BitVec {
    text.parse().unwrap()
}

fn texts<T: ToString>(parts: impl IntoIterator<Item = T>) -> Vec<String> {
    parts.into_iter().map(|it| it.to_string()).collect()
}

fn round_trip<N: Number + PartialEq + std::fmt::Debug>(number: N, width: usize) {
    let mut bits = bitvec![u16, Msb0; 0; 80];
    let mut part = bits.get_mut(7..7 + width).unwrap();
    part.store_be(number);
    assert_eq!(part.load_be::<N>(), number);
    part.store_le(number);
    assert_eq!(part.load_le::<N>(), number);
    assert!(bits.get(..7).unwrap().not_any() && bits.get(7 + width..).unwrap().not_any());
}

mod slices_made {
    use super::*;

    #[test]
    fn empty() {
        // (there `BitSlice::empty()`)
        assert!(BitSlice::<u8, Lsb0>::default().is_empty());
    }

    #[test]
    fn from_element() {
        assert_eq!(
            BitSlice::<u8, Lsb0>::from_element(&6).to_string(),
            "01100000"
        );
    }

    #[test]
    fn from_element_mut() {
        let mut word = 0_u16;
        BitSlice::<_, Lsb0>::from_element_mut(&mut word).set(15, true);
        assert_eq!(word, 0x8000);
    }

    #[test]
    fn from_slice() {
        let bits = BitSlice::<u8, Msb0>::from_slice(&[1, 2]);
        assert_eq!(bits.to_string(), "0000000100000010");
    }

    #[test]
    fn try_from_slice() {
        // (there `try_from_slice` refuses words that are too many; here `new` refuses a range too)
        assert_eq!(
            BitSlice::<u8, Msb0>::new(&[0; 3], ..).map(|it| it.len()),
            Ok(24)
        );
        assert_eq!(
            BitSlice::<u8, Msb0>::new(&[0; 3], 1..25).err(),
            Some(Refusal::Outside { index: 25, len: 24 })
        );
    }

    #[test]
    fn from_slice_mut() {
        let mut words = [0_u32; 2];
        BitSlice::<_, Msb0>::from_slice_mut(&mut words).set(32, true);
        assert_eq!(words, [0, 0x8000_0000]);
    }

    #[test]
    fn view_bits() {
        assert_eq!(
            [0x0f_u8, 0xf0].view_bits::<Lsb0>().to_string(),
            "1111000000001111"
        );
    }

    #[test]
    fn view_bits_mut() {
        let mut word = 0_u8;
        word.view_bits_mut::<Msb0>().set(0, true);
        assert_eq!(word, 0x80);
    }

    #[test]
    fn as_bits() {
        assert_eq!(vec![1_u8].as_bits::<Lsb0>().first_one(), Some(0));
    }

    #[test]
    fn as_mut_bits() {
        let mut words = vec![0_u8; 2];
        words.as_mut_bits::<Lsb0>().fill(true);
        assert_eq!(words, [0xff; 2]);
    }

    #[test]
    fn bits_macro() {
        assert_eq!(bits![0, 1].len(), 2);
        assert_eq!(bits![1; 70].count_ones(), 70);
        assert_eq!(bits![u8, Msb0; 1, 0, 0, 1].load_be::<u8>(), 9);
    }
}

mod slices_asked {
    use super::*;

    #[test]
    fn len() {
        assert_eq!((bits![].len(), bits![0; 10].len()), (0, 10));
    }

    #[test]
    fn is_empty() {
        assert!(bits![].is_empty() && !bits![0].is_empty());
    }

    #[test]
    fn first() {
        assert_eq!(bits![1, 0].first().as_deref(), Some(&true));
        assert!(bits![].first().is_none());
    }

    #[test]
    fn last() {
        assert_eq!(bits![1, 0].last().as_deref(), Some(&false));
        assert!(bits![].last().is_none());
    }

    #[test]
    fn split_first() {
        let (first, rest) = bits![1, 0, 0].split_first().unwrap();
        assert!(*first && rest == bits![0, 0]);
        assert!(bits![].split_first().is_none());
    }

    #[test]
    fn split_last() {
        let (last, rest) = bits![0, 0, 1].split_last().unwrap();
        assert_eq!(last, &true);
        assert_eq!(rest, bits![0, 0]);
        assert!(bits![].split_last().is_none());
    }

    #[test]
    fn get_of_an_index() {
        let bits = bits![0, 1, 0];
        assert_eq!(bits.get(1).as_deref(), Some(&true));
        assert!(*bits.get(1).unwrap() && bits.get(3).is_none());
    }

    #[test]
    fn get_of_a_range() {
        let bits = bits![0, 1, 1, 0];
        assert_eq!(bits.get(1..3).unwrap(), bits![1; 2]);
        assert_eq!(bits.get(2..).unwrap(), bits![1, 0]);
        assert_eq!(bits.get(..=1).unwrap(), bits![0, 1]);
        assert!(bits.get(2..5).is_none());
    }

    #[test]
    fn index() {
        let bits = bits![0, 1, 0];
        assert!(!bits[0] && bits[1] && !bits[2]);
    }

    #[test]
    #[should_panic(expected = "there is no bit 3 in a slice of 3 bits")]
    fn index_outside() {
        assert!(bits![0, 1, 0][3]);
    }

    #[test]
    fn any() {
        assert!(bits![0, 1].any() && !bits![0, 0].any() && !bits![].any());
    }

    #[test]
    fn all() {
        assert!(bits![1, 1].all() && !bits![0, 1].all() && bits![].all());
    }

    #[test]
    fn not_any() {
        assert!(bits![0, 0].not_any() && !bits![0, 1].not_any() && bits![].not_any());
    }

    #[test]
    fn not_all() {
        assert!(bits![0, 1].not_all() && !bits![1, 1].not_all() && !bits![].not_all());
    }

    #[test]
    fn some() {
        assert!(bits![0, 1].some() && !bits![0, 0].some() && !bits![1, 1].some());
        assert!(!bits![].some());
    }

    #[test]
    fn count_ones() {
        assert_eq!(bits![1, 1, 0, 1].count_ones(), 3);
    }

    #[test]
    fn count_zeros() {
        assert_eq!(bits![1, 1, 0, 1].count_zeros(), 1);
    }

    #[test]
    fn iter_ones() {
        let bits = bits![0, 1, 0, 0, 1];
        assert_eq!(bits.iter_ones().collect::<Vec<_>>(), [1, 4]);
        assert_eq!(bits.iter_ones().rev().collect::<Vec<_>>(), [4, 1]);
    }

    #[test]
    fn iter_zeros() {
        let bits = bits![0, 1, 0, 0, 1];
        assert_eq!(bits.iter_zeros().collect::<Vec<_>>(), [0, 2, 3]);
    }

    #[test]
    fn first_one() {
        assert_eq!(
            (bits![0, 1, 1].first_one(), bits![0].first_one()),
            (Some(1), None)
        );
        assert_eq!(bits![].first_one(), None);
    }

    #[test]
    fn first_zero() {
        assert_eq!(
            (bits![1, 0, 0].first_zero(), bits![1].first_zero()),
            (Some(1), None)
        );
    }

    #[test]
    fn last_one() {
        assert_eq!(
            (bits![1, 1, 0].last_one(), bits![0].last_one()),
            (Some(1), None)
        );
    }

    #[test]
    fn last_zero() {
        assert_eq!(
            (bits![0, 0, 1].last_zero(), bits![1].last_zero()),
            (Some(1), None)
        );
    }

    #[test]
    fn leading_ones() {
        assert_eq!(
            (bits![1, 1, 0, 1].leading_ones(), bits![].leading_ones()),
            (2, 0)
        );
    }

    #[test]
    fn leading_zeros() {
        // (from the index 0 on, whatever the order: it is no count of a word's highest digits)
        assert_eq!(bits![u8, Lsb0; 0, 0, 1, 0].leading_zeros(), 2);
        assert_eq!(bits![u8, Msb0; 0, 0, 1, 0].leading_zeros(), 2);
    }

    #[test]
    fn trailing_ones() {
        assert_eq!(
            (bits![1, 0, 1, 1].trailing_ones(), bits![0].trailing_ones()),
            (2, 0)
        );
    }

    #[test]
    fn trailing_zeros() {
        assert_eq!(
            (bits![1, 0, 0].trailing_zeros(), bits![1].trailing_zeros()),
            (2, 0)
        );
    }

    #[test]
    fn contains() {
        let bits = bits![0, 0, 1, 0, 1, 1, 0];
        assert!(bits.contains(bits![0, 1, 1, 0]) && !bits.contains(bits![1, 0, 0, 1]));
        assert!(bits.contains(bits![u8, Msb0; 1, 1]) && bits.contains(bits![]));
    }

    #[test]
    fn starts_with() {
        let bits = bits![0, 1, 0];
        assert!(bits.starts_with(&bits![0, 1]) && !bits.starts_with(&bits![1]));
        assert!(bits.starts_with(&bits![]) && !bits![0].starts_with(&bits));
    }

    #[test]
    fn ends_with() {
        let bits = bits![0, 1, 0];
        assert!(bits.ends_with(&bits![1, 0]) && !bits.ends_with(&bits![1]));
        assert!(bits.ends_with(&bits![]) && !bits![0].ends_with(&bits));
    }

    #[test]
    fn strip_prefix() {
        // (there a call; here two)
        let bits = bits![0, 1, 0, 0];
        let prefix = bits![0, 1];
        let rest = bits
            .starts_with(&prefix)
            .then(|| bits.get(prefix.len()..).unwrap());
        assert_eq!(rest, Some(bits![0, 0]));
    }

    #[test]
    fn domain_of_whole_words() {
        let words = [1_u8, 2];
        let Domain::Region {
            head: None,
            body,
            tail: None,
        } = words.view_bits::<Lsb0>().domain()
        else {
            panic!("these are whole words");
        };
        assert_eq!(body, [1, 2]);
    }

    #[test]
    fn domain_of_parts() {
        let words = [0xff_u8; 4];
        let bits = words.view_bits::<Msb0>();
        let Domain::Region { head, body, tail } = bits.get(3..29).unwrap().domain() else {
            panic!("these are bits of four words");
        };
        assert_eq!(
            (head.unwrap().len(), body.len(), tail.unwrap().len()),
            (5, 2, 5)
        );
        assert_eq!(
            bits.get(3..29).unwrap().domain().collect::<Vec<_>>(),
            [0x1f, 0xff, 0xff, 0xf8]
        );
    }

    #[test]
    fn domain_inside_a_word() {
        let words = [0xff_u8];
        let part = words.view_bits::<Lsb0>().get(2..6).unwrap();
        assert!(matches!(part.domain(), Domain::Enclave(inside) if inside.len() == 4));
        assert_eq!(part.domain().collect::<Vec<_>>(), [0x3c]);
    }

    #[test]
    fn to_bitvec() {
        let mut owned = bits![0, 1].to_bitvec();
        owned.push(true);
        assert_eq!(owned, bits![0, 1, 1]);
    }
}

mod slices_gone_over {
    use super::*;

    #[test]
    fn iter() {
        // (`bool`s by value: there `iter` hands proxies out, and `by_vals` makes `bool`s of them)
        assert_eq!(
            bits![0, 1, 1].iter().collect::<Vec<_>>(),
            [false, true, true]
        );
    }

    #[test]
    fn iter_backwards() {
        assert_eq!(
            bits![0, 1, 1].iter().rev().collect::<Vec<_>>(),
            [true, true, false]
        );
    }

    #[test]
    fn by_vals() {
        assert_eq!(
            bits![0, 1, 1].iter().by_vals().filter(|bit| *bit).count(),
            2
        );
    }

    #[test]
    fn iter_nth() {
        let mut bits = bits![0, 0, 1, 0].iter();
        assert_eq!(bits.nth(2).as_deref(), Some(&true));
        assert_eq!(bits.next().as_deref(), Some(&false));
        assert!(bits.next().is_none());
    }

    #[test]
    fn iter_mut() {
        let mut bits = bitvec![0, 1, 0, 1];
        for (index, mut bit) in bits.iter_mut().enumerate() {
            *bit = index < 2;
        }
        assert_eq!(bits, bits![1, 1, 0, 0]);
    }

    #[test]
    #[allow(clippy::op_ref)] // (these are the operators that are asked)
    fn bit_ref() {
        let bits = bits![0, 1];
        let (zero, one) = (bits.get(0).unwrap(), bits.get(1).unwrap());
        assert!(one == true && one == &true && false == zero && &false == zero);
        assert!(zero != one && zero < one && one > false && true > zero && !zero);
        assert_eq!(format!("{one:?} {zero}"), "true false");
        assert_eq!([one, zero, one].iter().max(), Some(&true.into()));
        let mut array = bitarr![0, 1];
        let mut lent = array.get_mut(0).unwrap();
        assert!(lent == zero && !*lent);
        *lent = true;
        assert!(lent == one && lent != zero && bool::from(lent));
        assert_eq!(array.count_ones(), 2);
    }

    #[test]
    fn into_iterator() {
        let mut ones = 0;
        for bit in bits![1, 0, 1] {
            ones += usize::from(*bit);
        }
        for mut bit in &mut bitvec![0, 0] {
            *bit = true;
            ones += 1;
        }
        assert_eq!(ones, 4);
    }

    #[test]
    fn windows() {
        assert_eq!(texts(bits![1, 0, 1, 1].windows(3)), ["101", "011"]);
        assert_eq!(bits![1, 0].windows(3).count(), 0);
    }

    #[test]
    #[should_panic(expected = "a piece has no bits")]
    fn windows_of_none() {
        let _ = bits![1, 0].windows(0);
    }

    #[test]
    fn chunks() {
        assert_eq!(texts(bits![0, 1, 1, 0, 1].chunks(2)), ["01", "10", "1"]);
        assert_eq!(
            texts(bits![0, 1, 1, 0, 1].chunks(2).rev()),
            ["1", "10", "01"]
        );
    }

    #[test]
    fn chunks_mut() {
        // (two parts of one word are not both lent for writing: one is after the other)
        let mut bits = bitvec![0; 5];
        let mut from = 0;
        while from < bits.len() {
            let to = bits.len().min(from + 2);
            bits.get_mut(from..to).unwrap().set(0, true);
            from = to;
        }
        assert_eq!(bits, bits![1, 0, 1, 0, 1]);
    }

    #[test]
    fn chunks_exact() {
        let chunks = bits![0, 1, 1, 0, 1].chunks_exact(2);
        assert_eq!(chunks.remainder(), bits![1]);
        assert_eq!(texts(chunks), ["01", "10"]);
    }

    #[test]
    fn rchunks() {
        assert_eq!(texts(bits![0, 1, 1, 0, 1].rchunks(2)), ["01", "11", "0"]);
    }

    #[test]
    fn rchunks_exact() {
        // (there a call; here the rest is passed over)
        let bits = bits![0, 1, 1, 0, 1];
        assert_eq!(
            texts(bits.get(bits.len() % 2..).unwrap().rchunks(2)),
            ["01", "11"]
        );
    }

    #[test]
    fn split_at() {
        let (low, high) = bits![0, 0, 1, 1, 1].split_at(2);
        assert!(low == bits![0, 0] && high == bits![1; 3]);
        assert!(bits![0].split_at(1).1.is_empty());
    }

    #[test]
    #[should_panic(expected = "there is no bit 3 in a slice of 2 bits")]
    fn split_at_outside() {
        let _ = bits![0, 1].split_at(3);
    }

    #[test]
    fn split_at_mut() {
        // (a `Result`: parts of one word are not both lent, since no two `&mut` may share it)
        let mut words = [0_u8; 2];
        let mut bits = words.view_bits_mut::<Lsb0>();
        let (mut low, mut high) = bits.split_at_mut(8).unwrap();
        low.set(0, true);
        high.set(7, true);
        assert_eq!(bits.split_at_mut(3).err(), Some(Refusal::SharedWord));
        assert_eq!(words, [1, 0x80]);
    }

    #[test]
    fn split() {
        let bits = bits![0, 1, 0, 0, 1, 0];
        assert_eq!(texts(bits.split(|_, bit| *bit)), ["0", "00", "0"]);
        assert_eq!(
            texts(bits.split(|index, _| index % 3 == 2)),
            ["01", "01", ""]
        );
    }

    #[test]
    fn split_at_the_ends() {
        assert_eq!(texts(bits![1, 0, 1].split(|_, bit| *bit)), ["", "0", ""]);
        assert_eq!(texts(bits![].split(|_, bit| *bit)), [""]);
    }
}

mod slices_edited {
    use super::*;

    #[test]
    fn set() {
        let mut bits = bitvec![0, 0];
        bits.set(0, true);
        bits.set(1, false);
        assert_eq!(bits, bits![1, 0]);
    }

    #[test]
    #[should_panic(expected = "set (2, true) of 2 bits")]
    fn set_outside() {
        bitvec![0, 0].set(2, true);
    }

    #[test]
    fn replace() {
        let mut bits = bitvec![0, 1];
        assert!(!bits.replace(0, true));
        assert!(bits.replace(1, true));
        assert_eq!(bits, bits![1, 1]);
    }

    #[test]
    fn get_mut_of_an_index() {
        let mut bits = bitvec![0, 0];
        *bits.get_mut(1).unwrap() = true;
        assert!(bits.get_mut(2).is_none());
        assert_eq!(bits, bits![0, 1]);
    }

    #[test]
    fn get_mut_of_a_range() {
        let mut bits = bitvec![0; 4];
        bits.get_mut(1..3).unwrap().fill(true);
        assert!(bits.get_mut(3..5).is_none());
        assert_eq!(bits, bits![0, 1, 1, 0]);
    }

    #[test]
    fn first_mut() {
        // (there a call; here the bit of the index 0)
        let mut bits = bitvec![0, 0];
        *bits.get_mut(0).unwrap() = true;
        assert_eq!(bits, bits![1, 0]);
        assert!(bitvec![].get_mut(0).is_none());
    }

    #[test]
    fn swap() {
        let mut bits = bitvec![0, 1];
        bits.swap(0, 1);
        assert_eq!(bits, bits![1, 0]);
    }

    #[test]
    #[should_panic(expected = "swap (0, 2) of 2 bits")]
    fn swap_outside() {
        bitvec![0, 1].swap(0, 2);
    }

    #[test]
    fn reverse() {
        let mut bits = bitvec![0, 0, 1, 0, 1, 1, 0, 1];
        bits.get_mut(..5).unwrap().reverse();
        assert_eq!(bits, bits![1, 0, 1, 0, 0, 1, 0, 1]);
    }

    #[test]
    fn rotate_left() {
        let mut bits = bitvec![0, 0, 1, 0, 1, 0];
        bits.rotate_left(2);
        assert_eq!(bits, bits![1, 0, 1, 0, 0, 0]);
    }

    #[test]
    fn rotate_right() {
        let mut bits = bitvec![0, 0, 1, 1, 1, 0];
        bits.rotate_right(2);
        assert_eq!(bits, bits![1, 0, 0, 0, 1, 1]);
    }

    #[test]
    #[should_panic(expected = "rotate_left 3 of 2 bits")]
    fn rotate_too_far() {
        bitvec![0, 1].rotate_left(3);
    }

    #[test]
    fn shift_left() {
        let mut bits = bitvec![1; 6];
        bits.shift_left(4);
        assert_eq!(bits, bits![1, 1, 0, 0, 0, 0]);
    }

    #[test]
    fn shift_right() {
        let mut bits = bitvec![1; 6];
        bits.shift_right(4);
        assert_eq!(bits, bits![0, 0, 0, 0, 1, 1]);
    }

    #[test]
    #[should_panic(expected = "shift_left 3 of 2 bits")]
    fn shift_too_far() {
        bitvec![1, 1].shift_left(3);
    }

    #[test]
    fn fill() {
        let mut bits = bitvec![0; 5];
        bits.fill(true);
        assert_eq!(bits, bits![1; 5]);
    }

    #[test]
    fn fill_with() {
        // (there a call; here each bit by its proxy)
        let mut bits = bitvec![0; 5];
        bits.iter_mut()
            .enumerate()
            .for_each(|(index, mut bit)| *bit = index % 2 == 0);
        assert_eq!(bits, bits![1, 0, 1, 0, 1]);
    }

    #[test]
    fn copy_from_bitslice() {
        let mut bits = bitvec![0, 0, 0];
        bits.copy_from_bitslice(bits![1, 0, 1]);
        assert_eq!(bits, bits![1, 0, 1]);
    }

    #[test]
    #[should_panic(expected = "copy_from_bitslice of 2 bits to 3")]
    fn copy_of_another_length() {
        bitvec![0, 0, 0].copy_from_bitslice(bits![1, 0]);
    }

    #[test]
    fn clone_from_bitslice() {
        let mut bits = bitvec![u8, Lsb0; 0, 0, 0];
        bits.clone_from_bitslice(bits![u16, Msb0; 1, 0, 1]);
        assert_eq!(bits, bits![1, 0, 1]);
    }

    #[test]
    fn copy_within() {
        let mut bits = bitvec![1, 1, 1, 0, 0, 0];
        bits.copy_within(1..5, 2);
        assert_eq!(bits, bits![1, 1, 1, 1, 0, 0]);
    }

    #[test]
    #[should_panic(expected = "copy_within")]
    fn copy_within_past_the_end() {
        bitvec![0; 4].copy_within(..3, 2);
    }

    #[test]
    fn swap_with_bitslice() {
        // (there a call; here by a copy of the one)
        let (mut a, mut b) = (bitvec![0, 1], bitvec![1, 1]);
        let was = a.clone();
        a.copy_from_bitslice(&b);
        b.copy_from_bitslice(&was);
        assert_eq!((a, b), (of("11"), of("01")));
    }

    #[test]
    fn not() {
        let mut words = [0x0f_u8];
        let bits = !words.view_bits_mut::<Lsb0>();
        assert_eq!(bits.to_string(), "00001111");
        assert_eq!(!bitvec![0, 1], bits![1, 0]);
    }

    #[test]
    fn bit_and() {
        let mut bits = bitvec![0, 0, 1, 1];
        bits &= bits![0, 1, 0, 1];
        assert_eq!(bits, bits![0, 0, 0, 1]);
        assert_eq!(bits & bits![1; 4], bits![0, 0, 0, 1]);
    }

    #[test]
    fn bit_and_with_fewer() {
        let mut bits = bitvec![1; 4];
        bits &= bits![1, 1];
        assert_eq!(bits, bits![1, 1, 0, 0]);
    }

    #[test]
    fn bit_or() {
        let mut bits = bitvec![0, 0, 1, 1];
        bits |= bits![0, 1, 0, 1];
        assert_eq!(bits, bits![0, 1, 1, 1]);
        assert_eq!(bits | bits![1], bits![1; 4]);
    }

    #[test]
    fn bit_xor() {
        let mut bits = bitvec![0, 0, 1, 1];
        bits ^= bits![0, 1, 0, 1];
        assert_eq!(bits, bits![0, 1, 1, 0]);
        assert_eq!(bits ^ bits![1, 1], bits![1, 0, 1, 0]);
    }
}

mod slices_compared {
    use super::*;

    #[test]
    fn eq() {
        assert_eq!(bits![u8, Lsb0; 0, 1, 1], bits![u16, Msb0; 0, 1, 1]);
        assert_ne!(bits![0, 1], bits![0, 1, 0]);
    }

    #[test]
    fn cmp() {
        assert_eq!(bits![0, 1].cmp(&bits![1]), Ordering::Less);
        assert_eq!(bits![0, 1].cmp(&bits![0]), Ordering::Greater);
        assert!(bits![u8, Msb0; 0, 1] < bits![u32, Lsb0; 0, 1, 0]);
    }

    #[test]
    fn hash() {
        let mut seen = HashSet::from([bits![0, 1].to_bitvec()]);
        assert!(!seen.insert(bitvec![0, 1]));
        assert!(seen.insert(bitvec![0, 1, 0]));
    }

    #[test]
    fn debug() {
        assert_eq!(format!("{:?}", bits![0, 1, 1]), "[0, 1, 1]");
    }

    #[test]
    fn display() {
        // (there `[0, 1, 1]`: here the digits alone, which `parse` reads)
        assert_eq!(bits![0, 1, 1].to_string(), "011");
    }

    #[test]
    fn binary() {
        // (there a list with a text for each word: here the digits alone, whatever the words are)
        assert_eq!(
            format!("{:b}", bits![u8, Lsb0; 0, 1, 1, 0, 0, 0, 0, 0, 1]),
            "011000001"
        );
        assert_eq!(format!("{:#b}", bits![0, 1]), "0b01");
    }

    #[test]
    fn lower_hex_upper_hex_octal() {
        // (the same: a list with a number for each word, its digits from its last bit on)
        let data = [0b0000_0010_u8, 0b1000_1101, 0b0100_0000];
        let bits = data.view_bits::<Msb0>().get(6..18).unwrap();
        assert_eq!(format!("{bits:o}"), "[2, 215, 1]");
        assert_eq!(format!("{bits:x}"), "[2, 8d, 1]");
        assert_eq!(format!("{bits:X}"), "[2, 8D, 1]");
        assert_eq!(format!("{bits:#x}"), "[\n    0x2,\n    0x8d,\n    0x1,\n]");
        let data = [0b0100_0000_u8, 0b1000_1101, 0b0000_0010];
        let bits = data.view_bits::<Lsb0>().get(6..18).unwrap();
        assert_eq!(format!("{bits:o}"), "[2, 261, 1]");
        assert_eq!(format!("{bits:X}"), "[2, B1, 1]");
        let all = bitvec![u16, Msb0; 1, 0, 1, 1, 1];
        assert_eq!(format!("{all:x} {:o}", bitarr![u8, Lsb0; 1]), "[17] [200]");
    }
}

mod fields {
    use super::*;

    #[test]
    fn load_le_lsb0() {
        let words = [0x34_u8, 0x12];
        assert_eq!(words.view_bits::<Lsb0>().load_le::<u16>(), 0x1234);
        assert_eq!(
            words
                .view_bits::<Lsb0>()
                .get(4..12)
                .unwrap()
                .load_le::<u8>(),
            0x23
        );
    }

    #[test]
    fn load_be_msb0() {
        let words = [0x12_u8, 0x34];
        assert_eq!(words.view_bits::<Msb0>().load_be::<u16>(), 0x1234);
        assert_eq!(
            words
                .view_bits::<Msb0>()
                .get(4..12)
                .unwrap()
                .load_be::<u8>(),
            0x23
        );
    }

    #[test]
    fn load_le_msb0() {
        // The part of the first word has the lowest digits: 4 of 0x12, and then 4 of 0x34.
        let words = [0x12_u8, 0x34];
        assert_eq!(
            words
                .view_bits::<Msb0>()
                .get(4..12)
                .unwrap()
                .load_le::<u8>(),
            0x32
        );
    }

    #[test]
    fn load_be_lsb0() {
        // The part of the first word has the highest digits: 1 of 0x12, and then 4 of 0x34.
        let words = [0x12_u8, 0x34];
        assert_eq!(
            words
                .view_bits::<Lsb0>()
                .get(4..12)
                .unwrap()
                .load_be::<u8>(),
            0x14
        );
    }

    #[test]
    fn load_signed() {
        let words = [0b0000_1101_u8];
        let bits = words.view_bits::<Lsb0>();
        assert_eq!(bits.get(..4).unwrap().load_le::<i8>(), -3);
        assert_eq!(bits.get(..5).unwrap().load_le::<i8>(), 13);
    }

    #[test]
    fn load() {
        assert_eq!(
            [7_u8, 0].view_bits::<Lsb0>().load::<u16>(),
            u16::from_ne_bytes([7, 0])
        );
    }

    #[test]
    fn load_into_more() {
        assert_eq!(bits![u8, Msb0; 1, 1, 1].load_be::<u64>(), 7);
    }

    #[test]
    #[should_panic(expected = "9 bits")]
    fn load_into_fewer() {
        let _ = bits![0; 9].load_le::<u8>();
    }

    #[test]
    fn load_of_no_bits() {
        // (there a panic; here the number of no digits)
        assert_eq!(bits![].load_le::<u8>(), 0);
    }

    #[test]
    fn store_le() {
        let mut words = [0_u8; 2];
        words
            .view_bits_mut::<Lsb0>()
            .get_mut(6..12)
            .unwrap()
            .store_le(0b10_1101_u8);
        assert_eq!(words, [0b0100_0000, 0b0000_1011]);
    }

    #[test]
    fn store_be() {
        let mut words = [0_u8; 2];
        words
            .view_bits_mut::<Msb0>()
            .get_mut(6..12)
            .unwrap()
            .store_be(0b10_1101_u8);
        assert_eq!(words, [0b0000_0010, 0b1101_0000]);
    }

    #[test]
    fn store_drops_high_digits() {
        let mut bits = bitvec![0; 4];
        bits.store_le_wrapping(0xf5_u8);
        assert_eq!(bits.load_le::<u8>(), 5);
        bits.store_be_wrapping(-3_i64);
        assert_eq!(bits.load_be::<i8>(), -3);
        bits.store_wrapping(0x17_u16);
        assert_eq!(bits.load::<u8>(), 7);
        // (there `store_le`, `store_be` and `store` drop them too; here no call does without that word)
        assert_eq!(bits.try_store_le(0xf5_u8), Err(Refusal::TooLarge));
        assert_eq!(bits.try_store_be(8), Err(Refusal::TooLarge));
        assert_eq!(bits.load::<u8>(), 7);
    }

    #[test]
    #[should_panic(expected = "store_le 245_u8 in 4 bits: a number has too many digits \
        (`try_store_le` answers that, and `store_le_wrapping` puts the lowest digits)")]
    fn store_le_of_too_many_digits() {
        bitvec![0; 4].store_le(0xf5_u8);
    }

    #[test]
    #[should_panic(
        expected = "store_be 8_i32 in 4 bits, the sign's among them: a number has too many digits (`try_store_be`"
    )]
    fn store_be_of_too_many_digits() {
        bitvec![0; 4].store_be(8);
    }

    #[test]
    #[should_panic(
        expected = "store -1_i8 in 0 bits, the sign's among them: a number has too many digits (`try_store_le`"
    )]
    fn store_in_no_bits() {
        // (there a panic, of 0 too)
        let mut bits = bitvec![0; 0];
        bits.store(0);
        bits.store(-1_i8);
    }

    #[test]
    #[should_panic(
        expected = "store_be 1_u8 in 9 bits: a number is to have more bits than its type"
    )]
    fn store_in_more_bits_than_the_type_has() {
        bitvec![0; 9].store_be(1_u8);
    }

    #[test]
    #[should_panic(expected = "store_wrapping 1 in 65 bits: these are more than 64")]
    fn store_wrapping_in_more_than_64_bits() {
        bitvec![0; 65].store_wrapping(1_u64);
    }

    #[test]
    fn store_and_load() {
        round_trip(0x2b_u8, 6);
        round_trip(-3_i8, 5);
        round_trip(0x1_2345_u32, 17);
        round_trip(-70_000_i32, 20);
        round_trip(u64::MAX, 64);
        round_trip(i64::MIN, 64);
    }
}

mod vectors_made {
    use super::*;

    #[test]
    fn new() {
        let bits = BitVec::<u8, Msb0>::new();
        assert!(bits.is_empty() && bits.capacity() == 0);
    }

    #[test]
    fn with_capacity() {
        let bits = BitVec::<u8, Lsb0>::with_capacity(20);
        assert!(bits.is_empty() && bits.capacity() >= 20);
    }

    #[test]
    fn bitvec_macro() {
        assert_eq!(bitvec![], bits![]);
        assert_eq!(bitvec![1, 0, 1].to_string(), "101");
        let len = 9;
        assert_eq!(bitvec![u16, Msb0; 1; len].count_ones(), 9);
    }

    #[test]
    fn from_bitslice() {
        assert_eq!(
            BitVec::<u8, Msb0>::from_bitslice(bits![0, 1]).to_string(),
            "01"
        );
    }

    #[test]
    fn from_element() {
        assert_eq!(BitVec::<u8, Msb0>::from_element(5).to_string(), "00000101");
    }

    #[test]
    fn from_slice() {
        assert_eq!(
            BitVec::<u8, Lsb0>::from_slice(&[1, 2])
                .iter_ones()
                .collect::<Vec<_>>(),
            [0, 9]
        );
    }

    #[test]
    fn from_vec() {
        let bits = BitVec::<u32, Lsb0>::from_vec(vec![1, 2]);
        assert_eq!((bits.len(), bits.count_ones()), (64, 2));
    }

    #[test]
    fn try_from_vec() {
        assert!(BitVec::<u8, Lsb0>::try_from_vec(vec![0; 3]).is_ok_and(|it| it.len() == 24));
        assert_eq!(BitVec::<u8, Lsb0>::try_from(vec![1]).unwrap().len(), 8);
    }

    #[test]
    fn repeat() {
        assert_eq!(BitVec::<u8, Lsb0>::repeat(true, 5), bits![1; 5]);
    }

    #[test]
    fn collect_bools() {
        assert_eq!([true, false].into_iter().collect::<BitVec>(), bits![1, 0]);
        assert_eq!([true, false].iter().collect::<BitVec>(), bits![1, 0]);
    }

    #[test]
    fn collect_words() {
        let bits = [1_u8, 2].into_iter().collect::<BitVec<u8, Lsb0>>();
        assert_eq!((bits.len(), bits.count_ones()), (16, 2));
    }

    #[test]
    fn collect_slices() {
        assert_eq!(
            [bits![0, 1], bits![1]].into_iter().collect::<BitVec>(),
            bits![0, 1, 1]
        );
    }

    #[test]
    fn concat() {
        // (there a call of a list of slices; here `collect`)
        assert_eq!(
            [bits![1], bits![0, 0]]
                .into_iter()
                .collect::<BitVec>()
                .to_string(),
            "100"
        );
    }

    #[test]
    fn default() {
        assert!(BitVec::<u16, Msb0>::default().is_empty());
    }

    #[test]
    fn clone() {
        let bits = bitvec![0, 1];
        let mut copy = bits.clone();
        copy.push(true);
        assert_eq!((bits.len(), copy.len()), (2, 3));
    }

    #[test]
    fn parse() {
        // (not there)
        assert_eq!(
            "0110".parse::<BitVec<u8, Msb0>>().unwrap(),
            bits![0, 1, 1, 0]
        );
        assert_eq!("0 1".parse::<BitVec>().err(), Some(Refusal::NotADigit(1)));
    }
}

mod vectors_changed {
    use super::*;

    #[test]
    fn push() {
        let mut bits = BitVec::<u8, Msb0>::new();
        bits.push(false);
        bits.push(true);
        assert_eq!(bits, bits![0, 1]);
    }

    #[test]
    fn pop() {
        let mut bits = bitvec![0, 1];
        assert_eq!(
            (bits.pop(), bits.pop(), bits.pop()),
            (Some(true), Some(false), None)
        );
    }

    #[test]
    fn insert() {
        let mut bits = bitvec![0; 3];
        bits.insert(1, true);
        bits.insert(4, true);
        assert_eq!(bits, bits![0, 1, 0, 0, 1]);
    }

    #[test]
    #[should_panic(expected = "insert (3, true) of 2 bits")]
    fn insert_outside() {
        bitvec![0, 0].insert(3, true);
    }

    #[test]
    fn remove() {
        let mut bits = bitvec![0, 1, 0];
        assert!(bits.remove(1));
        assert_eq!(bits, bits![0, 0]);
    }

    #[test]
    #[should_panic(expected = "remove 2 of 2 bits")]
    fn remove_outside() {
        bitvec![0, 0].remove(2);
    }

    #[test]
    fn swap_remove() {
        let mut bits = bitvec![1, 0, 0, 1];
        assert!(bits.swap_remove(0));
        assert_eq!(bits, bits![1, 0, 0]);
        assert!(!bits.swap_remove(2));
        assert_eq!(bits, bits![1, 0]);
    }

    #[test]
    #[should_panic(expected = "swap_remove 0 of 0 bits")]
    fn swap_remove_of_none() {
        bitvec![].swap_remove(0);
    }

    #[test]
    fn truncate() {
        let mut bits = bitvec![0, 1, 0, 1];
        bits.truncate(8);
        assert_eq!(bits.len(), 4);
        bits.truncate(2);
        assert_eq!(bits, bits![0, 1]);
    }

    #[test]
    fn clear() {
        let mut bits = bitvec![0; 40];
        let room = bits.capacity();
        bits.clear();
        assert!(bits.is_empty() && bits.capacity() == room);
    }

    #[test]
    fn resize() {
        let mut bits = bitvec![0; 4];
        bits.resize(8, true);
        assert_eq!(bits, bits![0, 0, 0, 0, 1, 1, 1, 1]);
        bits.resize(3, true);
        assert_eq!(bits, bits![0; 3]);
    }

    #[test]
    fn append() {
        let (mut a, mut b) = (bitvec![u16, Lsb0; 0; 2], bitvec![u32, Msb0; 1; 2]);
        a.append(&mut b);
        assert!(b.is_empty());
        assert_eq!(a, bits![0, 0, 1, 1]);
    }

    #[test]
    fn split_off() {
        let mut bits = bitvec![0, 0, 1];
        assert_eq!(bits.split_off(1), bits![0, 1]);
        assert_eq!(bits, bits![0]);
    }

    #[test]
    #[should_panic(expected = "split_off 2 of 1 bits")]
    fn split_off_outside() {
        let _ = bitvec![0].split_off(2);
    }

    #[test]
    fn drain() {
        let mut bits = bitvec![0, 1, 0, 1];
        assert_eq!(bits.drain(1..3).collect::<BitVec>(), bits![1, 0]);
        assert_eq!(bits, bits![0, 1]);
    }

    #[test]
    #[should_panic(expected = "drain")]
    fn drain_outside() {
        let _ = bitvec![0, 1].drain(1..4);
    }

    #[test]
    fn splice() {
        // (there a call; here what is behind is cut off, and put back behind the new bits)
        let mut bits = bitvec![0, 1, 1, 0];
        let behind = bits.split_off(3);
        bits.truncate(1);
        bits.extend([false, false, true]);
        bits.extend_from_bitslice(behind);
        assert_eq!(bits, bits![0, 0, 0, 1, 0]);
    }

    #[test]
    fn retain() {
        let mut bits = bitvec![0, 1, 0, 1, 1];
        bits.retain(|index, bit| *bit ^ (index % 2 == 0));
        assert_eq!(bits, bits![0, 1, 0, 1]);
    }

    #[test]
    fn extend() {
        let mut bits = bitvec![0];
        bits.extend([true, true]);
        bits.extend(&[false]);
        assert_eq!(bits, bits![0, 1, 1, 0]);
    }

    #[test]
    fn extend_from_bitslice() {
        let mut bits = bitvec![0, 1];
        bits.extend_from_bitslice(bits![u8, Msb0; 1, 0]);
        assert_eq!(bits, bits![0, 1, 1, 0]);
    }

    #[test]
    fn extend_from_within() {
        // (there a call; here by a copy of the part)
        let mut bits = bitvec![0, 1, 0];
        let part = bits.get(1..).unwrap().to_bitvec();
        bits.extend_from_bitslice(part);
        assert_eq!(bits, bits![0, 1, 0, 1, 0]);
    }

    #[test]
    fn extend_from_raw_slice() {
        let mut bits = bitvec![u8, Msb0; 1];
        bits.extend_from_raw_slice(&[0x0f]);
        assert_eq!(bits, bits![1, 0, 0, 0, 0, 1, 1, 1, 1]);
    }

    #[test]
    fn reserve() {
        let mut bits = bitvec![1; 3];
        bits.reserve(100);
        assert!(bits.capacity() >= 103 && bits == bits![1; 3]);
    }

    #[test]
    fn capacity() {
        let bits = bitvec![u8, Lsb0; 0; 9];
        assert!(bits.capacity() >= 9 && bits.capacity().is_multiple_of(8));
    }

    #[test]
    fn as_bitslice() {
        let bits = bitvec![0, 1, 1];
        assert_eq!(bits.as_bitslice(), bits![0, 1, 1]);
    }

    #[test]
    fn as_mut_bitslice() {
        let mut bits = bitvec![0, 1, 1];
        bits.as_mut_bitslice().set(0, true);
        assert_eq!(bits, bits![1; 3]);
    }

    #[test]
    fn as_raw_slice() {
        let mut bits = bitvec![u8, Lsb0; 0; 12];
        bits.fill(false);
        bits.set(9, true);
        assert_eq!(bits.as_raw_slice().len(), 2);
        assert_eq!(bits.as_raw_slice()[1] & 0x0f, 2);
    }

    #[test]
    fn into_vec() {
        assert_eq!(bitvec![u8, Msb0; 1, 0, 1, 0, 0, 0, 0, 0].into_vec(), [0xa0]);
        assert_eq!(Vec::from(bitvec![u16, Lsb0; 1; 16]), [0xffff]);
    }

    #[test]
    fn into_boxed_bitslice() {
        assert_eq!(bitvec![0, 1].into_boxed_bitslice(), bits![0, 1]);
    }

    #[test]
    fn into_iterator() {
        let mut bits = bitvec![0, 1, 1].into_iter();
        assert_eq!(
            (bits.next(), bits.next_back(), bits.len()),
            (Some(false), Some(true), 1)
        );
    }

    #[test]
    fn ordered_and_hashed() {
        let ordered = ["1", "01", "0"]
            .map(of)
            .into_iter()
            .collect::<BTreeSet<_>>();
        assert_eq!(texts(&ordered), ["0", "01", "1"]);
        let mut words = HashMap::from([(of("01"), 'a')]);
        assert_eq!(words.remove(&bitvec![0, 1]), Some('a'));
    }
}

mod boxes_and_arrays {
    use super::*;

    #[test]
    fn box_from_bitslice() {
        assert_eq!(
            BitBox::<u8, Msb0>::from_bitslice(bits![0, 1]).to_string(),
            "01"
        );
    }

    #[test]
    fn box_into_bitvec() {
        let mut bits = bitbox![0, 1].into_bitvec();
        bits.push(true);
        assert_eq!(bits, bits![0, 1, 1]);
    }

    #[test]
    fn box_as_mut_bitslice() {
        let mut bits = bitbox![0, 1];
        bits.as_mut_bitslice().fill(true);
        assert_eq!(bits.as_bitslice(), bits![1, 1]);
    }

    #[test]
    fn box_edited() {
        let mut bits = bitbox![0; 4];
        bits.set(3, true);
        bits |= bits![1];
        assert_eq!(bits, bits![1, 0, 0, 1]);
    }

    #[test]
    fn array_new() {
        let bits = BitArray::<[u8; 2], Lsb0>::new([1, 2]);
        assert_eq!((bits.len(), bits.count_ones()), (16, 2));
    }

    #[test]
    fn array_zero() {
        assert!(BitArray::<[u32; 2], Msb0>::ZERO.not_any());
        assert_eq!(BitArray::<[u32; 2], Msb0>::default().len(), 64);
    }

    #[test]
    fn array_into_inner() {
        assert_eq!(bitarr![u8, Msb0; 1, 0, 1].into_inner(), [0xa0]);
    }

    #[test]
    fn array_as_raw_slice() {
        let mut bits = bitarr![u8, Lsb0; 0; 16];
        bits.as_raw_mut_slice()[1] = 3;
        assert_eq!(bits.as_raw_slice(), [0, 3]);
        assert_eq!(bits.iter_ones().collect::<Vec<_>>(), [8, 9]);
    }

    #[test]
    fn array_by_value() {
        let ones = bitarr![u8, Lsb0; 1; 8];
        assert_eq!((!ones).into_inner(), [0]);
        assert_eq!((ones & bits![1, 1]).into_inner(), [3]);
        assert_eq!(ones.into_inner(), [0xff]);
    }

    #[test]
    fn array_type() {
        // (whole words, as there)
        let bits: BitArr!(for 9, in u8) = BitArray::ZERO;
        assert_eq!(bits.len(), 16);
    }

    #[test]
    fn local_bits() {
        assert!(0x01_u8.view_bits::<LocalBits>()[0]);
    }
}
