//! The first 63 lines that a user of the crate `bitvec` types, by its names: the 50 that compile here
//! and mean the same. Each line that a comment numbers counts once. The other 13 are:
//!
//! - six in which a slice is a reference: `&bits[a..b]`, the same with `.load`, `.load_be`, `.store`
//!   and `.fill` behind it, and `fn f(b: &mut BitSlice<u8, Msb0>)`; here a slice is a value;
//! - one in which `let b = data.view_bits_mut()` is without `mut`, as a reference is, and `b.set(..)`
//!   behind it; and `*a &= b`, where `a` is such a slice: here it is `a &= b`;
//! - `split_at_mut` inside a word, which answers a refusal here, and words of `AtomicU8`;
//! - `{}` and `{:x}`: a slice prints as `011` here and as `[0, 1, 1]` there, and has no `{:x}`;
//! - what `serde` derives.

use std::collections::HashMap;
use worghulen::prelude::*;

fn ones_of(b: BitSlice<'_, u8, Msb0>) -> usize {
    b.count_ones()
}

fn any_ones<T: BitStore, O: BitOrder>(b: BitSlice<'_, T, O>) -> usize {
    b.count_ones()
}

/// Those that compiled before there were vectors.
#[test]
fn views_and_questions() {
    let mut data = [0x12_u8, 0x34];
    let words: Vec<u16> = [0xf0, 1].into();
    let bits = data.view_bits::<Msb0>(); // 1
    assert_eq!(words.view_bits::<Lsb0>().len(), 32); // 2
    assert_eq!(ones_of(bits), 5); // 3
    assert!(bits[3]); // 4
    assert_eq!(bits.iter_ones().collect::<Vec<_>>(), [3, 6, 10, 11, 13]); // 5
    assert_eq!((bits.count_ones(), bits.count_zeros()), (5, 11)); // 6
    assert_eq!(
        (bits.first_one(), bits.last_one(), bits.leading_zeros()),
        (Some(3), Some(13), 3)
    ); // 7
    assert_eq!(bits.chunks(4).count(), 4); // 8
    assert_eq!(bits.split_at(4).1.len(), 12); // 9
    assert!([0x80_u8].view_bits::<Msb0>() == [1_u8].view_bits::<Lsb0>()); // 10
    let mut bits = data.view_bits_mut::<Msb0>();
    bits.set(0, true); // 11
    bits.get_mut(8..12).unwrap().fill(false); // 12
    bits.copy_within(..4, 4); // 13
    bits.rotate_left(1); // 14
    bits.shift_left(1);
    bits.swap(0, 1); // 15
    bits.reverse();
    bits.fill(true); // 16
    assert_eq!(data, [0xff; 2]);
}

/// What came since.
#[test]
fn names() {
    let mut data = [0x12_u8, 0x34];
    assert_eq!(data.as_bits::<Lsb0>().len(), 16); // 17, and the prelude is 18
    assert_eq!(BitSlice::<u8, Msb0>::from_slice(&data).count_ones(), 5); // 19
    assert_eq!(
        BitSlice::<u8, Lsb0>::from_element(&data[0]).first_one(),
        Some(1)
    ); // 20
    let n: u16 = data.view_bits::<Msb0>().load_be(); // 21
    assert_eq!(n, 0x1234);
    let mut bits = data.view_bits_mut::<Lsb0>();
    *bits.get_mut(0).unwrap() = true; // 22
    for mut bit in bits.iter_mut().take(4) {
        *bit = !*bit; // 23
    }
    assert_eq!(data, [0x1c, 0x34]);
    let bits = data.view_bits::<Lsb0>();
    assert_eq!(bits.iter().by_vals().filter(|b| *b).count(), 6); // 24
    assert!(bits.some()); // 25
    assert_eq!(bits.chunks_exact(5).count(), 3); // 26
    assert_eq!(bits.windows(5).count(), 12); // 27
    assert_eq!(bits.rchunks(5).count(), 4); // 28
    assert_eq!(bits.split(|_, bit| *bit).count(), 7); // 29
    let mut other = [0_u8; 2];
    other.view_bits_mut::<Lsb0>().copy_from_bitslice(bits); // 30
    other.view_bits_mut::<Lsb0>().clone_from_bitslice(bits); // 31
    assert_eq!(other, data);
    assert_eq!(any_ones::<u8, LocalBits>(bits), 6); // 32, 33
    assert_eq!(bits.domain().collect::<Vec<_>>(), data); // 34
    let refused = std::panic::catch_unwind(move || other.view_bits_mut::<Lsb0>().set(16, true)); // 35
    assert!(refused.is_err());
}

/// Bits that are lent to be read.
#[test]
#[allow(clippy::explicit_iter_loop)] // (as it is typed)
fn proxies() {
    let data = [0x12_u8, 0x34];
    let bits = data.view_bits::<Msb0>();
    assert!(*bits.get(3).unwrap()); // 46
    assert_eq!(bits.get(3).map(|b| *b), Some(true)); // 47
    assert_eq!(bits.get(16).map(|b| *b), None);
    assert_eq!(bits.first().as_deref(), Some(&false)); // 48
    let mut ones = 0;
    for bit in bits.iter() {
        if *bit {
            ones += 1; // 49
        }
    }
    assert_eq!(ones, 5);
    assert_eq!(bits.iter().filter(|b| **b).count(), 5); // 50
    assert_eq!(bits.iter().position(|b| *b), Some(3));
    assert!(bits.iter().rev().skip(2).step_by(3).any(|b| !b));
    assert_eq!(bits.iter().map(|b| u8::from(*b)).sum::<u8>(), 5);
    assert_eq!(bits.iter().by_refs().copied().max(), Some(true));
    assert_eq!(bits.iter().collect::<BitVec<u8, Lsb0>>(), bits);
    assert!(bits.into_iter().zip(&bits.to_bitvec()).all(|(a, b)| a == b));
}

/// Bits that are owned.
#[test]
fn owned() {
    const FLAGS: BitArray<[u8; 1], Msb0> = bitarr![const u8, Msb0; 1, 0, 1]; // 36
    let mut bv: BitVec = BitVec::new();
    bv.push(true); // 37
    assert_eq!(bitvec![0; 100].len(), 100); // 38
    let odd = (0..10).map(|i| i % 2 == 1).collect::<BitVec>(); // 39
    assert_eq!(odd, bits![0, 1, 0, 1, 0, 1, 0, 1, 0, 1]); // 40
    assert_eq!(bitarr![u8, Msb0; 1, 0, 1], FLAGS); // 41
    let zero: BitArr!(for 100, in u32, Msb0) = BitArray::ZERO; // 42
    assert_eq!(zero.len(), 128);
    assert_eq!(FLAGS.as_bitslice().to_bitvec().len(), 8); // 43
    assert_eq!(BitVec::<u8, Lsb0>::from_vec(vec![1, 2]).into_vec(), [1, 2]); // 44
    let mut names = HashMap::from([(bitvec![0, 1], "one"), (bitvec![1, 1], "three")]);
    assert_eq!(names.remove(&bitvec![0, 1]), Some("one"));
    assert_eq!(format!("{:?}", bitvec![u8, Msb0; 0, 1, 1]), "[0, 1, 1]");
}

/// Bits as inputs and outputs of bytes.
#[cfg(feature = "std")]
#[test]
fn bytes() {
    use std::io::{Read, Write};
    let mut data = [0x12_u8, 0x34, 0x56];
    let (mut buf, mut bits) = ([0; 2], data.view_bits::<Msb0>());
    bits.read_exact(&mut buf).unwrap(); // 45
    assert_eq!((buf, bits.len()), ([0x12, 0x34], 8));
    data.view_bits_mut::<Msb0>().write_all(&[0xff]).unwrap();
    let mut bv = BitVec::<u8, Msb0>::new();
    bv.write_all(&data).unwrap();
    assert_eq!(bv.into_vec(), [0xff, 0x34, 0x56]);
}
