//! The calls of slices of what has bits and is none: each call of a [`BitSlice`], of a
//! [`BitSliceMut`] and of what owns its bits too, and each edit of a [`BitSliceMut`], of these.

use crate::array::BitArray;
#[cfg(feature = "alloc")]
use crate::boxed::BitBox;
use crate::domain::Domain;
use crate::index::{BitIndex, BitPosition};
use crate::iter::{Chunks, Iter, Ones, Zeros};
use crate::number::Number;
use crate::order::Order;
use crate::own::AsBitSlice;
use crate::pieces::{ChunksExact, RChunks, Windows};
use crate::proxy::{BitRef, Const, IterMut, Mut};
use crate::refusal::Refusal;
use crate::register::Register;
use crate::slice::BitSlice;
use crate::slice_mut::BitSliceMut;
#[cfg(feature = "alloc")]
use crate::vec::BitVec;
use core::cmp::Ordering;
use core::ops::{BitAnd, BitAndAssign, BitOr, BitOrAssign, BitXor, BitXorAssign};
use core::ops::{Index, Not, RangeBounds};

/// An example in the docs of a call: lines behind those that make eight bits of the type.
macro_rules! example {
    ($make:literal, $($line:literal)+) => {
        concat!(
            "\n# Examples\n\n```\nuse worghulen::prelude::*;\n\n", $make, "\n",
            $($line, "\n",)+
            "```",
        )
    };
}

macro_rules! forwards {
    ([$($generics:tt)*] $type:ty, $make:literal: $(
        $(#[$attribute:meta])*
        $name:ident $(<$($p:ident: $b:path),*>)? ($($arg:ident: $t:ty),*) -> $result:ty =>
            $($line:literal)+;
    )*) => {
        impl<$($generics)*> $type { $(
            #[doc = concat!("As [`BitSlice::", stringify!($name), "`] of the same bits.")]
            $(#[$attribute])*
            #[doc = example!($make, $($line)+)]
            #[inline]
            pub fn $name<$($($p: $b),*)?>(&self, $($arg: $t),*) -> $result {
                self.as_bitslice().$name($($arg),*)
            }
        )* }
    };
}

macro_rules! readers {
    ([$($generics:tt)*] $type:ty, $make:literal) => {
        forwards! { [$($generics)*] $type, $make:
            #[must_use] len() -> usize =>
                "assert_eq!(bits.len(), 8);";
            #[must_use] is_empty() -> bool =>
                "assert!(!bits.is_empty());";
            #[must_use] first() -> Option<BitRef<'_, Const, T, O>> =>
                "assert_eq!(bits.first().as_deref(), Some(&false));";
            #[must_use] last() -> Option<BitRef<'_, Const, T, O>> =>
                "assert_eq!(bits.last().as_deref(), Some(&false));";
            #[must_use] count_ones() -> usize =>
                "assert_eq!(bits.count_ones(), 3);";
            #[must_use] count_zeros() -> usize =>
                "assert_eq!(bits.count_zeros(), 5);";
            #[must_use] first_one() -> Option<usize> =>
                "assert_eq!(bits.first_one(), Some(1));";
            #[must_use] first_zero() -> Option<usize> =>
                "assert_eq!(bits.first_zero(), Some(0));";
            #[must_use] last_one() -> Option<usize> =>
                "assert_eq!(bits.last_one(), Some(4));";
            #[must_use] last_zero() -> Option<usize> =>
                "assert_eq!(bits.last_zero(), Some(7));";
            #[must_use] leading_zeros() -> usize =>
                "assert_eq!(bits.leading_zeros(), 1);";
            #[must_use] leading_ones() -> usize =>
                "assert_eq!(bits.leading_ones(), 0);";
            #[must_use] trailing_zeros() -> usize =>
                "assert_eq!(bits.trailing_zeros(), 3);";
            #[must_use] trailing_ones() -> usize =>
                "assert_eq!(bits.trailing_ones(), 0);";
            #[must_use] next_one(from: usize) -> Option<usize> =>
                "assert_eq!((bits.next_one(3), bits.next_one(5)), (Some(4), None));";
            #[must_use] next_zero(from: usize) -> Option<usize> =>
                "assert_eq!(bits.next_zero(1), Some(3));";
            #[must_use] previous_one(before: usize) -> Option<usize> =>
                "assert_eq!(bits.previous_one(4), Some(2));";
            #[must_use] previous_zero(before: usize) -> Option<usize> =>
                "assert_eq!(bits.previous_zero(3), Some(0));";
            #[must_use] find_zeros(count: usize) -> Option<usize> =>
                "assert_eq!((bits.find_zeros(2), bits.find_zeros(4)), (Some(5), None));";
            #[must_use] find_zeros_from(
                from: usize, count: usize, multiple_of: usize
            ) -> Option<usize> =>
                "assert_eq!(bits.find_zeros_from(1, 1, 2), Some(6));";
            #[must_use] find(pattern: impl AsBitSlice) -> Option<usize> =>
                "assert_eq!(bits.find(bits![1, 1]), Some(1));";
            #[must_use] contains(pattern: impl AsBitSlice) -> bool =>
                "assert!(bits.contains(bits![0, 1, 0]));";
            #[must_use] any() -> bool =>
                "assert!(bits.any());";
            #[must_use] not_any() -> bool =>
                "assert!(!bits.not_any());";
            #[must_use] all() -> bool =>
                "assert!(!bits.all());";
            #[must_use] not_all() -> bool =>
                "assert!(bits.not_all());";
            #[must_use] some() -> bool =>
                "assert!(bits.some());";
            iter() -> Iter<'_, T, O> =>
                "assert_eq!(bits.iter().filter(|bit| **bit).count(), 3);";
            iter_ones() -> Ones<'_, T, O> =>
                "assert_eq!(bits.iter_ones().collect::<Vec<_>>(), [1, 2, 4]);";
            iter_zeros() -> Zeros<'_, T, O> =>
                "assert_eq!(bits.iter_zeros().collect::<Vec<_>>(), [0, 3, 5, 6, 7]);";
            #[must_use] domain() -> Domain<'_, T, O> =>
                "use worghulen::Domain;"
                ""
                "assert!(matches!(bits.domain(), Domain::Region { body: [0x16], .. }));";
            #[cfg(feature = "alloc")] #[must_use] to_bitvec() -> BitVec<T, O> =>
                "assert_eq!(bits.to_bitvec(), bits);";
            split(is_cut: impl FnMut(usize, &bool) -> bool)
                -> impl Iterator<Item = BitSlice<'_, T, O>> =>
                "let lens = bits.split(|_, bit| *bit).map(|part| part.len());"
                "assert_eq!(lens.collect::<Vec<_>>(), [1, 0, 1, 3]);";
            #[must_use] split_at_checked(
                mid: usize
            ) -> Option<(BitSlice<'_, T, O>, BitSlice<'_, T, O>)> =>
                "assert!(bits.split_at_checked(9).is_none());"
                "let (low, high) = bits.split_at_checked(3).unwrap();"
                "assert_eq!((low.len(), high.len()), (3, 5));";
            #[must_use] split_first() -> Option<(BitRef<'_, Const, T, O>, BitSlice<'_, T, O>)> =>
                "let (bit, rest) = bits.split_first().unwrap();"
                "assert_eq!((*bit, rest.len()), (false, 7));";
            #[must_use] split_last() -> Option<(BitRef<'_, Const, T, O>, BitSlice<'_, T, O>)> =>
                "let (bit, rest) = bits.split_last().unwrap();"
                "assert_eq!((*bit, rest.len()), (false, 7));";
            #[must_use] equals<T2: Register, O2: Order>(other: &BitSlice<'_, T2, O2>) -> bool =>
                "assert!(bits.equals(&bits![0, 1, 1, 0, 1, 0, 0, 0]));";
            #[must_use] compare<T2: Register, O2: Order>(
                other: &BitSlice<'_, T2, O2>
            ) -> Ordering =>
                "assert!(bits.compare(&bits![1]).is_lt());";
            #[must_use] first_difference<T2: Register, O2: Order>(
                other: &BitSlice<'_, T2, O2>
            ) -> Option<usize> =>
                "assert_eq!(bits.first_difference(&bits![0, 1, 0]), Some(2));";
            #[must_use] starts_with<T2: Register, O2: Order>(
                other: &BitSlice<'_, T2, O2>
            ) -> bool =>
                "assert!(bits.starts_with(&bits![0, 1, 1]));";
            #[must_use] ends_with<T2: Register, O2: Order>(
                other: &BitSlice<'_, T2, O2>
            ) -> bool =>
                "assert!(bits.ends_with(&bits![1, 0, 0, 0]));";
            #[must_use] is_subset<T2: Register, O2: Order>(
                other: &BitSlice<'_, T2, O2>
            ) -> bool =>
                "assert!(bits.is_subset(&bits![1; 8]));";
            #[must_use] intersects<T2: Register, O2: Order>(
                other: &BitSlice<'_, T2, O2>
            ) -> bool =>
                "assert!(bits.intersects(&bits![0, 0, 1]));";
            #[must_use] count_and<T2: Register, O2: Order>(
                other: &BitSlice<'_, T2, O2>
            ) -> usize =>
                "assert_eq!(bits.count_and(&bits![0, 1, 0, 1]), 1);";
            #[must_use] count_or<T2: Register, O2: Order>(
                other: &BitSlice<'_, T2, O2>
            ) -> usize =>
                "assert_eq!(bits.count_or(&bits![0, 1, 0, 1]), 4);";
            ///
            /// # Errors
            ///
            /// As that call.
            part(range: impl RangeBounds<usize>) -> Result<BitSlice<'_, T, O>, Refusal> =>
                "assert_eq!(bits.part(1..4).unwrap(), bits![1, 1, 0]);"
                "assert!(bits.part(1..9).is_err());";
            ///
            /// # Errors
            ///
            /// As that call.
            try_load_le<N: Number>() -> Result<N, Refusal> =>
                "assert_eq!(bits.try_load_le::<u8>(), Ok(0x16));";
            ///
            /// # Errors
            ///
            /// As that call.
            try_load_be<N: Number>() -> Result<N, Refusal> =>
                "assert_eq!(bits.try_load_be::<u16>(), Ok(0x16));";
            ///
            /// # Panics
            ///
            /// As that call.
            #[must_use] #[track_caller] load_le<N: Number>() -> N =>
                "assert_eq!(bits.load_le::<u8>(), 0x16);";
            ///
            /// # Panics
            ///
            /// As that call.
            #[must_use] #[track_caller] load_be<N: Number>() -> N =>
                "assert_eq!(bits.load_be::<u16>(), 0x16);";
            ///
            /// # Panics
            ///
            /// As that call.
            #[must_use] #[track_caller] load<N: Number>() -> N =>
                "assert_eq!(bits.load::<u64>(), 0x16);";
            ///
            /// # Panics
            ///
            /// As that call.
            #[must_use] #[track_caller] split_at(
                mid: usize
            ) -> (BitSlice<'_, T, O>, BitSlice<'_, T, O>) =>
                "let (low, high) = bits.split_at(2);"
                "assert_eq!(low, bits![0, 1]);"
                "assert_eq!(high.len(), 6);";
            ///
            /// # Panics
            ///
            /// As that call.
            #[track_caller] chunks(size: usize) -> Chunks<'_, T, O> =>
                "let lens = bits.chunks(3).map(|chunk| chunk.len());"
                "assert_eq!(lens.collect::<Vec<_>>(), [3, 3, 2]);";
            ///
            /// # Panics
            ///
            /// As that call.
            #[track_caller] chunks_exact(size: usize) -> ChunksExact<'_, T, O> =>
                "assert_eq!(bits.chunks_exact(3).count(), 2);";
            ///
            /// # Panics
            ///
            /// As that call.
            #[track_caller] rchunks(size: usize) -> RChunks<'_, T, O> =>
                "assert_eq!(bits.rchunks(3).last().unwrap(), bits![0, 1]);";
            ///
            /// # Panics
            ///
            /// As that call.
            #[track_caller] windows(size: usize) -> Windows<'_, T, O> =>
                "assert_eq!(bits.windows(7).count(), 2);";
        }

        impl<$($generics)*> $type {
            /// As [`BitSlice::get`] of the same bits; [`get_mut`](Self::get_mut) lends them for
            /// writing.
            #[doc = example!($make, "assert_eq!(bits.get(1).as_deref(), Some(&true));"
                "assert_eq!(bits.get(1..3).unwrap(), bits![1, 1]);")]
            #[inline]
            #[must_use]
            pub fn get<'b, I: BitIndex<'b, T, O>>(&'b self, index: I) -> Option<I::Output> {
                self.as_bitslice().get(index)
            }
        }

        /// As of a [`BitSlice`]: `bits[3]`. To write a bit, `set`.
        impl<$($generics)*, I: BitPosition> Index<I> for $type {
            type Output = bool;

            /// # Panics
            ///
            /// Panics where there is no such bit.
            #[inline]
            #[track_caller]
            fn index(&self, index: I) -> &bool {
                if self.as_bitslice()[index.position()] { &true } else { &false }
            }
        }

        impl<$($generics)*> AsBitSlice for $type {
            type Word = T;
            type Order = O;

            #[inline]
            fn as_bitslice(&self) -> BitSlice<'_, T, O> {
                self.as_bitslice()
            }
        }
    };
}

/// Each edit of a [`BitSliceMut`], of what owns its bits too.
macro_rules! edits {
    ([$($generics:tt)*] $type:ty, $make:literal) => {
        lent! { [$($generics)*] $type, $make:
            fill(bit: bool) -> () =>
                "bits.fill(true);"
                "assert!(bits.all());";
            invert() -> () =>
                "bits.invert();"
                "assert_eq!(bits, bits![1, 0, 0, 1, 0, 1, 1, 1]);";
            reverse() -> () =>
                "bits.reverse();"
                "assert_eq!(bits, bits![0, 0, 0, 1, 0, 1, 1, 0]);";
            try_set(index: usize, bit: bool) -> Result<(), Refusal> =>
                "assert!(bits.try_set(0, true).is_ok() && bits.try_set(8, true).is_err());"
                "assert!(bits[0]);";
            try_replace(index: usize, bit: bool) -> Result<bool, Refusal> =>
                "assert_eq!(bits.try_replace(1, false), Ok(true));"
                "assert!(!bits[1]);";
            try_swap(i: usize, j: usize) -> Result<(), Refusal> =>
                "bits.try_swap(0, 1).unwrap();"
                "assert_eq!(bits, bits![1, 0, 1, 0, 1, 0, 0, 0]);";
            try_copy_within(
                range: impl RangeBounds<usize>, start: usize
            ) -> Result<(), Refusal> =>
                "bits.try_copy_within(1..3, 6).unwrap();"
                "assert_eq!(bits, bits![0, 1, 1, 0, 1, 0, 1, 1]);";
            try_shift_left(by: usize) -> Result<(), Refusal> =>
                "bits.try_shift_left(1).unwrap();"
                "assert_eq!(bits, bits![1, 1, 0, 1, 0, 0, 0, 0]);";
            try_shift_right(by: usize) -> Result<(), Refusal> =>
                "bits.try_shift_right(1).unwrap();"
                "assert_eq!(bits, bits![0, 0, 1, 1, 0, 1, 0, 0]);";
            try_rotate_left(by: usize) -> Result<(), Refusal> =>
                "bits.try_rotate_left(2).unwrap();"
                "assert_eq!(bits, bits![1, 0, 1, 0, 0, 0, 0, 1]);";
            try_rotate_right(by: usize) -> Result<(), Refusal> =>
                "bits.try_rotate_right(2).unwrap();"
                "assert_eq!(bits, bits![0, 0, 0, 1, 1, 0, 1, 0]);";
            try_store_le(number: impl Number) -> Result<(), Refusal> =>
                "bits.try_store_le(0x2b).unwrap();"
                "assert_eq!(bits.load_le::<u8>(), 0x2b);";
            try_store_be(number: impl Number) -> Result<(), Refusal> =>
                "bits.try_store_be(0x2b).unwrap();"
                "assert_eq!(bits.load_be::<u8>(), 0x2b);";
            copy_from(source: impl AsBitSlice) -> Result<(), Refusal> =>
                "bits.copy_from(bits![1; 8]).unwrap();"
                "assert!(bits.all() && bits.copy_from(bits![0; 3]).is_err());";
            and_not_from(source: impl AsBitSlice) -> Result<(), Refusal> =>
                "bits.and_not_from(bits![1, 1, 0, 0, 0, 0, 0, 0]).unwrap();"
                "assert_eq!(bits, bits![0, 0, 1, 0, 1, 0, 0, 0]);";
            set(index: usize, bit: bool) -> () =>
                "bits.set(0, true);"
                "assert!(bits[0]);";
            replace(index: usize, bit: bool) -> bool =>
                "assert!(bits.replace(1, false));"
                "assert!(!bits[1]);";
            swap(i: usize, j: usize) -> () =>
                "bits.swap(0, 1);"
                "assert_eq!(bits, bits![1, 0, 1, 0, 1, 0, 0, 0]);";
            copy_within(range: impl RangeBounds<usize>, start: usize) -> () =>
                "bits.copy_within(1..3, 6);"
                "assert_eq!(bits, bits![0, 1, 1, 0, 1, 0, 1, 1]);";
            shift_left(by: usize) -> () =>
                "bits.shift_left(1);"
                "assert_eq!(bits, bits![1, 1, 0, 1, 0, 0, 0, 0]);";
            shift_right(by: usize) -> () =>
                "bits.shift_right(1);"
                "assert_eq!(bits, bits![0, 0, 1, 1, 0, 1, 0, 0]);";
            rotate_left(by: usize) -> () =>
                "bits.rotate_left(2);"
                "assert_eq!(bits, bits![1, 0, 1, 0, 0, 0, 0, 1]);";
            rotate_right(by: usize) -> () =>
                "bits.rotate_right(2);"
                "assert_eq!(bits, bits![0, 0, 0, 1, 1, 0, 1, 0]);";
            store_le(number: impl Number) -> () =>
                "bits.store_le(0x2b);"
                "assert_eq!(bits.load_le::<u8>(), 0x2b);";
            store_be(number: impl Number) -> () =>
                "bits.store_be(0x2b);"
                "assert_eq!(bits.load_be::<u8>(), 0x2b);";
            store(number: impl Number) -> () =>
                "bits.store(0x2b);"
                "assert_eq!(bits.load::<u8>(), 0x2b);";
            store_wrapping(number: impl Number) -> () =>
                "bits.store_wrapping(0x12b);"
                "assert_eq!(bits.load::<u8>(), 0x2b);";
            store_le_wrapping(number: impl Number) -> () =>
                "bits.store_le_wrapping(0x12b);"
                "assert_eq!(bits.load_le::<u8>(), 0x2b);";
            store_be_wrapping(number: impl Number) -> () =>
                "bits.store_be_wrapping(0x12b);"
                "assert_eq!(bits.load_be::<u8>(), 0x2b);";
            copy_from_bitslice(source: impl AsBitSlice) -> () =>
                "bits.copy_from_bitslice(bits![1; 8]);"
                "assert!(bits.all());";
            clone_from_bitslice(source: impl AsBitSlice) -> () =>
                "bits.clone_from_bitslice(bits![1; 8]);"
                "assert!(bits.all());";
        }

        impl<$($generics)*> $type {
            /// As [`BitSliceMut::get_mut`] of the same bits.
            #[doc = example!($make, "*bits.get_mut(0).unwrap() = true;"
                "bits.get_mut(6..).unwrap().fill(true);"
                "assert_eq!(bits, bits![1, 1, 1, 0, 1, 0, 1, 1]);")]
            #[inline]
            #[must_use]
            pub fn get_mut<'b, I: BitIndex<'b, T, O>>(
                &'b mut self,
                index: I,
            ) -> Option<I::OutputMut> {
                index.of_mut(self.as_mut_bitslice())
            }

            /// As [`BitSliceMut::part_mut`] of the same bits.
            ///
            /// # Errors
            ///
            /// As that call.
            #[doc = example!($make, "bits.part_mut(6..).unwrap().fill(true);"
                "assert!(bits[7] && bits.part_mut(6..9).is_err());")]
            #[inline]
            pub fn part_mut(
                &mut self,
                range: impl RangeBounds<usize>,
            ) -> Result<BitSliceMut<'_, T, O>, Refusal> {
                self.as_mut_bitslice().into_part(range)
            }

            /// As [`BitSliceMut::iter_mut`] of the same bits.
            #[doc = example!($make, "bits.iter_mut().step_by(2).for_each(|mut bit| *bit = true);"
                "assert_eq!(bits, bits![1, 1, 1, 0, 1, 0, 1, 0]);")]
            pub fn iter_mut(&mut self) -> IterMut<'_, T, O> {
                IterMut::new(self.as_mut_bitslice())
            }
        }

        impl<$($generics)*, B: AsBitSlice> BitAndAssign<B> for $type {
            fn bitand_assign(&mut self, other: B) {
                self.as_mut_bitslice().bitand_assign(other);
            }
        }

        impl<$($generics)*, B: AsBitSlice> BitOrAssign<B> for $type {
            fn bitor_assign(&mut self, other: B) {
                self.as_mut_bitslice().bitor_assign(other);
            }
        }

        impl<$($generics)*, B: AsBitSlice> BitXorAssign<B> for $type {
            fn bitxor_assign(&mut self, other: B) {
                self.as_mut_bitslice().bitxor_assign(other);
            }
        }

        /// As `&=` of a [`BitSliceMut`]: as many bits as here, zero where the other ends.
        impl<$($generics)*, B: AsBitSlice> BitAnd<B> for $type {
            type Output = Self;

            fn bitand(mut self, other: B) -> Self {
                self &= other;
                self
            }
        }

        /// As `|=` of a [`BitSliceMut`]: as many bits as here.
        impl<$($generics)*, B: AsBitSlice> BitOr<B> for $type {
            type Output = Self;

            fn bitor(mut self, other: B) -> Self {
                self |= other;
                self
            }
        }

        /// As `^=` of a [`BitSliceMut`]: as many bits as here.
        impl<$($generics)*, B: AsBitSlice> BitXor<B> for $type {
            type Output = Self;

            fn bitxor(mut self, other: B) -> Self {
                self ^= other;
                self
            }
        }

        /// Each bit turned over.
        impl<$($generics)*> Not for $type {
            type Output = Self;

            fn not(mut self) -> Self {
                self.invert();
                self
            }
        }

        impl<'b, $($generics)*> IntoIterator for &'b $type {
            type Item = BitRef<'b, Const, T, O>;
            type IntoIter = Iter<'b, T, O>;

            fn into_iter(self) -> Iter<'b, T, O> {
                self.iter()
            }
        }

        impl<'b, $($generics)*> IntoIterator for &'b mut $type {
            type Item = BitRef<'b, Mut, T, O>;
            type IntoIter = IterMut<'b, T, O>;

            fn into_iter(self) -> IterMut<'b, T, O> {
                self.iter_mut()
            }
        }
    };
}

macro_rules! lent {
    ([$($generics:tt)*] $type:ty, $make:literal: $(
        $name:ident ($($arg:ident: $t:ty),*) -> $result:ty => $($line:literal)+;
    )*) => {
        impl<$($generics)*> $type { $(
            #[doc = concat!(
                "As [`BitSliceMut::", stringify!($name), "`] of the same bits, also in what is refused.",
            )]
            #[doc = example!($make, $($line)+)]
            #[allow(clippy::missing_errors_doc)]
            #[inline]
            #[track_caller]
            pub fn $name(&mut self, $($arg: $t),*) -> $result {
                self.as_mut_bitslice().$name($($arg),*)
            }
        )* }
    };
}

readers! {
    [T: Register, O: Order] BitSliceMut<'_, T, O>,
    "let mut words = [0b0001_0110_u8];\nlet bits = words.view_bits_mut::<Lsb0>();"
}
readers! {
    [T: Register, O: Order, const W: usize] BitArray<[T; W], O>,
    "let bits = bitarr![u8, Lsb0; 0, 1, 1, 0, 1, 0, 0, 0];"
}
edits! {
    [T: Register, O: Order, const W: usize] BitArray<[T; W], O>,
    "let mut bits = bitarr![u8, Lsb0; 0, 1, 1, 0, 1, 0, 0, 0];"
}

#[cfg(feature = "alloc")]
readers! {
    [T: Register, O: Order] BitVec<T, O>,
    "let bits = bitvec![u8, Lsb0; 0, 1, 1, 0, 1, 0, 0, 0];"
}
#[cfg(feature = "alloc")]
edits! {
    [T: Register, O: Order] BitVec<T, O>,
    "let mut bits = bitvec![u8, Lsb0; 0, 1, 1, 0, 1, 0, 0, 0];"
}
#[cfg(feature = "alloc")]
readers! {
    [T: Register, O: Order] BitBox<T, O>,
    "let bits = bitbox![u8, Lsb0; 0, 1, 1, 0, 1, 0, 0, 0];"
}
#[cfg(feature = "alloc")]
edits! {
    [T: Register, O: Order] BitBox<T, O>,
    "let mut bits = bitbox![u8, Lsb0; 0, 1, 1, 0, 1, 0, 0, 0];"
}
