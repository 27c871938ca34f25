//! Two slices compared, whatever their words and orders are.

use crate::array::BitArray;
#[cfg(feature = "alloc")]
use crate::boxed::BitBox;
use crate::order::Order;
use crate::own::AsBitSlice;
use crate::register::Register;
use crate::slice::{BitSlice, granted};
use crate::slice_mut::BitSliceMut;
#[cfg(feature = "alloc")]
use crate::vec::BitVec;
use crate::words::whole;
use core::cmp::Ordering;
use core::hash::{Hash, Hasher};

/// Whether `len` bits from two places on are the same: words that are whole in both as std's
/// slices compare them, and what stands before and behind these by calls of the library.
fn equal<T: Register, O: Order>(one: (&[T], usize), other: (&[T], usize), len: usize) -> bool {
    let ((words, start), (others, from)) = (one, other);
    let same = |at: usize, count: usize| {
        let (here, there) = ((words, start + at), (others, from + at));
        count == 0 || granted(T::equal(O::CODE, here, there, count))
    };
    match whole::<T>(start, len) {
        Some((head, count)) if start % T::BITS == from % T::BITS => {
            let words = &words[(start + head) / T::BITS..][..count];
            let others = &others[(from + head) / T::BITS..][..count];
            let behind = head + count * T::BITS;
            same(0, head) && words == others && same(behind, len - behind)
        }
        _ => same(0, len),
    }
}

impl<T: Register, O: Order> BitSlice<'_, T, O> {
    /// Whether another slice has as many bits, and the same ones: what `==` answers. Costs by words
    /// where the orders are the same, else by bits, up to the first difference.
    ///
    /// # Examples
    ///
    /// ```
    /// use worghulen::{BitSlice, BitView, Lsb0, Msb0};
    ///
    /// let words = [0b0110_0110_u8];
    /// let low = BitSlice::<_, Lsb0>::new(&words, 0..4)?;
    /// let high = BitSlice::<_, Lsb0>::new(&words, 4..8)?;
    /// assert!(low.equals(&high));
    /// assert_eq!(low, [0x6000_u16].view_bits::<Msb0>().get(..4).unwrap());
    /// # Ok::<(), worghulen::Refusal>(())
    /// ```
    #[must_use]
    pub fn equals<T2: Register, O2: Order>(&self, other: &BitSlice<'_, T2, O2>) -> bool {
        if self.len() != other.len() {
            return false;
        }
        match T::same(&other.seen()) {
            Some(others) if O::CODE == O2::CODE => {
                equal::<T, O>(self.place(), (others, other.place().1), self.len())
            }
            _ => self.first_difference(other).is_none(),
        }
    }

    /// The index of the first bit that is not the same in both slices, counted from 0, and `None`
    /// where there is none as far as both slices go. Costs by words where the orders are the same,
    /// else by bits, up to that bit.
    ///
    /// # Examples
    ///
    /// ```
    /// use worghulen::{BitView, Lsb0};
    ///
    /// let (one, other) = ([0x5a_u8], [0x4a_u32]);
    /// let (one, other) = (one.view_bits::<Lsb0>(), other.view_bits::<Lsb0>());
    /// assert_eq!(one.first_difference(&other), Some(4));
    /// ```
    #[must_use]
    pub fn first_difference<T2: Register, O2: Order>(
        &self,
        other: &BitSlice<'_, T2, O2>,
    ) -> Option<usize> {
        let len = self.len().min(other.len());
        if let Some(words) = T::same(&other.seen()) {
            let found = self.ask(words, other, len, T::first_difference);
            return (found < len).then_some(found);
        }
        let (_, start) = self.place();
        let one = (&self.seen(), start);
        let found = granted(T2::difference(O::CODE, one, O2::CODE, other.place(), len));
        (found < len).then_some(found)
    }

    /// How the slice compares with another, bit by bit from the first on, as two `&[bool]` do. At
    /// the first difference the slice with the zero is less, and where there is none the shorter.
    /// Costs by words where the orders are the same, else by bits, up to the first difference.
    ///
    /// # Examples
    ///
    /// ```
    /// use std::cmp::Ordering;
    /// use worghulen::{BitView, Lsb0, Msb0};
    ///
    /// let (one, other) = ([0x0f_u8], [0xf0_u16]);
    /// let (one, other) = (one.view_bits::<Lsb0>(), other.view_bits::<Msb0>());
    /// assert_eq!(one.compare(&other), Ordering::Greater);
    /// assert!(one > other && one.get(..0).unwrap() < other);
    /// ```
    #[must_use]
    pub fn compare<T2: Register, O2: Order>(&self, other: &BitSlice<'_, T2, O2>) -> Ordering {
        match self.first_difference(other) {
            Some(index) => self.bit(index).cmp(&other.bit(index)),
            None => self.len().cmp(&other.len()),
        }
    }

    /// Whether the bits begin with those of another slice. Costs by words where the orders are the
    /// same, else by bits.
    ///
    /// # Examples
    ///
    /// ```
    /// use worghulen::{BitView, Msb0};
    ///
    /// let (bytes, start) = ([0x47_u8, 0x11], [0x47_u8]);
    /// assert!(bytes.view_bits::<Msb0>().starts_with(&start.view_bits::<Msb0>()));
    /// ```
    #[must_use]
    pub fn starts_with<T2: Register, O2: Order>(&self, other: &BitSlice<'_, T2, O2>) -> bool {
        self.part(..other.len())
            .is_ok_and(|start| start.equals(other))
    }

    /// Whether the bits end with those of another slice. Costs by words where the orders are the
    /// same, else by bits.
    ///
    /// # Examples
    ///
    /// ```
    /// use worghulen::{BitView, Lsb0, Msb0};
    ///
    /// let (bytes, end) = ([0x47_u8, 0x11], [0x1_u8]);
    /// let end = end.view_bits::<Lsb0>();
    /// assert!(bytes.view_bits::<Lsb0>().ends_with(&end.get(..4).unwrap()));
    /// assert!(!bytes.view_bits::<Msb0>().ends_with(&end));
    /// ```
    #[must_use]
    pub fn ends_with<T2: Register, O2: Order>(&self, other: &BitSlice<'_, T2, O2>) -> bool {
        self.len()
            .checked_sub(other.len())
            .is_some_and(|from| self.rest(from).equals(other))
    }
}

/// Whether two slices have as many bits, and the same ones, whatever their words and orders are.
/// Costs by words where the orders are the same, else by bits.
///
/// # Examples
///
/// ```
/// use worghulen::{BitView, Lsb0, Msb0};
///
/// let (bytes, word) = ([0b0000_1101_u8], 0b1011_0000_0000_0000_u16);
/// let (low, high) = (bytes.view_bits::<Lsb0>(), word.view_bits::<Msb0>());
/// assert!(low != high);
/// assert!(low == high.get(..8).unwrap());
/// assert!(low.get(..4).unwrap() == [true, false, true, true]);
/// ```
impl<T: Register, O: Order, B: AsBitSlice> PartialEq<B> for BitSlice<'_, T, O> {
    fn eq(&self, other: &B) -> bool {
        self.equals(&other.as_bitslice())
    }
}

impl<T: Register, O: Order, B: AsBitSlice> PartialOrd<B> for BitSlice<'_, T, O> {
    fn partial_cmp(&self, other: &B) -> Option<Ordering> {
        Some(self.compare(&other.as_bitslice()))
    }
}

/// The order of two lists of `bool`: that of the first bits that differ, and else a slice that goes
/// on is the greater. Slices of other words and orders compare by `<` too. Costs by words, or by
/// bits where the orders differ.
///
/// # Examples
///
/// ```
/// use worghulen::{BitView, Lsb0, Msb0};
///
/// let words = [0b0110_0010_u8];
/// let bits = words.view_bits::<Lsb0>();
/// let mut parts: Vec<_> = bits.chunks(3).collect();
/// parts.sort();
/// assert_eq!(parts.iter().map(|it| it.to_string()).collect::<Vec<_>>(), ["001", "010", "10"]);
/// assert!(bits < 0x8000_u16.view_bits::<Msb0>());
/// ```
impl<T: Register, O: Order> Ord for BitSlice<'_, T, O> {
    fn cmp(&self, other: &Self) -> Ordering {
        self.compare(other)
    }
}

/// Slices that are equal have the same hash, also where their words and orders differ. Costs by
/// words.
///
/// # Examples
///
/// ```
/// use std::collections::HashSet;
/// use worghulen::{BitView, Lsb0};
///
/// let words = [0b0101_1010_u8];
/// let parts: HashSet<_> = words.view_bits::<Lsb0>().chunks(2).collect();
/// assert_eq!(parts.len(), 2);
/// ```
impl<T: Register, O: Order> Hash for BitSlice<'_, T, O> {
    fn hash<H: Hasher>(&self, state: &mut H) {
        state.write_usize(self.len());
        let mut from = 0;
        while from < self.len() {
            // (by their number alone, so that what is hashed does not tell where the bits lie)
            let count = (self.len() - from).min(64);
            state.write_u64(self.window(from, count));
            from += count;
        }
    }
}

/// What has bits is compared, ordered and hashed as they are.
macro_rules! as_slices {
    ([$($generics:tt)*] $type:ty) => {
        /// Whether both have the same bits, whatever their words and orders are.
        impl<$($generics)*, B: AsBitSlice> PartialEq<B> for $type {
            fn eq(&self, other: &B) -> bool {
                self.as_bitslice() == *other
            }
        }

        impl<$($generics)*, B: AsBitSlice> PartialOrd<B> for $type {
            fn partial_cmp(&self, other: &B) -> Option<Ordering> {
                self.as_bitslice().partial_cmp(other)
            }
        }

        impl<$($generics)*> Ord for $type {
            fn cmp(&self, other: &Self) -> Ordering {
                self.as_bitslice().cmp(&other.as_bitslice())
            }
        }

        impl<$($generics)*> Hash for $type {
            fn hash<H: Hasher>(&self, state: &mut H) {
                self.as_bitslice().hash(state);
            }
        }

        as_lists! { [$($generics)*] $type }
    };
}

macro_rules! as_lists {
    ([$($generics:tt)*] $type:ty) => {
        impl<$($generics)*> Eq for $type {}

        /// Whether a list of truth values is that of the bits. Costs by bits.
        impl<$($generics)*> PartialEq<[bool]> for $type {
            fn eq(&self, other: &[bool]) -> bool {
                self.iter().by_vals().eq(other.iter().copied())
            }
        }

        /// As with a slice of truth values.
        impl<$($generics)*, const M: usize> PartialEq<[bool; M]> for $type {
            fn eq(&self, other: &[bool; M]) -> bool {
                *self == other[..]
            }
        }
    };
}

as_lists! { [T: Register, O: Order] BitSlice<'_, T, O> }
as_slices! { [T: Register, O: Order] BitSliceMut<'_, T, O> }
as_slices! { [T: Register, O: Order, const W: usize] BitArray<[T; W], O> }
#[cfg(feature = "alloc")]
as_slices! { [T: Register, O: Order] BitVec<T, O> }
#[cfg(feature = "alloc")]
as_slices! { [T: Register, O: Order] BitBox<T, O> }
