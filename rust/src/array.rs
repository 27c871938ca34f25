//! Bits of a known number of words, by value.

use crate::order::{Lsb0, Order};
use crate::register::Register;
use crate::slice::BitSlice;
use crate::slice_mut::BitSliceMut;
use core::marker::PhantomData;

/// The bits of an array of words, by value. It takes no memory of an allocator, and is copied as
/// its words are.
///
/// It has every bit of its words: as many as the words' number times their width. Each call of a
/// [`BitSlice`] is one of it, and each edit of a [`BitSliceMut`].
/// [`bitarr!`](crate::bitarr) writes one down, and [`BitArr!`](crate::BitArr) its type for a number
/// of bits.
///
/// # Examples
///
/// ```
/// use worghulen::{BitArray, Msb0};
///
/// let mut flags = BitArray::<[u8; 2], Msb0>::ZERO;
/// flags.set(3, true);
/// flags |= BitArray::<_, Msb0>::new([0x01_u8, 0]);
/// assert_eq!((flags.len(), flags.count_ones()), (16, 2));
/// assert_eq!(flags.into_inner(), [0x11, 0]);
/// ```
#[derive(Clone, Copy)]
pub struct BitArray<A = [usize; 1], O = Lsb0> {
    words: A,
    order: PhantomData<O>,
}

impl<T: Register, O: Order, const N: usize> BitArray<[T; N], O> {
    /// Every bit zero.
    ///
    /// # Examples
    ///
    /// ```
    /// use worghulen::{BitArray, Lsb0};
    ///
    /// const NONE: BitArray<[u64; 2], Lsb0> = BitArray::ZERO;
    /// assert!(NONE.not_any());
    /// ```
    pub const ZERO: Self = Self::new([T::ZERO; N]);

    /// The bits of some words, in order, by a copy of the words. Constant time.
    ///
    /// # Examples
    ///
    /// ```
    /// use worghulen::{BitArray, Lsb0};
    ///
    /// assert!(BitArray::<_, Lsb0>::new([0x8000_u16])[15]);
    /// ```
    #[inline]
    #[must_use]
    pub const fn new(words: [T; N]) -> Self {
        Self {
            words,
            order: PhantomData,
        }
    }

    /// The words. Constant time.
    ///
    /// # Examples
    ///
    /// ```
    /// use worghulen::{BitArray, Lsb0};
    ///
    /// assert_eq!((!BitArray::<[u8; 1], Lsb0>::ZERO).into_inner(), [0xff]);
    /// ```
    #[inline]
    #[must_use]
    pub const fn into_inner(self) -> [T; N] {
        self.words
    }

    /// Its bits, for reading: a slice that begins with the first bit of its first word. Constant
    /// time.
    ///
    /// # Panics
    ///
    /// Panics where there are more than 2305843009213693951 bits.
    ///
    /// # Examples
    ///
    /// ```
    /// use worghulen::{BitArray, Lsb0};
    ///
    /// let array = BitArray::<[u8; 2], Lsb0>::new([0xff, 0]);
    /// assert!(array.as_bitslice().get(..8).unwrap().all());
    /// ```
    #[inline]
    #[must_use]
    pub fn as_bitslice(&self) -> BitSlice<'_, T, O> {
        BitSlice::from_slice(&self.words)
    }

    /// Its bits, borrowed for writing. Constant time.
    ///
    /// # Panics
    ///
    /// As [`as_bitslice`](Self::as_bitslice).
    ///
    /// # Examples
    ///
    /// ```
    /// use worghulen::{BitArray, Lsb0};
    ///
    /// let mut array = BitArray::<[u8; 2], Lsb0>::ZERO;
    /// array.as_mut_bitslice().get_mut(4..12).unwrap().fill(true);
    /// assert_eq!(array.into_inner(), [0xf0, 0x0f]);
    /// ```
    #[inline]
    #[must_use]
    pub fn as_mut_bitslice(&mut self) -> BitSliceMut<'_, T, O> {
        BitSlice::from_slice_mut(&mut self.words)
    }

    /// The words, to be read. Constant time.
    ///
    /// # Examples
    ///
    /// ```
    /// use worghulen::{BitArray, Lsb0};
    ///
    /// assert_eq!(BitArray::<[u8; 2], Lsb0>::ZERO.as_raw_slice(), [0, 0]);
    /// ```
    #[inline]
    #[must_use]
    pub fn as_raw_slice(&self) -> &[T] {
        &self.words
    }

    /// The words, to be written. Constant time.
    ///
    /// # Examples
    ///
    /// ```
    /// use worghulen::{BitArray, Lsb0};
    ///
    /// let mut array = BitArray::<[u8; 2], Lsb0>::ZERO;
    /// array.as_raw_mut_slice()[1] = 3;
    /// assert_eq!(array.iter_ones().collect::<Vec<_>>(), [8, 9]);
    /// ```
    #[inline]
    pub fn as_raw_mut_slice(&mut self) -> &mut [T] {
        &mut self.words
    }
}

/// Every bit zero.
impl<T: Register, O: Order, const N: usize> Default for BitArray<[T; N], O> {
    fn default() -> Self {
        Self::ZERO
    }
}

impl<T: Register, O: Order, const N: usize> From<[T; N]> for BitArray<[T; N], O> {
    fn from(words: [T; N]) -> Self {
        Self::new(words)
    }
}
