//! Bits in memory of their own whose number stays.

use crate::order::{Lsb0, Order};
use crate::own::AsBitSlice;
use crate::register::Register;
use crate::slice::BitSlice;
use crate::slice_mut::BitSliceMut;
use crate::vec::{BitVec, IntoIter};

/// Bits in memory of their own whose number stays: a [`BitVec`] that does not grow.
///
/// Each call of a [`BitSlice`] is one of it, and each edit of a [`BitSliceMut`].
///
/// # Examples
///
/// ```
/// use worghulen::{BitBox, Lsb0, bitvec};
///
/// let mut boxed: BitBox<u8, Lsb0> = bitvec![u8, Lsb0; 0, 1, 1].into_boxed_bitslice();
/// boxed.set(0, true);
/// assert!(boxed.all());
/// assert_eq!(boxed.into_bitvec().len(), 3);
/// ```
#[derive(Clone)]
pub struct BitBox<T: Register = usize, O: Order = Lsb0>(BitVec<T, O>);

impl<T: Register, O: Order> BitBox<T, O> {
    /// A copy of bits, of any words and order. Costs by words where the orders are the same, else
    /// by bits.
    ///
    /// # Panics
    ///
    /// Panics where there is no memory for them.
    ///
    /// # Examples
    ///
    /// ```
    /// use worghulen::{BitBox, Lsb0, bits};
    ///
    /// assert_eq!(BitBox::<u8, Lsb0>::from_bitslice(bits![1, 0]).to_string(), "10");
    /// ```
    #[must_use]
    #[track_caller]
    pub fn from_bitslice(bits: impl AsBitSlice) -> Self {
        Self(BitVec::from_bitslice(bits))
    }

    /// The vector of the same bits. Constant time.
    ///
    /// # Examples
    ///
    /// ```
    /// use worghulen::{BitBox, Lsb0, bits};
    ///
    /// let mut vec = BitBox::<u8, Lsb0>::from_bitslice(bits![1, 0]).into_bitvec();
    /// vec.push(true);
    /// assert_eq!(vec.to_string(), "101");
    /// ```
    #[must_use]
    pub fn into_bitvec(self) -> BitVec<T, O> {
        self.0
    }

    /// The bits, to be read. Constant time.
    ///
    /// # Examples
    ///
    /// ```
    /// use worghulen::{BitBox, Lsb0, bits};
    ///
    /// let boxed = BitBox::<u8, Lsb0>::from_bitslice(bits![1, 0]);
    /// assert_eq!(boxed.as_bitslice(), bits![1, 0]);
    /// ```
    #[inline]
    #[must_use]
    pub fn as_bitslice(&self) -> BitSlice<'_, T, O> {
        self.0.as_bitslice()
    }

    /// The bits, to be written. Constant time.
    ///
    /// # Examples
    ///
    /// ```
    /// use worghulen::{BitBox, Lsb0, bits};
    ///
    /// let mut boxed = BitBox::<u8, Lsb0>::from_bitslice(bits![1, 0]);
    /// boxed.as_mut_bitslice().invert();
    /// assert_eq!(boxed.to_string(), "01");
    /// ```
    #[inline]
    #[must_use]
    pub fn as_mut_bitslice(&mut self) -> BitSliceMut<'_, T, O> {
        self.0.as_mut_bitslice()
    }
}

/// No bits.
impl<T: Register, O: Order> Default for BitBox<T, O> {
    fn default() -> Self {
        Self(BitVec::new())
    }
}

impl<T: Register, O: Order> From<BitVec<T, O>> for BitBox<T, O> {
    fn from(vec: BitVec<T, O>) -> Self {
        Self(vec)
    }
}

impl<T: Register, O: Order> From<BitBox<T, O>> for BitVec<T, O> {
    fn from(boxed: BitBox<T, O>) -> Self {
        boxed.0
    }
}

/// # Panics
///
/// Panics where there is no memory for the bits.
impl<T: Register, O: Order> FromIterator<bool> for BitBox<T, O> {
    fn from_iter<I: IntoIterator<Item = bool>>(bits: I) -> Self {
        Self(bits.into_iter().collect())
    }
}

impl<T: Register, O: Order> IntoIterator for BitBox<T, O> {
    type Item = bool;
    type IntoIter = IntoIter<T, O>;

    fn into_iter(self) -> IntoIter<T, O> {
        self.0.into_iter()
    }
}
