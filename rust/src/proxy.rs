//! Single bits that are lent, to be read or to be written.

use crate::order::{Lsb0, Order};
use crate::register::Register;
use crate::slice::granted;
use crate::slice_mut::BitSliceMut;
use core::cell::Cell;
use core::cmp::Ordering;
use core::fmt::{self, Debug, Display, Formatter};
use core::hash::{Hash, Hasher};
use core::iter::FusedIterator;
use core::marker::PhantomData;
use core::ops::{Deref, DerefMut, Not, Range};
use core::slice;

/// A bit that is lent: a `bool` behind a `*`, as the crate `bitvec` lends it.
///
/// With [`Const`] it is to be read, and `Copy`: [`BitSlice::get`](crate::BitSlice::get),
/// [`first`](crate::BitSlice::first) and [`iter`](crate::BitSlice::iter) have these. With [`Mut`] it
/// is to be written, and is written back where it is dropped: `get_mut` and
/// [`iter_mut`](crate::BitSliceMut::iter_mut) have these. Either compares with a `bool`, prints as one
/// and has its `!`.
///
/// # Examples
///
/// ```
/// use worghulen::{BitView, Lsb0};
///
/// let mut words = [0b0101_u8];
/// let mut bits = words.view_bits_mut::<Lsb0>();
/// *bits.get_mut(3).unwrap() = true;
/// for mut bit in bits.iter_mut() {
///     *bit = !*bit;
/// }
/// assert_eq!(words, [0b1111_0010]);
/// let bits = words.view_bits::<Lsb0>();
/// assert!(*bits.get(1).unwrap() && bits.get(2).unwrap() == false);
/// assert_eq!(bits.first().as_deref(), Some(&false));
/// assert_eq!(bits.get(4).map(|bit| *bit), Some(true));
/// assert_eq!(bits.iter().filter(|bit| **bit).count(), 5);
/// ```
#[derive(Clone, Copy)]
pub struct BitRef<'a, M: Mutability = Const, T: Register = usize, O: Order = Lsb0>(
    M::Held<'a, T, O>,
);

/// How a bit is lent: by [`Const`] or by [`Mut`], and no other.
///
/// # Examples
///
/// ```
/// use worghulen::{BitRef, Lsb0, Mutability, bits};
///
/// fn is_one<M: Mutability>(bit: BitRef<'_, M, usize, Lsb0>) -> bool {
///     *bit
/// }
///
/// assert!(is_one(bits![0, 1].get(1).unwrap()));
/// ```
#[diagnostic::on_unimplemented(
    message = "`{Self}` does not say how a bit is lent",
    label = "a bit is lent by `Const` or by `Mut`",
    note = "that stands before the word: `BitRef<'_, Const, u8, Lsb0>`"
)]
pub trait Mutability: held::Holds {}

/// To be read.
///
/// # Examples
///
/// ```
/// use worghulen::{BitRef, Const, bits};
///
/// let bit: BitRef<'_, Const> = bits![0, 1].get(1).unwrap();
/// assert!(*bit);
/// ```
#[derive(Clone, Copy, PartialEq, Eq, Hash, Debug, Default)]
pub struct Const;

/// To be written.
///
/// # Examples
///
/// ```
/// use worghulen::{BitRef, Mut, bitarr};
///
/// let mut bits = bitarr![0, 0];
/// let mut bit: BitRef<'_, Mut> = bits.get_mut(1).unwrap();
/// *bit = true;
/// drop(bit);
/// assert!(bits[1]);
/// ```
#[derive(Clone, Copy, PartialEq, Eq, Hash, Debug, Default)]
pub struct Mut;

impl Mutability for Const {}
impl Mutability for Mut {}

impl held::Holds for Const {
    type Held<'a, T: Register, O: Order> = bool;
}

impl held::Holds for Mut {
    type Held<'a, T: Register, O: Order> = Lent<'a, T, O>;
}

mod held {
    use crate::order::Order;
    use crate::register::Register;

    /// What is held of a bit that is lent. Nothing outside this crate can name it.
    pub trait Holds {
        /// The bit, and where it is written back.
        type Held<'a, T: Register, O: Order>: Bit;
    }

    /// What has a bit.
    pub trait Bit {
        /// The bit.
        fn bit(&self) -> &bool;
    }

    impl Bit for bool {
        #[inline]
        fn bit(&self) -> &bool {
            self
        }
    }
}

/// A bit that is written back where this is dropped.
pub struct Lent<'a, T: Register, O: Order> {
    /// (a cell, since others of the same word may be lent too)
    word: &'a Cell<T>,
    index: usize,
    was: bool,
    bit: bool,
    order: PhantomData<O>,
}

impl<T: Register, O: Order> held::Bit for Lent<'_, T, O> {
    #[inline]
    fn bit(&self) -> &bool {
        &self.bit
    }
}

/// Writes the bit where it has changed, and no other bit of its word.
impl<T: Register, O: Order> Drop for Lent<'_, T, O> {
    fn drop(&mut self) {
        if self.bit != self.was {
            let mut word = self.word.get();
            granted(T::set(
                O::CODE,
                slice::from_mut(&mut word),
                self.index,
                self.bit,
            ));
            self.word.set(word);
        }
    }
}

impl<'a, T: Register, O: Order> BitRef<'a, Mut, T, O> {
    /// The bit at a place of words, where there is one.
    pub(crate) fn at(words: &'a [Cell<T>], place: usize) -> Option<Self> {
        let (word, index) = (words.get(place / T::BITS)?, place % T::BITS);
        let bit = granted(T::get(O::CODE, &[word.get()], index));
        Some(Self(Lent {
            word,
            index,
            was: bit,
            bit,
            order: PhantomData,
        }))
    }
}

impl<M: Mutability, T: Register, O: Order> Deref for BitRef<'_, M, T, O> {
    type Target = bool;

    #[inline]
    fn deref(&self) -> &bool {
        held::Bit::bit(&self.0)
    }
}

impl<T: Register, O: Order> DerefMut for BitRef<'_, Mut, T, O> {
    #[inline]
    fn deref_mut(&mut self) -> &mut bool {
        &mut self.0.bit
    }
}

/// A bit of no memory, to compare with.
///
/// # Examples
///
/// ```
/// use worghulen::bits;
///
/// assert_eq!(bits![0, 1].get(1), Some(true.into()));
/// ```
impl<T: Register, O: Order> From<bool> for BitRef<'_, Const, T, O> {
    #[inline]
    fn from(bit: bool) -> Self {
        Self(bit)
    }
}

impl<M: Mutability, T: Register, O: Order> From<BitRef<'_, M, T, O>> for bool {
    #[inline]
    fn from(bit: BitRef<'_, M, T, O>) -> bool {
        *bit
    }
}

impl<M: Mutability, T: Register, O: Order> Not for BitRef<'_, M, T, O> {
    type Output = bool;

    #[inline]
    fn not(self) -> bool {
        !*self
    }
}

impl<M: Mutability, T: Register, O: Order> Debug for BitRef<'_, M, T, O> {
    fn fmt(&self, f: &mut Formatter<'_>) -> fmt::Result {
        Debug::fmt(&**self, f)
    }
}

impl<M: Mutability, T: Register, O: Order> Display for BitRef<'_, M, T, O> {
    fn fmt(&self, f: &mut Formatter<'_>) -> fmt::Result {
        Display::fmt(&**self, f)
    }
}

impl<M: Mutability, T: Register, O: Order> Eq for BitRef<'_, M, T, O> {}

impl<M: Mutability, T: Register, O: Order> Ord for BitRef<'_, M, T, O> {
    #[inline]
    fn cmp(&self, other: &Self) -> Ordering {
        (**self).cmp(&**other)
    }
}

impl<M: Mutability, T: Register, O: Order> Hash for BitRef<'_, M, T, O> {
    fn hash<H: Hasher>(&self, state: &mut H) {
        (**self).hash(state);
    }
}

/// Two bits, or a bit and a `bool`, compare as the `bool`s do.
impl<M, T, O, M2, T2, O2> PartialEq<BitRef<'_, M2, T2, O2>> for BitRef<'_, M, T, O>
where
    M: Mutability,
    T: Register,
    O: Order,
    M2: Mutability,
    T2: Register,
    O2: Order,
{
    #[inline]
    fn eq(&self, other: &BitRef<'_, M2, T2, O2>) -> bool {
        **self == **other
    }
}

impl<M, T, O, M2, T2, O2> PartialOrd<BitRef<'_, M2, T2, O2>> for BitRef<'_, M, T, O>
where
    M: Mutability,
    T: Register,
    O: Order,
    M2: Mutability,
    T2: Register,
    O2: Order,
{
    #[inline]
    fn partial_cmp(&self, other: &BitRef<'_, M2, T2, O2>) -> Option<Ordering> {
        (**self).partial_cmp(&**other)
    }
}

/// Each is as the `bool` of the two.
macro_rules! as_bools {
    ($($one:ty, $other:ty: $this:ident, $that:ident => $bools:expr;)*) => { $(
        impl<M: Mutability, T: Register, O: Order> PartialEq<$other> for $one {
            #[inline]
            fn eq(&self, other: &$other) -> bool {
                let ($this, $that) = (self, other);
                let (one, other): (&bool, &bool) = $bools;
                one == other
            }
        }

        impl<M: Mutability, T: Register, O: Order> PartialOrd<$other> for $one {
            #[inline]
            fn partial_cmp(&self, other: &$other) -> Option<Ordering> {
                let ($this, $that) = (self, other);
                let (one, other): (&bool, &bool) = $bools;
                one.partial_cmp(other)
            }
        }
    )* };
}

as_bools! {
    BitRef<'_, M, T, O>, bool: bit, other => (bit, other);
    BitRef<'_, M, T, O>, &bool: bit, other => (bit, *other);
    bool, BitRef<'_, M, T, O>: one, bit => (one, bit);
    &bool, BitRef<'_, M, T, O>: one, bit => (*one, bit);
}
/// The bits of a slice in order, each lent for writing: what [`BitSliceMut::iter_mut`] returns.
///
/// # Examples
///
/// ```
/// use worghulen::bitarr;
///
/// let mut bits = bitarr![0; 64];
/// let mut lent = bits.iter_mut();
/// let (mut first, mut last) = (lent.next().unwrap(), lent.next_back().unwrap());
/// (*first, *last) = (true, true);
/// drop((first, last));
/// assert_eq!(bits.iter_ones().collect::<Vec<_>>(), [0, 63]);
/// ```
#[derive(Debug)]
#[must_use = "iterators are lazy and do nothing unless consumed"]
pub struct IterMut<'a, T: Register, O: Order> {
    words: &'a [Cell<T>],
    left: Range<usize>,
    order: PhantomData<O>,
}

impl<'a, T: Register, O: Order> IterMut<'a, T, O> {
    pub(crate) fn new(bits: BitSliceMut<'a, T, O>) -> Self {
        let (words, start, len) = bits.into_place();
        Self {
            words: Cell::from_mut(words).as_slice_of_cells(),
            left: start..start + len,
            order: PhantomData,
        }
    }
}

impl<'a, T: Register, O: Order> Iterator for IterMut<'a, T, O> {
    type Item = BitRef<'a, Mut, T, O>;

    #[inline]
    fn next(&mut self) -> Option<Self::Item> {
        BitRef::at(self.words, self.left.next()?)
    }

    fn size_hint(&self) -> (usize, Option<usize>) {
        self.left.size_hint()
    }

    fn nth(&mut self, n: usize) -> Option<Self::Item> {
        BitRef::at(self.words, self.left.nth(n)?)
    }
}

impl<T: Register, O: Order> DoubleEndedIterator for IterMut<'_, T, O> {
    fn next_back(&mut self) -> Option<Self::Item> {
        BitRef::at(self.words, self.left.next_back()?)
    }
}

impl<T: Register, O: Order> ExactSizeIterator for IterMut<'_, T, O> {}

impl<T: Register, O: Order> FusedIterator for IterMut<'_, T, O> {}

impl<'b, T: Register, O: Order> IntoIterator for &'b mut BitSliceMut<'_, T, O> {
    type Item = BitRef<'b, Mut, T, O>;
    type IntoIter = IterMut<'b, T, O>;

    fn into_iter(self) -> IterMut<'b, T, O> {
        self.iter_mut()
    }
}

impl<T: Register, O: Order> BitSliceMut<'_, T, O> {
    /// The bits in order, each lent for writing by a [`BitRef`]. Constant time a bit; where many
    /// bits become the same, [`fill`](Self::fill) and its like go by words.
    ///
    /// # Examples
    ///
    /// ```
    /// use worghulen::{BitView, Lsb0};
    ///
    /// let mut words = [0_u8];
    /// for (i, mut bit) in words.view_bits_mut::<Lsb0>().iter_mut().enumerate() {
    ///     *bit = i % 3 == 0;
    /// }
    /// assert_eq!(words, [0b0100_1001]);
    /// ```
    pub fn iter_mut(&mut self) -> IterMut<'_, T, O> {
        IterMut::new(self.lend())
    }

    /// Makes the bits the same as others, of any words and order. Costs by words where the orders
    /// are the same, else by bits.
    ///
    /// # Panics
    ///
    /// Panics where those are not as many; [`copy_from`](Self::copy_from) does not. No bit is changed
    /// then.
    ///
    /// # Examples
    ///
    /// ```
    /// use worghulen::{BitView, Lsb0, bits};
    ///
    /// let mut words = [0_u8];
    /// words.view_bits_mut::<Lsb0>().get_mut(..3).unwrap().copy_from_bitslice(bits![1, 0, 1]);
    /// assert_eq!(words, [5]);
    /// ```
    #[track_caller]
    pub fn copy_from_bitslice(&mut self, source: impl crate::AsBitSlice) {
        let source = source.as_bitslice();
        assert!(
            self.copy_from(source).is_ok(),
            "copy_from_bitslice of {} bits to {}: these are not as many (`copy_from` answers that)",
            source.len(),
            self.len(),
        );
    }

    /// As [`copy_from_bitslice`](Self::copy_from_bitslice).
    ///
    /// # Panics
    ///
    /// As that call.
    ///
    /// # Examples
    ///
    /// ```
    /// use worghulen::{BitView, Lsb0, bits};
    ///
    /// let mut words = [0_u8];
    /// words.view_bits_mut::<Lsb0>().get_mut(..2).unwrap().clone_from_bitslice(bits![1, 1]);
    /// assert_eq!(words, [3]);
    /// ```
    #[track_caller]
    pub fn clone_from_bitslice(&mut self, source: impl crate::AsBitSlice) {
        self.copy_from_bitslice(source);
    }
}
