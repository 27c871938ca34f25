//! What names a bit or a range of bits of a slice.

use crate::order::Order;
use crate::proxy::{BitRef, Const, IterMut, Mut};
use crate::register::Register;
use crate::slice::BitSlice;
use crate::slice_mut::BitSliceMut;
use core::ops::{Bound, Index, Range, RangeFrom, RangeFull, RangeInclusive, RangeTo};
use core::ops::{RangeBounds, RangeToInclusive};

/// An index, which names a bit, or a range of indices, which names a slice of them: what
/// [`BitSlice::get`] and [`BitSliceMut::get_mut`] take.
///
/// # Examples
///
/// ```
/// use worghulen::{BitView, Lsb0};
///
/// let bits = 0b0110_1000_u8;
/// let bits = bits.view_bits::<Lsb0>();
/// assert!(*bits.get(3).unwrap());
/// assert_eq!(bits.get(3..6).unwrap().to_string(), "101");
/// assert!(bits.get(6..9).is_none());
/// ```
///
/// An index is a `usize`, and what is none does not compile:
///
/// ```compile_fail
/// use worghulen::{BitView, Lsb0};
///
/// let word = 6_u8;
/// word.view_bits::<Lsb0>().get(3_u32);
/// ```
#[diagnostic::on_unimplemented(
    message = "`{Self}` names neither a bit nor a range of bits",
    label = "an index is a `usize`, or a range of `usize`",
    note = "convert it: `bits.get(usize::try_from(index)?)`, `bits.get(from as usize..to as usize)`"
)]
pub trait BitIndex<'a, T, O>: sealed::Sealed {
    /// A bit, or a slice of bits.
    type Output;

    /// The same, lent for writing.
    type OutputMut;

    /// What is named, and `None` where it is not among the bits. Constant time.
    ///
    /// # Examples
    ///
    /// ```
    /// use worghulen::{BitIndex, bits};
    ///
    /// assert_eq!((1..3).of(bits![0, 1, 1]).unwrap(), bits![1, 1]);
    /// ```
    fn of(self, bits: BitSlice<'a, T, O>) -> Option<Self::Output>;

    /// The same, lent for writing.
    ///
    /// # Examples
    ///
    /// ```
    /// use worghulen::{BitIndex, BitView, Lsb0};
    ///
    /// let mut word = 0_u8;
    /// *3.of_mut(word.view_bits_mut::<Lsb0>()).unwrap() = true;
    /// assert_eq!(word, 8);
    /// ```
    fn of_mut(self, bits: BitSliceMut<'a, T, O>) -> Option<Self::OutputMut>;
}

mod sealed {
    /// Nothing outside this crate can name it.
    pub trait Sealed {}
}

/// What stands in the brackets of `bits[3]`: a `usize`, and nothing else.
///
/// A range of bits is no memory that a `&` could lend, so it does not stand there: it is
/// `bits.part(2..4)?` or `bits.get(2..4).unwrap()`, as the compiler says too.
///
/// # Examples
///
/// ```
/// use worghulen::{BitView, Lsb0};
///
/// let word = 0b0110_1000_u8;
/// let bits = word.view_bits::<Lsb0>();
/// assert!(bits[3] && bits.part(2..4)?[1]);
/// # Ok::<(), worghulen::Refusal>(())
/// ```
///
/// ```compile_fail
/// use worghulen::{BitView, Lsb0};
///
/// let word = 0b0110_1000_u8;
/// let bits = &word.view_bits::<Lsb0>()[2..4];
/// ```
#[diagnostic::on_unimplemented(
    message = "a slice of bits is a value: `[]` has single bits, and a range is `bits.part(2..4)?` or `bits.get(2..4).unwrap()`",
    label = "`{Self}` is no index of a bit, which is a `usize`",
    note = "for writing, take `bits.part_mut(2..4)?` or `bits.get_mut(2..4).unwrap()`"
)]
pub trait BitPosition: sealed::Sealed {
    /// The index.
    ///
    /// # Examples
    ///
    /// ```
    /// assert_eq!(worghulen::BitPosition::position(3), 3);
    /// ```
    fn position(self) -> usize;
}

impl BitPosition for usize {
    #[inline]
    fn position(self) -> usize {
        self
    }
}

impl sealed::Sealed for usize {}

impl<'a, T: Register, O: Order> BitIndex<'a, T, O> for usize {
    type Output = BitRef<'a, Const, T, O>;
    type OutputMut = BitRef<'a, Mut, T, O>;

    #[inline]
    fn of(self, bits: BitSlice<'a, T, O>) -> Option<Self::Output> {
        bits.bit(self).map(BitRef::from)
    }

    #[inline]
    fn of_mut(self, bits: BitSliceMut<'a, T, O>) -> Option<Self::OutputMut> {
        IterMut::new(bits).nth(self)
    }
}

macro_rules! ranges {
    ($($range:ty)*) => { $(
        impl sealed::Sealed for $range {}

        impl<'a, T: Register, O: Order> BitIndex<'a, T, O> for $range {
            type Output = BitSlice<'a, T, O>;
            type OutputMut = BitSliceMut<'a, T, O>;

            #[inline]
            fn of(self, bits: BitSlice<'a, T, O>) -> Option<BitSlice<'a, T, O>> {
                bits.part(self).ok()
            }

            #[inline]
            fn of_mut(self, bits: BitSliceMut<'a, T, O>) -> Option<BitSliceMut<'a, T, O>> {
                bits.into_part(self).ok()
            }
        }
    )* };
}

ranges! {
    Range<usize> RangeFrom<usize> RangeFull RangeInclusive<usize> RangeTo<usize>
    RangeToInclusive<usize> (Bound<usize>, Bound<usize>)
}

/// The bit at an index, as `bits[3]`. A range of bits is no reference, so [`BitSlice::get`] has
/// those. Constant time.
///
/// # Examples
///
/// ```
/// use worghulen::{BitView, Lsb0};
///
/// let words = [0b0000_1000_u8];
/// let bits = words.view_bits::<Lsb0>();
/// assert!(bits[3] && !bits[4]);
/// ```
impl<T: Register, O: Order, I: BitPosition> Index<I> for BitSlice<'_, T, O> {
    type Output = bool;

    /// # Panics
    ///
    /// Panics where there is no such bit.
    #[inline]
    #[track_caller]
    fn index(&self, index: I) -> &bool {
        let index = index.position();
        match self.bit(index) {
            Some(true) => &true,
            Some(false) => &false,
            None => no_bit(index, self.len()),
        }
    }
}

#[cold]
#[track_caller]
fn no_bit(index: usize, len: usize) -> ! {
    panic!("there is no bit {index} in a slice of {len} bits")
}

impl<'a, T: Register, O: Order> BitSlice<'a, T, O> {
    /// The bits of a range of indices, or why it is refused, which [`get`](Self::get) does not say.
    /// Constant time.
    ///
    /// # Errors
    ///
    /// [`Refusal::Reversed`](crate::Refusal::Reversed) where the range starts past its end,
    /// [`Refusal::TooLong`](crate::Refusal::TooLong) where it has too many bits, and
    /// [`Refusal::Outside`](crate::Refusal::Outside) where it ends past the last bit.
    ///
    /// # Examples
    ///
    /// ```
    /// use worghulen::{BitView, Lsb0, Refusal};
    ///
    /// let words = [0x5a_u8];
    /// let bits = words.view_bits::<Lsb0>();
    /// assert_eq!(bits.part(2..7)?.part(1..3)?, bits.part(3..5)?);
    /// assert_eq!(bits.part(2..9).err(), Some(Refusal::Outside { index: 9, len: 8 }));
    /// # Ok::<(), Refusal>(())
    /// ```
    #[inline]
    pub fn part(&self, range: impl RangeBounds<usize>) -> Result<Self, crate::Refusal> {
        let (words, start) = self.place();
        let (from, len) = crate::range::within(range, self.len())?;
        Ok(Self::of(words, start + from, len))
    }

    /// The first `mid` bits, and those behind them. Constant time.
    ///
    /// # Panics
    ///
    /// Panics where the index is past the length; [`split_at_checked`](Self::split_at_checked) does
    /// not.
    ///
    /// # Examples
    ///
    /// ```
    /// use worghulen::{BitView, Lsb0};
    ///
    /// let words = [0b0000_0111_u8];
    /// let (low, high) = words.view_bits::<Lsb0>().split_at(3);
    /// assert!(low.all() && high.not_any());
    /// ```
    #[inline]
    #[must_use]
    #[track_caller]
    pub fn split_at(&self, mid: usize) -> (Self, Self) {
        match self.split_at_checked(mid) {
            Some(parts) => parts,
            None => no_bit(mid, self.len()),
        }
    }

    /// The bits before an index, and those from it on, and `None` where the index is past the
    /// length. Constant time.
    ///
    /// # Examples
    ///
    /// ```
    /// use worghulen::{BitView, Msb0};
    ///
    /// let words = [0x9b_u8];
    /// let bits = words.view_bits::<Msb0>();
    /// let (high, low) = bits.split_at_checked(4).unwrap();
    /// assert_eq!((high.load_be::<u8>(), low.load_be::<u8>()), (0x9, 0xb));
    /// assert!(bits.split_at_checked(9).is_none());
    /// ```
    #[inline]
    #[must_use]
    pub fn split_at_checked(&self, mid: usize) -> Option<(Self, Self)> {
        Some((self.get(..mid)?, self.get(mid..)?))
    }

    /// The first bit and the bits behind it, and `None` where there are no bits. Constant time.
    ///
    /// # Examples
    ///
    /// ```
    /// use worghulen::{BitView, Lsb0};
    ///
    /// let words = [0x01_u8];
    /// let (first, rest) = words.view_bits::<Lsb0>().split_first().unwrap();
    /// assert!(*first && rest.not_any());
    /// ```
    #[must_use]
    pub fn split_first(&self) -> Option<(BitRef<'a, Const, T, O>, Self)> {
        Some((self.first()?, self.get(1..)?))
    }

    /// The last bit and the bits before it, and `None` where there are no bits. Constant time.
    ///
    /// # Examples
    ///
    /// ```
    /// use worghulen::{BitView, Lsb0};
    ///
    /// let words = [0x80_u8];
    /// let (last, rest) = words.view_bits::<Lsb0>().split_last().unwrap();
    /// assert!(*last && rest.not_any());
    /// ```
    #[must_use]
    pub fn split_last(&self) -> Option<(BitRef<'a, Const, T, O>, Self)> {
        let last = self.len().checked_sub(1)?;
        Some((self.last()?, self.get(..last)?))
    }
}
