//! Words seen as bits.

use crate::order::Order;
use crate::register::Register;
use crate::slice::BitSlice;
use crate::slice_mut::BitSliceMut;
use core::slice;

/// Words whose bits can be seen: a slice or an array of words, and a single word.
///
/// # Examples
///
/// ```
/// use worghulen::{BitView, Lsb0};
///
/// let words = [0x0f_u8, 0x01];
/// assert_eq!(words.view_bits::<Lsb0>().count_ones(), 5);
/// let mut word = 0_u32;
/// word.view_bits_mut::<Lsb0>().set(9, true);
/// assert_eq!(word, 0x200);
/// let mut seats = [0_usize; 2];
/// seats.view_bits_mut::<Lsb0>().set(64, true);
/// assert_eq!(seats, [0, 1]);
/// ```
pub trait BitView {
    /// The type of the words.
    type Word: Register;

    /// All their bits, to be read. Constant time.
    ///
    /// # Panics
    ///
    /// Panics where there are more than 2305843009213693951 bits, which are 262144 tebibytes.
    ///
    /// # Examples
    ///
    /// ```
    /// use worghulen::{BitView, Msb0};
    ///
    /// assert_eq!([0x80_u8, 1].view_bits::<Msb0>().iter_ones().collect::<Vec<_>>(), [0, 15]);
    /// ```
    fn view_bits<O: Order>(&self) -> BitSlice<'_, Self::Word, O>;

    /// All their bits, to be written. Constant time.
    ///
    /// # Panics
    ///
    /// As [`view_bits`](Self::view_bits).
    ///
    /// # Examples
    ///
    /// ```
    /// use worghulen::{BitView, Msb0};
    ///
    /// let mut words = [0_u8; 2];
    /// words.view_bits_mut::<Msb0>().set(15, true);
    /// assert_eq!(words, [0, 1]);
    /// ```
    fn view_bits_mut<O: Order>(&mut self) -> BitSliceMut<'_, Self::Word, O>;
}

impl<T: Register> BitView for [T] {
    type Word = T;

    #[inline]
    fn view_bits<O: Order>(&self) -> BitSlice<'_, T, O> {
        BitSlice::from_slice(self)
    }

    #[inline]
    fn view_bits_mut<O: Order>(&mut self) -> BitSliceMut<'_, T, O> {
        BitSlice::from_slice_mut(self)
    }
}

impl<T: Register, const N: usize> BitView for [T; N] {
    type Word = T;

    #[inline]
    fn view_bits<O: Order>(&self) -> BitSlice<'_, T, O> {
        self.as_slice().view_bits()
    }

    #[inline]
    fn view_bits_mut<O: Order>(&mut self) -> BitSliceMut<'_, T, O> {
        self.as_mut_slice().view_bits_mut()
    }
}

macro_rules! words {
    ($($word:ident)*) => { $(
        impl BitView for $word {
            type Word = Self;

            #[inline]
            fn view_bits<O: Order>(&self) -> BitSlice<'_, Self, O> {
                slice::from_ref(self).view_bits()
            }

            #[inline]
            fn view_bits_mut<O: Order>(&mut self) -> BitSliceMut<'_, Self, O> {
                slice::from_mut(self).view_bits_mut()
            }
        }
    )* };
}

words!(u8 u16 u32 u64 usize);

/// What lends a slice of words, as a `Vec` does, seen as bits.
///
/// # Examples
///
/// ```
/// use worghulen::{AsBits, Lsb0};
///
/// assert_eq!(vec![3_u8, 1].as_bits::<Lsb0>().count_ones(), 3);
/// ```
pub trait AsBits<T: Register> {
    /// All their bits, to be read. Constant time.
    ///
    /// # Panics
    ///
    /// As [`BitView::view_bits`].
    ///
    /// # Examples
    ///
    /// ```
    /// use worghulen::{AsBits, Lsb0};
    ///
    /// let words: Box<[u8]> = Box::new([3, 1]);
    /// assert_eq!(words.as_bits::<Lsb0>().len(), 16);
    /// ```
    fn as_bits<O: Order>(&self) -> BitSlice<'_, T, O>;
}

impl<T: Register, A: AsRef<[T]> + ?Sized> AsBits<T> for A {
    fn as_bits<O: Order>(&self) -> BitSlice<'_, T, O> {
        self.as_ref().view_bits()
    }
}

/// What lends a slice of words for writing, as a `Vec` does, seen as bits.
///
/// # Examples
///
/// ```
/// use worghulen::{AsMutBits, Lsb0};
///
/// let mut words = vec![0_u8; 2];
/// words.as_mut_bits::<Lsb0>().set(9, true);
/// assert_eq!(words, [0, 2]);
/// ```
pub trait AsMutBits<T: Register> {
    /// All their bits, to be written. Constant time.
    ///
    /// # Panics
    ///
    /// As [`BitView::view_bits`].
    ///
    /// # Examples
    ///
    /// ```
    /// use worghulen::{AsMutBits, Lsb0};
    ///
    /// let mut words = vec![3_u8, 1];
    /// words.as_mut_bits::<Lsb0>().invert();
    /// assert_eq!(words, [0xfc, 0xfe]);
    /// ```
    fn as_mut_bits<O: Order>(&mut self) -> BitSliceMut<'_, T, O>;
}

impl<T: Register, A: AsMut<[T]> + ?Sized> AsMutBits<T> for A {
    fn as_mut_bits<O: Order>(&mut self) -> BitSliceMut<'_, T, O> {
        self.as_mut().view_bits_mut()
    }
}
