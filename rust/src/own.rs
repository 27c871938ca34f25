//! What has bits, and its words and order as the proved library has them.

use crate::order::Order;
use crate::proved::bitvec::ptr::span::BitSpan;
use crate::proved::bitvec_slice::slice;
use crate::register::Register;
use crate::slice::BitSlice;
use crate::sys::Exports;
#[cfg(feature = "alloc")]
use std_alloc::vec::Vec;

#[cfg(feature = "alloc")]
extern crate alloc as std_alloc;

/// Words that the library hands back, as this crate has them: the same, of the same type.
pub trait Owned: Exports + Eq {
    /// A word of no ones.
    const ZERO: Self;

    /// The words, to be read.
    fn own(words: &[Self::Word]) -> &[Self];

    /// The words, to be written.
    fn own_mut(words: &mut [Self::Word]) -> &mut [Self];

    /// The 64 bits of the words from one on, where there are that many: the digits of the first are
    /// the highest where `big`, and the lowest else.
    fn joined(words: &[Self], from: usize, big: bool) -> Option<u64>;

    /// The same of the first words, and the words behind these.
    fn split_joined(words: &[Self], big: bool) -> Option<(u64, &[Self])>;

    /// Puts 64 bits in place of those that `joined` has, where there are that many.
    fn put(words: &mut [Self], from: usize, big: bool, digits: u64) -> Option<()>;

    /// A vector, as the library is to have it.
    #[cfg(feature = "alloc")]
    fn give(words: Vec<Self>) -> Vec<Self::Word>;

    /// A vector that the library had.
    #[cfg(feature = "alloc")]
    fn take(words: Vec<Self::Word>) -> Vec<Self>;
}

/// The number that words are which have 64 bits together: the first has the highest digits, or the
/// lowest.
macro_rules! number {
    (u8 of $words:ident, $big:ident) => {
        if $big {
            u64::from_be_bytes(*$words)
        } else {
            u64::from_le_bytes(*$words)
        }
    };
    ($word:ident of $words:ident, $big:ident) => {{
        const WIDTH: usize = $word::BITS as usize;
        #[allow(clippy::cast_lossless)] // (of a `usize` too)
        let digits = |i: usize| $words[i] as u64;
        (0..$words.len()).fold(0, |all, i| {
            let up = if $big {
                64 - WIDTH * (i + 1)
            } else {
                WIDTH * i
            };
            all | digits(i) << up
        })
    }};
}

/// Puts such a number in place of such words.
macro_rules! put_number {
    (u8 in $words:ident, $big:ident, $digits:ident) => {
        *$words = if $big {
            $digits.to_be_bytes()
        } else {
            $digits.to_le_bytes()
        }
    };
    ($word:ident in $words:ident, $big:ident, $digits:ident) => {{
        const WIDTH: usize = $word::BITS as usize;
        for (i, word) in $words.iter_mut().enumerate() {
            let up = if $big {
                64 - WIDTH * (i + 1)
            } else {
                WIDTH * i
            };
            #[allow(clippy::cast_possible_truncation)] // (the digits above are other words')
            let digits = ($digits >> up) as $word;
            *word = digits;
        }
    }};
}

/// `N` words from one on, where there are that many. (By two tests of differences: a sum of both numbers
/// would have to be tested for its own sake.)
#[inline]
fn some_of<T, const N: usize>(words: &mut [T], from: usize) -> Option<&mut [T; N]> {
    words.get_mut(from..)?.first_chunk_mut()
}

macro_rules! owned {
    ($($word:ident)*) => { $(
        impl Owned for $word {
            const ZERO: Self = 0;

            #[inline]
            fn own(words: &[Self]) -> &[Self] {
                words
            }

            #[inline]
            fn own_mut(words: &mut [Self]) -> &mut [Self] {
                words
            }

            #[inline]
            fn joined(words: &[Self], from: usize, big: bool) -> Option<u64> {
                let words: &[Self; 64 / $word::BITS as usize] = words.get(from..)?.first_chunk()?;
                Some(number!($word of words, big))
            }

            #[inline]
            fn split_joined(words: &[Self], big: bool) -> Option<(u64, &[Self])> {
                const COUNT: usize = 64 / $word::BITS as usize;
                let (words, behind) = words.split_first_chunk::<COUNT>()?;
                Some((number!($word of words, big), behind))
            }

            #[inline]
            fn put(words: &mut [Self], from: usize, big: bool, digits: u64) -> Option<()> {
                const COUNT: usize = 64 / $word::BITS as usize;
                let words = some_of::<Self, COUNT>(words, from)?;
                put_number!($word in words, big, digits);
                Some(())
            }

            #[cfg(feature = "alloc")]
            #[inline]
            fn give(words: Vec<Self>) -> Vec<Self> {
                words
            }

            #[cfg(feature = "alloc")]
            #[inline]
            fn take(words: Vec<Self>) -> Vec<Self> {
                words
            }
        }
    )* };
}

owned!(u8 u16 u32 u64 usize);

/// A slice as the library has it.
pub type Proved<'a, T, O> = slice::BitSlice<
    'a,
    <T as Exports>::Word,
    <O as crate::order::code::Code>::In<<T as Exports>::Word>,
>;

impl<'a, T: Register, O: Order> BitSlice<'a, T, O> {
    /// The same bits, as the library has them.
    #[inline]
    pub(crate) fn proved(&self) -> Proved<'a, T, O> {
        let (words, start) = self.place();
        let span = BitSpan::at(start, self.len()).ok();
        span.and_then(|span| slice::BitSlice::new(span, T::words(words)))
            .expect("a slice lies in its words")
    }

    /// The same, with no test: that its range lies in its words was tested when it was made.
    #[inline]
    pub(crate) fn tested(&self) -> Proved<'a, T, O> {
        let (words, start) = self.place();
        let span = BitSpan::at_unchecked(start, self.len());
        debug_assert!(span.fits(words.len()), "a slice lies in its words");
        slice::BitSlice::new_unchecked(span, T::words(words))
    }
}

/// What has bits: a slice, an array, a vector or a box of them, and a reference to one. What takes
/// bits takes any of these.
///
/// # Examples
///
/// ```
/// use worghulen::{AsBitSlice, BitView, Lsb0};
///
/// fn ones(bits: impl AsBitSlice) -> usize {
///     bits.as_bitslice().count_ones()
/// }
///
/// let mut words = [0x0f_u8];
/// assert_eq!(ones(words.view_bits::<Lsb0>()), 4);
/// assert_eq!(ones(&words.view_bits_mut::<Lsb0>()), 4);
/// ```
///
/// Words have no bits until an order is named:
///
/// ```compile_fail
/// assert!(worghulen::bits![0, 1].contains([2_u8]));
/// ```
#[diagnostic::on_unimplemented(
    message = "`{Self}` is no bits",
    label = "bits are a `BitSlice`, `BitSliceMut`, `BitVec`, `BitBox` or `BitArray`, or a reference to one",
    note = "of words take `words.view_bits::<Lsb0>()`; of `bool`s `bools.into_iter().collect::<BitVec>()`"
)]
pub trait AsBitSlice {
    /// The type of the words.
    type Word: Register;

    /// The order of the bits in a word.
    type Order: Order;

    /// The bits, to be read. Constant time.
    ///
    /// # Examples
    ///
    /// ```
    /// use worghulen::{AsBitSlice, BitArray, Lsb0};
    ///
    /// let array = BitArray::<_, Lsb0>::new([3_u8]);
    /// assert_eq!(AsBitSlice::as_bitslice(&&array).count_ones(), 2);
    /// ```
    fn as_bitslice(&self) -> BitSlice<'_, Self::Word, Self::Order>;
}

impl<T: Register, O: Order> AsBitSlice for BitSlice<'_, T, O> {
    type Word = T;
    type Order = O;

    #[inline]
    fn as_bitslice(&self) -> BitSlice<'_, T, O> {
        *self
    }
}

impl<B: AsBitSlice + ?Sized> AsBitSlice for &B {
    type Word = B::Word;
    type Order = B::Order;

    #[inline]
    fn as_bitslice(&self) -> BitSlice<'_, B::Word, B::Order> {
        (**self).as_bitslice()
    }
}

impl<B: AsBitSlice + ?Sized> AsBitSlice for &mut B {
    type Word = B::Word;
    type Order = B::Order;

    #[inline]
    fn as_bitslice(&self) -> BitSlice<'_, B::Word, B::Order> {
        (**self).as_bitslice()
    }
}
