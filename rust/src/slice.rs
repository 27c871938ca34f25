//! Bits that are read.

use crate::index::BitIndex;
use crate::number::Number;
use crate::number::digits::Digits;
use crate::order::Order;
use crate::proxy::{BitRef, Const};
use crate::range::{MAX_BITS, bits_of, within};
use crate::refusal::{Refusal, refused};
use crate::register::Register;
use crate::slice_mut::BitSliceMut;
use crate::words::Words;
use core::marker::PhantomData;
use core::ops::RangeBounds;

/// A range of bits of a slice of words, to be read.
///
/// Indices count its bits from 0 on. Two are equal where they have as many bits, and the same ones,
/// whatever their words and orders are, and they are ordered as two lists of `bool` are. It is
/// `Copy`, of four machine words.
///
/// # Examples
///
/// ```
/// use worghulen::{BitSlice, Lsb0};
///
/// let words = [0b1011_0000_u8, 0b0000_0001];
/// let bits = BitSlice::<_, Lsb0>::new(&words, 4..10)?;
/// assert_eq!(bits.len(), 6);
/// assert_eq!(bits.count_ones(), 4);
/// assert_eq!(bits.iter_ones().collect::<Vec<_>>(), [0, 1, 3, 4]);
/// assert_eq!(bits.to_string(), "110110");
/// # Ok::<(), worghulen::Refusal>(())
/// ```
#[derive(Clone, Copy)]
pub struct BitSlice<'a, T, O> {
    words: &'a [T],
    start: usize,
    len: usize,
    order: PhantomData<O>,
}

/// The answer of a call whose range was tested when its slice was made: the library refuses none.
#[inline]
pub(crate) fn granted<A>(answer: Result<A, Refusal>) -> A {
    answer.unwrap_or_else(|refusal| unreachable!("a range of a slice was refused: {refusal}"))
}

/// How many bits there are from a place on to where a word of 64 bits ends, at most `len`.
#[inline]
pub(crate) fn to_boundary(start: usize, len: usize) -> usize {
    (64 - start % 64).min(len)
}

/// The bits from a place on as digits, the first lowest.
#[inline]
pub(crate) fn load_bits<T: Register, O: Order>(words: &[T], start: usize, count: usize) -> u64 {
    O::turned(
        granted(T::load(O::CODE, O::BIG, words, start, count)),
        count,
    )
}

/// How many bits there are in `words` words, where these are not too many.
#[inline]
#[track_caller]
const fn bits_in<T: Register>(words: usize) -> usize {
    assert!(
        words <= MAX_BITS / T::BITS,
        "the words have more than 2305843009213693951 bits (`new` answers that)",
    );
    words * T::BITS
}

impl<'a, T: Register, O: Order> BitSlice<'a, T, O> {
    /// The bits of a range of places. Constant time.
    ///
    /// # Errors
    ///
    /// [`Refusal::Reversed`] where the range starts past its end, [`Refusal::TooLong`] where it has
    /// too many bits, and [`Refusal::Outside`] where it ends past the last bit of the words.
    ///
    /// # Examples
    ///
    /// ```
    /// use worghulen::{BitSlice, Msb0, Refusal};
    ///
    /// let words = [0_u64; 4];
    /// assert_eq!(BitSlice::<_, Msb0>::new(&words, 3..200)?.len(), 197);
    /// assert_eq!(BitSlice::<_, Msb0>::new(&words, 3..257).err(), Some(Refusal::Outside { index: 257, len: 256 }));
    /// assert_eq!(BitSlice::<_, Msb0>::new(&words, ..)?.len(), 256);
    /// # Ok::<(), Refusal>(())
    /// ```
    #[inline]
    pub fn new(words: &'a [T], range: impl RangeBounds<usize>) -> Result<Self, Refusal> {
        let (start, len) = within(range, bits_of(words.len(), T::BITS))?;
        Ok(Self::of(words, start, len))
    }

    /// All bits of words. Constant time.
    ///
    /// # Panics
    ///
    /// Panics where there are more than 2305843009213693951 bits; [`new`](Self::new) does not.
    ///
    /// # Examples
    ///
    /// ```
    /// use worghulen::{BitSlice, Lsb0};
    ///
    /// assert_eq!(BitSlice::<_, Lsb0>::from_slice(&[1_u8, 1]).count_ones(), 2);
    /// ```
    #[inline]
    #[must_use]
    #[track_caller]
    pub const fn from_slice(words: &'a [T]) -> Self {
        Self::of(words, 0, bits_in::<T>(words.len()))
    }

    /// The first bits of words that `bits!` wrote.
    #[doc(hidden)]
    #[must_use]
    pub const fn of_first(words: &'a [T], len: usize) -> Self {
        assert!(len <= bits_in::<T>(words.len()), "there are fewer bits");
        Self::of(words, 0, len)
    }

    /// All bits of words, to be written. Constant time.
    ///
    /// # Panics
    ///
    /// As [`from_slice`](Self::from_slice).
    ///
    /// # Examples
    ///
    /// ```
    /// use worghulen::{BitSlice, Msb0};
    ///
    /// let mut words = [0_u8; 2];
    /// BitSlice::<_, Msb0>::from_slice_mut(&mut words).set(8, true);
    /// assert_eq!(words, [0, 0x80]);
    /// ```
    #[inline]
    #[must_use]
    #[track_caller]
    pub fn from_slice_mut(words: &'a mut [T]) -> BitSliceMut<'a, T, O> {
        let len = bits_in::<T>(words.len());
        BitSliceMut::of(words, 0, len)
    }

    /// All bits of a word. Constant time.
    ///
    /// # Examples
    ///
    /// ```
    /// use worghulen::{BitSlice, Msb0};
    ///
    /// assert_eq!(BitSlice::<u8, Msb0>::from_element(&3).to_string(), "00000011");
    /// ```
    #[inline]
    #[must_use]
    pub const fn from_element(word: &'a T) -> Self {
        Self::from_slice(core::slice::from_ref(word))
    }

    /// All bits of a word, to be written. Constant time.
    ///
    /// # Examples
    ///
    /// ```
    /// use worghulen::{BitSlice, Msb0};
    ///
    /// let mut word = 0_u16;
    /// BitSlice::<_, Msb0>::from_element_mut(&mut word).set(0, true);
    /// assert_eq!(word, 0x8000);
    /// ```
    #[inline]
    #[must_use]
    pub fn from_element_mut(word: &'a mut T) -> BitSliceMut<'a, T, O> {
        Self::from_slice_mut(core::slice::from_mut(word))
    }

    /// A number of bits from a place on, which lie in the words.
    #[inline]
    pub(crate) const fn of(words: &'a [T], start: usize, len: usize) -> Self {
        Self {
            words,
            start,
            len,
            order: PhantomData,
        }
    }

    /// The words, and the place of the first bit in them.
    #[inline]
    pub(crate) fn place(&self) -> (&'a [T], usize) {
        (self.words, self.start)
    }

    /// The words that it has whole from an index on, at most its length, where one begins there, and
    /// else none.
    #[inline]
    pub(crate) fn whole_from(&self, index: usize) -> &'a [T] {
        let (place, end) = (self.start + index, self.start + self.len);
        if !place.is_multiple_of(T::BITS) {
            return &[];
        }
        let whole = self.words.get(place / T::BITS..end / T::BITS);
        whole.unwrap_or_default()
    }

    /// The words, by their width.
    #[inline]
    pub(crate) fn seen(&self) -> Words<'a> {
        T::seen(self.words)
    }

    /// The bits, at most 64, as digits: the first is the highest where the order is `BIG`, else the lowest.
    #[inline]
    pub(crate) fn digits(&self) -> u64 {
        u64::load(&self.tested(), O::BIG)
    }

    /// At most 64 bits from an index on, as digits, the first lowest.
    #[inline]
    pub(crate) fn window(&self, from: usize, count: usize) -> u64 {
        load_bits::<T, O>(self.words, self.start + from, count)
    }

    /// How many bits from an index on lie before a word of 64 bits ends.
    #[inline]
    pub(crate) fn ahead(&self, from: usize) -> usize {
        to_boundary(self.start + from, self.len - from)
    }

    /// The bits before an index that is at most the length.
    #[inline]
    pub(crate) fn start(&self, len: usize) -> Self {
        Self::of(self.words, self.start, len)
    }

    /// The bits from an index on that is at most the length.
    #[inline]
    pub(crate) fn rest(&self, from: usize) -> Self {
        Self::of(self.words, self.start + from, self.len - from)
    }

    /// How many bits there are. Constant time.
    ///
    /// # Examples
    ///
    /// ```
    /// use worghulen::{BitSlice, Lsb0};
    ///
    /// assert_eq!(BitSlice::<_, Lsb0>::new(&[0_u8; 2], 3..12)?.len(), 9);
    /// # Ok::<(), worghulen::Refusal>(())
    /// ```
    #[inline]
    #[must_use]
    pub fn len(&self) -> usize {
        self.len
    }

    /// Whether there are none. Constant time.
    ///
    /// # Examples
    ///
    /// ```
    /// use worghulen::{BitSlice, Lsb0};
    ///
    /// assert!(BitSlice::<_, Lsb0>::new(&[0_u8; 2], 3..3)?.is_empty());
    /// # Ok::<(), worghulen::Refusal>(())
    /// ```
    #[inline]
    #[must_use]
    pub fn is_empty(&self) -> bool {
        self.len == 0
    }

    /// The bit at an index, lent to be read by a [`BitRef`], or the bits of a range of indices, and
    /// `None` where these are not among the bits. Constant time.
    ///
    /// # Examples
    ///
    /// ```
    /// use worghulen::{BitSlice, Lsb0};
    ///
    /// let bits = BitSlice::<_, Lsb0>::new(&[0b0000_1000_u8], 2..6)?;
    /// assert!(*bits.get(1).unwrap());
    /// assert_eq!(bits.get(1).as_deref(), Some(&true));
    /// assert_eq!(bits.get(4), None);
    /// assert_eq!(bits.get(1..=2).unwrap().get(1..).unwrap().len(), 1);
    /// assert!(bits.get(2..5).is_none());
    /// # Ok::<(), worghulen::Refusal>(())
    /// ```
    #[inline]
    #[must_use]
    pub fn get<I: BitIndex<'a, T, O>>(&self, index: I) -> Option<I::Output> {
        index.of(*self)
    }

    /// The bit at an index, and `None` where there is none.
    #[inline]
    pub(crate) fn bit(&self, index: usize) -> Option<bool> {
        // (a slice of all bits of its words needs no test but that of the place in these: a loop over one has
        // no other, since what is asked here is the same in each turn)
        if self.start == 0 && self.len / T::BITS == self.words.len() {
            return T::get(O::CODE, self.words, index).ok();
        }
        if index >= self.len {
            return None;
        }
        T::get(O::CODE, self.words, self.start + index).ok()
    }

    /// The first bit, and `None` where there are no bits. Constant time.
    ///
    /// # Examples
    ///
    /// ```
    /// use worghulen::{BitView, Lsb0};
    ///
    /// let words = [0b0000_0001_u8];
    /// let bits = words.view_bits::<Lsb0>();
    /// assert_eq!((bits.first().as_deref(), bits.last().as_deref()), (Some(&true), Some(&false)));
    /// assert_eq!(bits.get(..0).unwrap().first(), None);
    /// ```
    #[inline]
    #[must_use]
    pub fn first(&self) -> Option<BitRef<'a, Const, T, O>> {
        self.bit(0).map(BitRef::from)
    }

    /// The last bit, and `None` where there are no bits. Constant time.
    ///
    /// # Examples
    ///
    /// ```
    /// use worghulen::{BitView, Msb0};
    ///
    /// let words = [0b0000_0001_u8];
    /// assert!(*words.view_bits::<Msb0>().last().unwrap());
    /// ```
    #[inline]
    #[must_use]
    pub fn last(&self) -> Option<BitRef<'a, Const, T, O>> {
        self.bit(self.len.checked_sub(1)?).map(BitRef::from)
    }

    /// The number whose digits the bits are: those of one word in the word's own order, and those
    /// of the first word lowest.
    ///
    /// An unsigned number's other digits are 0, a signed number is in two's complement of as many
    /// digits as there are bits. Of no bits it is 0. Constant time.
    ///
    /// # Errors
    ///
    /// [`Refusal::TooWide`] where there are more bits than the number's type has.
    ///
    /// # Examples
    ///
    /// ```
    /// use worghulen::{BitSlice, Lsb0, Refusal};
    ///
    /// let bits = BitSlice::<_, Lsb0>::new(&[0x30_u8, 0x0f], 4..12)?;
    /// assert_eq!(bits.try_load_le::<u8>()?, 0xf3);
    /// assert_eq!(bits.try_load_le::<u32>()?, 0xf3);
    /// assert_eq!(bits.try_load_le::<i32>()?, -13);
    /// let bits = BitSlice::<_, Lsb0>::new(&[0x30_u8, 0x02], ..)?;
    /// assert_eq!(bits.try_load_le::<u8>(), Err(Refusal::TooWide));
    /// # Ok::<(), worghulen::Refusal>(())
    /// ```
    #[inline]
    pub fn try_load_le<N: Number>(&self) -> Result<N, Refusal> {
        self.number(false)
    }

    /// The number whose digits the bits are: those of one word in the word's own order, and those
    /// of the first word highest.
    ///
    /// An unsigned number's other digits are 0, a signed number is in two's complement of as many
    /// digits as there are bits. Of no bits it is 0. Constant time.
    ///
    /// # Errors
    ///
    /// [`Refusal::TooWide`] where there are more bits than the number's type has.
    ///
    /// # Examples
    ///
    /// ```
    /// use worghulen::{BitSlice, Msb0};
    ///
    /// let bits = BitSlice::<_, Msb0>::new(&[0x02_u8, 0x30], 4..12)?;
    /// assert_eq!(bits.try_load_be::<u16>()?, 0x23);
    /// # Ok::<(), worghulen::Refusal>(())
    /// ```
    #[inline]
    pub fn try_load_be<N: Number>(&self) -> Result<N, Refusal> {
        self.number(true)
    }

    /// The number whose digits the bits are, those of the first word lowest: what
    /// [`try_load_le`](Self::try_load_le) answers. Constant time.
    ///
    /// # Panics
    ///
    /// Panics where there are more bits than the number's type has.
    ///
    /// # Examples
    ///
    /// ```
    /// use worghulen::{BitView, Lsb0};
    ///
    /// let words = [0x30_u8, 0x0f];
    /// assert_eq!(words.view_bits::<Lsb0>().get(4..12).unwrap().load_le::<u8>(), 0xf3);
    /// ```
    #[inline]
    #[must_use]
    #[track_caller]
    pub fn load_le<N: Number>(&self) -> N {
        match self.number(false) {
            Ok(number) => number,
            Err(why) => refused("load_le", &(), self.len, why),
        }
    }

    /// The number whose digits the bits are, those of the first word highest: what
    /// [`try_load_be`](Self::try_load_be) answers. Constant time.
    ///
    /// # Panics
    ///
    /// Panics where there are more bits than the number's type has.
    ///
    /// # Examples
    ///
    /// ```
    /// use worghulen::{BitView, Msb0};
    ///
    /// let words = [0x12_u8, 0x34];
    /// assert_eq!(words.view_bits::<Msb0>().get(4..).unwrap().load_be::<u16>(), 0x234);
    /// ```
    #[inline]
    #[must_use]
    #[track_caller]
    pub fn load_be<N: Number>(&self) -> N {
        match self.number(true) {
            Ok(number) => number,
            Err(why) => refused("load_be", &(), self.len, why),
        }
    }

    /// As [`load_le`](Self::load_le), on every machine. Constant time.
    ///
    /// # Panics
    ///
    /// As that call.
    ///
    /// # Examples
    ///
    /// ```
    /// use worghulen::{BitView, Lsb0};
    ///
    /// assert_eq!([0x34_u8, 0x12].view_bits::<Lsb0>().load::<u16>(), 0x1234);
    /// ```
    #[inline]
    #[must_use]
    #[track_caller]
    pub fn load<N: Number>(&self) -> N {
        self.load_le()
    }

    #[inline]
    fn number<N: Number>(&self, big: bool) -> Result<N, Refusal> {
        if self.len > N::WIDTH {
            return Err(Refusal::TooWide);
        }
        // (no bits; asked here, so that of the first word's place the compiler need not ask twice)
        if self.start / T::BITS >= self.words.len() {
            return Ok(N::of_digits(0, 0));
        }
        Ok(N::load(&self.tested(), big))
    }
}

impl<T: Register, O: Order> Default for BitSlice<'_, T, O> {
    /// No bits.
    fn default() -> Self {
        Self::of(&[], 0, 0)
    }
}
