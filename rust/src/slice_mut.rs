//! Bits that are written.

use crate::index::BitIndex;
use crate::order::Order;
use crate::range::{bits_of, ends, run_of, within};
use crate::refusal::Refusal;
use crate::register::Register;
use crate::slice::BitSlice;
use crate::words::are_few;
use core::marker::PhantomData;
use core::ops::RangeBounds;

/// A range of bits of a slice of words, to be read and written.
///
/// Indices count its bits from 0 on. No call changes a bit of the words outside the range.
///
/// # Examples
///
/// ```
/// use worghulen::{BitSliceMut, Lsb0};
///
/// let mut words = [0_u8; 2];
/// let mut bits = BitSliceMut::<_, Lsb0>::new(&mut words, 4..12)?;
/// bits.store_le(0x2b);
/// bits.set(7, true);
/// assert_eq!(words, [0xb0, 0x0a]);
/// # Ok::<(), worghulen::Refusal>(())
/// ```
pub struct BitSliceMut<'a, T, O> {
    words: &'a mut [T],
    start: usize,
    len: usize,
    order: PhantomData<O>,
}

impl<'a, T: Register, O: Order> BitSliceMut<'a, T, O> {
    /// The bits of a range of places. Constant time.
    ///
    /// # Errors
    ///
    /// [`Refusal::Reversed`] where the range starts past its end, [`Refusal::TooLong`] where it has
    /// too many bits, and [`Refusal::Outside`] where it ends past the last bit of the words.
    ///
    /// # Examples
    ///
    /// ```
    /// use worghulen::{BitSliceMut, Msb0, Refusal};
    ///
    /// let mut words = [0_u64; 4];
    /// assert_eq!(BitSliceMut::<_, Msb0>::new(&mut words, 3..200)?.len(), 197);
    /// assert!(BitSliceMut::<_, Msb0>::new(&mut words, 3..257).is_err());
    /// # Ok::<(), Refusal>(())
    /// ```
    #[inline]
    pub fn new(words: &'a mut [T], range: impl RangeBounds<usize>) -> Result<Self, Refusal> {
        let (start, len) = within(range, bits_of(words.len(), T::BITS))?;
        Ok(Self::of(words, start, len))
    }

    /// A number of bits from a place on, which lie in the words.
    #[inline]
    pub(crate) fn of(words: &'a mut [T], start: usize, len: usize) -> Self {
        Self {
            words,
            start,
            len,
            order: PhantomData,
        }
    }

    /// Whether the first bit is the first one of the words, as in a vector, an array and a view.
    #[inline]
    pub(crate) fn starts_a_word(&self) -> bool {
        self.start == 0
    }

    /// The word of such a slice that the bit at an index lies in, and its place there; `None` where there
    /// is no such bit. (Of the words before that in which the slice ends all bits are its own, so that
    /// one test is enough there: that of the index is left to the last word.)
    #[inline]
    pub(crate) fn word_mut(&mut self, index: usize) -> Option<(&mut T, usize)> {
        let (at, full) = (index / T::BITS, self.len / T::BITS);
        let (full, rest) = self.words.split_at_mut_checked(full)?;
        let word = if at < full.len() {
            full.get_mut(at)
        } else {
            rest.first_mut().filter(|_| index < self.len)
        };
        Some((word?, index % T::BITS))
    }

    /// The words, and the place of the first bit in them.
    #[inline]
    pub(crate) fn place_mut(&mut self) -> (&mut [T], usize) {
        (self.words, self.start)
    }

    /// Its bits, for reading. Constant time.
    ///
    /// # Examples
    ///
    /// ```
    /// use worghulen::{BitSliceMut, Lsb0};
    ///
    /// let mut words = [0_u8; 2];
    /// let mut bits = BitSliceMut::<_, Lsb0>::new(&mut words, 4..12)?;
    /// bits.fill(true);
    /// assert_eq!(bits.as_bitslice().count_ones(), 8);
    /// # Ok::<(), worghulen::Refusal>(())
    /// ```
    #[inline]
    #[must_use]
    pub fn as_bitslice(&self) -> BitSlice<'_, T, O> {
        BitSlice::of(self.words, self.start, self.len)
    }

    /// The words, the place of the first bit in them, and how many bits there are.
    #[inline]
    pub(crate) fn into_place(self) -> (&'a mut [T], usize, usize) {
        (self.words, self.start, self.len)
    }

    /// All bits, for as long as this slice is lent.
    #[inline]
    pub(crate) fn lend(&mut self) -> BitSliceMut<'_, T, O> {
        BitSliceMut::of(self.words, self.start, self.len)
    }

    /// The bits of a range of indices, or the bit at an index as a [`BitRef`](crate::BitRef), to be
    /// written, and `None` where these are not among the bits. Constant time.
    ///
    /// # Examples
    ///
    /// ```
    /// use worghulen::{BitView, Lsb0};
    ///
    /// let mut words = [0_u8; 2];
    /// let mut bits = words.view_bits_mut::<Lsb0>();
    /// bits.get_mut(2..12).unwrap().get_mut(3..).unwrap().fill(true);
    /// assert!(bits.get_mut(12..17).is_none());
    /// *bits.get_mut(0).unwrap() = true;
    /// assert_eq!(words, [0b1110_0001, 0b0000_1111]);
    /// ```
    #[inline]
    #[must_use]
    pub fn get_mut<'b, I: BitIndex<'b, T, O>>(&'b mut self, index: I) -> Option<I::OutputMut> {
        index.of_mut(self.lend())
    }

    /// The bits of a range of indices, to be written, or why it is refused. Constant time.
    ///
    /// # Errors
    ///
    /// As [`BitSlice::part`].
    ///
    /// # Examples
    ///
    /// ```
    /// use worghulen::{BitView, Msb0};
    ///
    /// let mut word = 0_u16;
    /// let mut bits = word.view_bits_mut::<Msb0>();
    /// bits.part_mut(..4)?.store_be(0x7_u8);
    /// bits.part_mut(12..)?.store_be(0x9_u8);
    /// assert_eq!(word, 0x7009);
    /// # Ok::<(), worghulen::Refusal>(())
    /// ```
    #[inline]
    pub fn part_mut(
        &mut self,
        range: impl RangeBounds<usize>,
    ) -> Result<BitSliceMut<'_, T, O>, Refusal> {
        let (from, len) = within(range, self.len)?;
        Ok(BitSliceMut::of(self.words, self.start + from, len))
    }

    /// The bits of a range of indices, for as long as the words are lent. Constant time.
    ///
    /// # Errors
    ///
    /// As [`BitSlice::part`].
    ///
    /// # Examples
    ///
    /// ```
    /// use worghulen::{BitSliceMut, BitView, Lsb0, Refusal};
    ///
    /// fn low(words: &mut [u64]) -> Result<BitSliceMut<'_, u64, Lsb0>, Refusal> {
    ///     words.view_bits_mut().into_part(..8)
    /// }
    ///
    /// let mut words = [0; 2];
    /// low(&mut words)?.fill(true);
    /// assert_eq!(words, [0xff, 0]);
    /// # Ok::<(), Refusal>(())
    /// ```
    #[inline]
    pub fn into_part(self, range: impl RangeBounds<usize>) -> Result<Self, Refusal> {
        let (from, len) = within(range, self.len)?;
        Ok(Self::of(self.words, self.start + from, len))
    }

    /// The bits before an index, and those from it on, both to be written, where the cut lies
    /// between two words, or one of the parts has no bits. Constant time.
    ///
    /// Where both parts have bits of one word, two `&mut` would share that word:
    /// [`Spans`](crate::Spans) edits such parts in one call, and [`get_mut`](Self::get_mut) lends
    /// one after the other.
    ///
    /// # Errors
    ///
    /// [`Refusal::Outside`] where the index is past the length, otherwise [`Refusal::SharedWord`]
    /// where the cut lies in a word.
    ///
    /// # Examples
    ///
    /// ```
    /// use worghulen::{BitSliceMut, Command, Lsb0, Refusal, Reply, Request, Spans};
    ///
    /// let mut words = [0_u8; 3];
    /// let mut bits = BitSliceMut::<_, Lsb0>::new(&mut words, 4..20)?;
    /// let (mut low, mut high) = bits.split_at_mut(12)?;
    /// low.fill(true);
    /// high.set(1, true);
    /// assert_eq!(bits.split_at_mut(11).err(), Some(Refusal::SharedWord));
    /// assert_eq!(words, [0xf0, 0xff, 0x02]);
    ///
    /// let low = Request { span: 0, command: Command::Set(0) };
    /// let high = Request { span: 1, command: Command::Clear(0) };
    /// let mut replies = [Reply::Done; 2];
    /// Spans::<Lsb0>::new(&[0..3, 3..8])?.run(&mut words, &[low, high], &mut replies)?;
    /// assert_eq!(words, [0x07, 0xff, 0x02]);
    /// # Ok::<(), Refusal>(())
    /// ```
    #[allow(clippy::type_complexity)]
    pub fn split_at_mut(
        &mut self,
        mid: usize,
    ) -> Result<(BitSliceMut<'_, T, O>, BitSliceMut<'_, T, O>), Refusal> {
        let (start, len) = (self.start, self.len);
        if mid > len {
            return Err(Refusal::Outside { index: mid, len });
        }
        if mid == 0 {
            return Ok((
                BitSliceMut::default(),
                BitSliceMut::of(self.words, start, len),
            ));
        }
        if mid == len {
            return Ok((
                BitSliceMut::of(self.words, start, len),
                BitSliceMut::default(),
            ));
        }
        let cut = start + mid;
        if !cut.is_multiple_of(T::BITS) {
            return Err(Refusal::SharedWord);
        }
        let (low, high) = self.words.split_at_mut(cut / T::BITS);
        Ok((
            BitSliceMut::of(low, start, mid),
            BitSliceMut::of(high, 0, len - mid),
        ))
    }
}

impl<T: Register, O: Order> Default for BitSliceMut<'_, T, O> {
    /// No bits.
    fn default() -> Self {
        Self::of(&mut [], 0, 0)
    }
}

/// Copies the bits of a range of places to those of another slice from a place on. Costs by words.
///
/// # Errors
///
/// [`Refusal::Reversed`] where the range starts past its end, [`Refusal::TooLong`] where it has too
/// many bits, and [`Refusal::Outside`] where it ends past the last bit of the source, or what it is
/// copied to ends past the last bit of the target.
///
/// # Examples
///
/// ```
/// use worghulen::{Lsb0, Msb0, Refusal, copy_bits};
///
/// let source = [0x0f_u8, 0xf0];
/// let mut target = [0_u8; 3];
/// copy_bits::<_, Msb0>(&source, 4..12, &mut target, 10)?;
/// assert_eq!(target, [0x00, 0x3f, 0xc0]);
///
/// let mut target = [0_u16; 2];
/// copy_bits::<_, Lsb0>(&[0xabcd, 0x0ef0], 4..28, &mut target, 8)?;
/// assert_eq!(target, [0xbc00, 0xef0a]);
/// let refused = copy_bits::<_, Lsb0>(&[0xabcd, 0x0ef0], 4..28, &mut target, 9);
/// assert_eq!(refused, Err(Refusal::Outside { index: 33, len: 32 }));
/// # Ok::<(), Refusal>(())
/// ```
pub fn copy_bits<T: Register, O: Order>(
    source: &[T],
    range: impl RangeBounds<usize>,
    target: &mut [T],
    start: usize,
) -> Result<(), Refusal> {
    // (of few bits the library tests the places)
    let copied = ends(&range, bits_of(source.len(), T::BITS)).is_some_and(|(from, end)| {
        end.checked_sub(from).is_some_and(|count| {
            let (source, target) = ((source, from), (&mut *target, start));
            are_few::<T>(count) && T::copy(O::CODE, source, target, count).is_ok()
        })
    });
    if copied {
        return Ok(());
    }
    copy_many::<T, O>(source, range, target, start)
}

/// The same of many bits, or why it is refused.
#[cold]
fn copy_many<T: Register, O: Order>(
    source: &[T],
    range: impl RangeBounds<usize>,
    target: &mut [T],
    start: usize,
) -> Result<(), Refusal> {
    let source = BitSlice::<T, O>::new(source, range)?;
    let len = bits_of(target.len(), T::BITS);
    BitSliceMut::<T, O>::new(target, run_of(start, source.len(), len)?)?.copy_from(source)
}
