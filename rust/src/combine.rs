//! Sets of bits: the operators, and questions of two sets.

use crate::order::Order;
use crate::own::AsBitSlice;
use crate::refusal::Refusal;
use crate::register::Register;
use crate::slice::{BitSlice, granted};
use crate::slice_mut::BitSliceMut;
use core::ops::{BitAndAssign, BitOrAssign, BitXorAssign, Not};

/// A call of the library that combines two ranges.
type Operator<T> = fn(u8, (&[T], usize), u8, (&mut [T], usize), usize) -> Result<(), Refusal>;

/// How many bits from a place on get a call of their own, so that what the next call takes 16 bytes at a
/// time, which is all behind its first word, begins at a multiple of 16: then none of it lies in two
/// lines of 64 bytes. None where there are fewer bits than 4 KiB have, of which that would cost more.
#[inline]
fn before_lines<T: Register>(words: &[T], start: usize, len: usize) -> usize {
    if len < 1 << 15 {
        return 0;
    }
    let first = start / T::BITS;
    let ahead = words[first + 1..].as_ptr().align_offset(16);
    if ahead == 0 || ahead >= 16 {
        return 0;
    }
    (first + ahead) * T::BITS - start
}

impl<T: Register, O: Order> BitSliceMut<'_, T, O> {
    /// Makes of each bit, as far as both slices go, what an operator makes of it and of the
    /// other's: by a call of the library, or where their words differ, up to 64 at a time by `new`.
    #[inline]
    fn combine<T2: Register, O2: Order>(
        &mut self,
        source: &BitSlice<'_, T2, O2>,
        call: Operator<T>,
        new: impl Fn(u64, u64) -> u64,
    ) {
        let len = self.len().min(source.len());
        match T::same(&source.seen()) {
            Some(words) => {
                let from = source.place().1;
                let (target, to) = self.place_mut();
                let first = before_lines(target, to, len);
                if first > 0 {
                    granted(call(O2::CODE, (words, from), O::CODE, (target, to), first));
                }
                let (from, to) = ((words, from + first), (target, to + first));
                granted(call(O2::CODE, from, O::CODE, to, len - first));
            }
            None => self.make(len, |bits, from, count| {
                new(bits, source.window(from, count))
            }),
        }
    }

    /// Clears those bits whose bit in another slice is set: the difference of two sets. Costs by
    /// words, or by bits where both have words of one type and their orders differ.
    ///
    /// # Errors
    ///
    /// [`Refusal::Lengths`] where that has not as many bits.
    ///
    /// # Examples
    ///
    /// ```
    /// use worghulen::{BitView, Lsb0, Msb0};
    ///
    /// let (mut words, other) = ([0x7f_u8], [0x30_u8]);
    /// words.view_bits_mut::<Lsb0>().and_not_from(&other.view_bits::<Msb0>())?;
    /// assert_eq!(words, [0x73]);
    /// # Ok::<(), worghulen::Refusal>(())
    /// ```
    pub fn and_not_from(&mut self, source: impl AsBitSlice) -> Result<(), Refusal> {
        let source = source.as_bitslice();
        if source.len() != self.len() {
            let (len, other) = (self.len(), source.len());
            return Err(Refusal::Lengths { len, other });
        }
        self.combine(&source, T::and_not, |here, there| here & !there);
        Ok(())
    }
}

/// Leaves one those bits whose bit in the other slice, of any words and order, is one. Where that
/// is shorter, the bits behind its last become zero. Costs by words, or by bits where both have
/// words of one type and their orders differ.
///
/// # Examples
///
/// ```
/// use worghulen::{BitView, Lsb0};
///
/// let (mut words, other) = ([0xfc_u8, 0xff], [0x0f_u16]);
/// let mut bits = words.view_bits_mut::<Lsb0>();
/// bits &= other.view_bits::<Lsb0>().get(..12).unwrap();
/// assert_eq!(words, [0x0c, 0x00]);
/// ```
impl<T: Register, O: Order, B: AsBitSlice> BitAndAssign<B> for BitSliceMut<'_, T, O> {
    fn bitand_assign(&mut self, other: B) {
        let other = other.as_bitslice();
        self.combine(&other, T::and, |here, there| here & there);
        if let Some(mut behind) = self.get_mut(other.len()..) {
            behind.fill(false);
        }
    }
}

/// Makes one those bits whose bit in the other slice, of any words and order, is one. Where that is
/// shorter, the bits behind its last stay. Costs by words, or by bits where both have words of one
/// type and their orders differ.
///
/// # Examples
///
/// ```
/// use worghulen::{BitView, Lsb0, Msb0};
///
/// let (mut words, other) = ([0x01_u8], [0x40_u8]);
/// let mut bits = words.view_bits_mut::<Lsb0>();
/// bits |= other.view_bits::<Msb0>();
/// assert_eq!(words, [0x03]);
/// ```
impl<T: Register, O: Order, B: AsBitSlice> BitOrAssign<B> for BitSliceMut<'_, T, O> {
    fn bitor_assign(&mut self, other: B) {
        let other = other.as_bitslice();
        self.combine(&other, T::or, |here, there| here | there);
    }
}

/// Turns over those bits whose bit in the other slice, of any words and order, is one. Where that
/// is shorter, the bits behind its last stay. Costs by words, or by bits where both have words of
/// one type and their orders differ.
///
/// # Examples
///
/// ```
/// use worghulen::{BitView, Lsb0};
///
/// let (mut words, other) = ([0x0f_u8], [0x3c_u64]);
/// let mut bits = words.view_bits_mut::<Lsb0>();
/// bits ^= other.view_bits::<Lsb0>();
/// assert_eq!(words, [0x33]);
/// ```
impl<T: Register, O: Order, B: AsBitSlice> BitXorAssign<B> for BitSliceMut<'_, T, O> {
    fn bitxor_assign(&mut self, other: B) {
        let other = other.as_bitslice();
        self.combine(&other, T::xor, |here, there| here ^ there);
    }
}

/// Turns over each bit, as [`invert`](BitSliceMut::invert). Costs by words.
///
/// # Examples
///
/// ```
/// use worghulen::{BitView, Lsb0};
///
/// let mut words = [0x0f_u8];
/// let bits = !words.view_bits_mut::<Lsb0>();
/// assert_eq!(bits.first_one(), Some(4));
/// assert_eq!(words, [0xf0]);
/// ```
impl<T: Register, O: Order> Not for BitSliceMut<'_, T, O> {
    type Output = Self;

    fn not(mut self) -> Self {
        self.invert();
        self
    }
}

/// A call of the library that asks of two ranges.
type Question<T> = fn(u8, (&[T], usize), u8, (&[T], usize), usize) -> Result<usize, Refusal>;

impl<T: Register, O: Order> BitSlice<'_, T, O> {
    /// Whether each bit that is set in the slice is set in another: whether the one set is a subset
    /// of the other. Behind its last bit a slice has no ones. Costs by words, or by bits where both
    /// have words of one type and their orders differ, up to the first index that decides.
    ///
    /// # Examples
    ///
    /// ```
    /// use worghulen::{BitView, Lsb0};
    ///
    /// let (few, many) = ([0x05_u8], [0x0f_u16]);
    /// let (few, many) = (few.view_bits::<Lsb0>(), many.view_bits::<Lsb0>());
    /// assert!(few.is_subset(&many) && !many.is_subset(&few));
    /// ```
    #[must_use]
    pub fn is_subset<T2: Register, O2: Order>(&self, other: &BitSlice<'_, T2, O2>) -> bool {
        let common = self.len().min(other.len());
        if self.rest(common).any() {
            return false;
        }
        match T::same(&other.seen()) {
            Some(words) => self.ask(words, other, common, T::first_and_not) == common,
            None => self
                .windows_with(other)
                .all(|(here, there)| here & !there == 0),
        }
    }

    /// Whether some bit is set in both slices: whether two sets have an element in common. Costs by
    /// words, or by bits where both have words of one type and their orders differ, up to the first
    /// such index.
    ///
    /// # Examples
    ///
    /// ```
    /// use worghulen::{BitView, Lsb0};
    ///
    /// let (odd, even) = ([0xaa_u8], [0x55_u8]);
    /// assert!(!odd.view_bits::<Lsb0>().intersects(&even.view_bits::<Lsb0>()));
    /// ```
    #[must_use]
    pub fn intersects<T2: Register, O2: Order>(&self, other: &BitSlice<'_, T2, O2>) -> bool {
        let common = self.len().min(other.len());
        match T::same(&other.seen()) {
            Some(words) => self.ask(words, other, common, T::first_and) != common,
            None => self
                .windows_with(other)
                .any(|(here, there)| here & there != 0),
        }
    }

    /// How many bits are set in both slices: how many elements two sets have in common. Costs by
    /// words, or by bits where both have words of one type and their orders differ.
    ///
    /// # Examples
    ///
    /// ```
    /// use worghulen::{BitView, Lsb0};
    ///
    /// let (here, there) = ([0x3c_u8, 0x03], [0xfff0_u16]);
    /// assert_eq!(here.view_bits::<Lsb0>().count_and(&there.view_bits::<Lsb0>()), 4);
    /// ```
    #[must_use]
    pub fn count_and<T2: Register, O2: Order>(&self, other: &BitSlice<'_, T2, O2>) -> usize {
        let common = self.len().min(other.len());
        match T::same(&other.seen()) {
            Some(words) => self.ask(words, other, common, T::count_and),
            None => self
                .windows_with(other)
                .map(|(here, there)| (here & there).count_ones() as usize)
                .sum(),
        }
    }

    /// How many bits are set in one of two slices or in both: how many elements the union of two
    /// sets has. The longer slice counts past the end of the other too. Costs as
    /// [`count_and`](BitSlice::count_and) does.
    ///
    /// # Examples
    ///
    /// ```
    /// use worghulen::{BitView, Lsb0};
    ///
    /// let (here, there) = ([0x3c_u8, 0x03], [0xfff0_u16]);
    /// assert_eq!(here.view_bits::<Lsb0>().count_or(&there.view_bits::<Lsb0>()), 14);
    /// ```
    #[must_use]
    pub fn count_or<T2: Register, O2: Order>(&self, other: &BitSlice<'_, T2, O2>) -> usize {
        let common = self.len().min(other.len());
        let in_common = match T::same(&other.seen()) {
            Some(words) => self.ask(words, other, common, T::count_or),
            None => self
                .windows_with(other)
                .map(|(here, there)| (here | there).count_ones() as usize)
                .sum(),
        };
        in_common + self.rest(common).count_ones() + other.rest(common).count_ones()
    }

    /// What a call of the library answers of the first bits and those of another slice, whose words
    /// are of one type.
    #[inline]
    pub(crate) fn ask<T2: Register, O2: Order>(
        &self,
        words: &[T],
        other: &BitSlice<'_, T2, O2>,
        count: usize,
        call: Question<T>,
    ) -> usize {
        let there = (words, other.place().1);
        granted(call(O::CODE, self.place(), O2::CODE, there, count))
    }

    /// The bits of both slices, as far as both go, up to 64 at a time.
    fn windows_with<T2: Register, O2: Order>(
        &self,
        other: &BitSlice<'_, T2, O2>,
    ) -> impl Iterator<Item = (u64, u64)> {
        let len = self.len().min(other.len());
        let mut from = 0;
        core::iter::from_fn(move || {
            let count = self.ahead(from).min(len - from);
            if count == 0 {
                return None;
            }
            let both = (self.window(from, count), other.window(from, count));
            from += count;
            Some(both)
        })
    }
}
