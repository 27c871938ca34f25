//! Edits of bits.

use crate::number::Number;
use crate::order::Order;
use crate::order::code::Code;
use crate::own::AsBitSlice;
use crate::range::{run_of, within};
use crate::refusal::{Refusal, refused};
use crate::register::Register;
use crate::slice::{granted, load_bits, to_boundary};
use crate::slice_mut::BitSliceMut;
use crate::words::whole;
use core::any::type_name;
use core::ops::RangeBounds;
use core::slice::from_mut;

/// Copies `len` bits from one place to another, of two memories: words that are whole in both as
/// std's slices copy them, and what stands before and behind these by calls of the library.
fn copy<T: Register, O: Order>(
    (source, from): (&[T], usize),
    (target, to): (&mut [T], usize),
    len: usize,
) -> Result<(), Refusal> {
    let Some((head, count)) = whole::<T>(to, len).filter(|_| from % T::BITS == to % T::BITS) else {
        return T::copy(O::CODE, (source, from), (target, to), len);
    };
    let (first, place) = ((from + head) / T::BITS, (to + head) / T::BITS);
    target[place..][..count].copy_from_slice(&source[first..][..count]);
    let behind = head + count * T::BITS;
    for (at, len) in [(0, head), (behind, len - behind)] {
        if len != 0 {
            T::copy(O::CODE, (source, from + at), (target, to + at), len)?;
        }
    }
    Ok(())
}

/// Panics: which number was to stand in how many bits, why it does not, and what to call instead.
#[cold]
#[track_caller]
fn not_stored<N: Number>(call: &str, end: &str, number: N, len: usize, why: Refusal) -> ! {
    let kind = type_name::<N>();
    let sign = if N::HAS_SIGN {
        ", the sign's among them"
    } else {
        ""
    };
    panic!(
        "{call} {number:?}_{kind} in {len} bits{sign}: {why} (`try_store_{end}` answers that, and \
         `{call}_wrapping` puts the lowest digits)"
    )
}

crate::refusal::or_panics! {
    [T: Register, O: Order] BitSliceMut<'_, T, O>:

    /// Makes the bit at an index the same as `bit`. Constant time.
    ///
    /// # Examples
    ///
    /// ```
    /// use worghulen::{BitView, Msb0};
    ///
    /// let mut words = [0_u8];
    /// words.view_bits_mut::<Msb0>().set(1, true);
    /// assert_eq!(words, [0b0100_0000]);
    /// ```
    set by try_set(index: usize, bit: bool);

    /// Makes the bit at an index the same as `bit`, and returns it as it was. Constant time.
    ///
    /// # Examples
    ///
    /// ```
    /// use worghulen::{BitView, Lsb0};
    ///
    /// let mut words = [0b0000_1000_u8];
    /// assert!(words.view_bits_mut::<Lsb0>().replace(3, false));
    /// assert_eq!(words, [0]);
    /// ```
    replace by try_replace(index: usize, bit: bool) -> bool;

    /// Exchanges bits `i` and `j`. Constant time.
    ///
    /// # Examples
    ///
    /// ```
    /// use worghulen::{BitView, Lsb0};
    ///
    /// let mut words = [0b0000_1000_u8];
    /// words.view_bits_mut::<Lsb0>().swap(3, 0);
    /// assert_eq!(words, [1]);
    /// ```
    swap by try_swap(i: usize, j: usize);

    /// Moves each bit `by` places towards the first: the first `by` bits are lost, and the last
    /// `by` become zero. Costs by words.
    ///
    /// # Examples
    ///
    /// ```
    /// use worghulen::{BitView, Msb0};
    ///
    /// let mut words = [0b1011_0011_u8];
    /// words.view_bits_mut::<Msb0>().shift_left(2);
    /// assert_eq!(words, [0b1100_1100]);
    /// ```
    shift_left by try_shift_left(by: usize);

    /// Moves each bit `by` places towards the last: the last `by` bits are lost, and the first `by`
    /// become zero. Costs by words.
    ///
    /// # Examples
    ///
    /// ```
    /// use worghulen::{BitView, Msb0};
    ///
    /// let mut words = [0b1011_0011_u8];
    /// words.view_bits_mut::<Msb0>().shift_right(2);
    /// assert_eq!(words, [0b0010_1100]);
    /// ```
    shift_right by try_shift_right(by: usize);

    /// Puts the first `by` bits behind the others. Costs by words.
    ///
    /// # Examples
    ///
    /// ```
    /// use worghulen::{BitView, Msb0};
    ///
    /// let mut words = [0b1011_0011_u8];
    /// words.view_bits_mut::<Msb0>().rotate_left(2);
    /// assert_eq!(words, [0b1100_1110]);
    /// ```
    rotate_left by try_rotate_left(by: usize);

    /// Puts the last `by` bits before the others. Costs by words.
    ///
    /// # Examples
    ///
    /// ```
    /// use worghulen::{BitView, Msb0};
    ///
    /// let mut words = [0b1011_0001_u8];
    /// words.view_bits_mut::<Msb0>().rotate_right(2);
    /// assert_eq!(words, [0b0110_1100]);
    /// ```
    rotate_right by try_rotate_right(by: usize);
}

impl<T: Register, O: Order> BitSliceMut<'_, T, O> {
    /// Refused where there is no bit at an index.
    #[inline]
    fn has(&self, index: usize) -> Result<(), Refusal> {
        let len = self.len();
        if index < len {
            Ok(())
        } else {
            Err(Refusal::Outside { index, len })
        }
    }

    /// Refused where bits are to be moved by more places than there are.
    #[inline]
    fn can_move(&self, by: usize) -> Result<(), Refusal> {
        let (index, len) = (by, self.len());
        if index <= len {
            Ok(())
        } else {
            Err(Refusal::Outside { index, len })
        }
    }

    /// Makes the bit at an index the same as `bit`. Constant time.
    ///
    /// # Errors
    ///
    /// [`Refusal::Outside`] where there is no such bit.
    ///
    /// # Examples
    ///
    /// ```
    /// use worghulen::{BitSliceMut, Lsb0, Refusal};
    ///
    /// let mut words = [0_u8];
    /// let mut bits = BitSliceMut::<_, Lsb0>::new(&mut words, 2..6)?;
    /// bits.try_set(1, true)?;
    /// assert_eq!(bits.try_set(4, true), Err(Refusal::Outside { index: 4, len: 4 }));
    /// assert_eq!(words, [0b0000_1000]);
    /// # Ok::<(), Refusal>(())
    /// ```
    #[inline]
    pub fn try_set(&mut self, index: usize, bit: bool) -> Result<(), Refusal> {
        if !self.starts_a_word() {
            self.has(index)?;
            let (words, start) = self.place_mut();
            return T::set(O::CODE, words, start + index, bit);
        }
        let len = self.len();
        let Some((word, place)) = self.word_mut(index) else {
            return Err(Refusal::Outside { index, len });
        };
        T::set(O::CODE, from_mut(word), place, bit)
    }

    /// Makes the bit at an index the same as `bit`, and returns it as it was. Constant time.
    ///
    /// # Errors
    ///
    /// [`Refusal::Outside`] where there is no such bit.
    ///
    /// # Examples
    ///
    /// ```
    /// use worghulen::{BitView, Lsb0};
    ///
    /// let mut words = [0b0000_1000_u8];
    /// let mut bits = words.view_bits_mut::<Lsb0>();
    /// assert_eq!((bits.try_replace(3, false)?, bits.try_replace(0, true)?), (true, false));
    /// assert_eq!(words, [0b0000_0001]);
    /// # Ok::<(), worghulen::Refusal>(())
    /// ```
    pub fn try_replace(&mut self, index: usize, bit: bool) -> Result<bool, Refusal> {
        self.has(index)?;
        let (words, start) = self.place_mut();
        T::replace(O::CODE, words, start + index, bit)
    }

    /// Exchanges bits `i` and `j`. Constant time.
    ///
    /// # Errors
    ///
    /// [`Refusal::Outside`] where there is no bit at one of the indices.
    ///
    /// # Examples
    ///
    /// ```
    /// use worghulen::{BitView, Lsb0};
    ///
    /// let mut words = [0b0000_1000_u8];
    /// words.view_bits_mut::<Lsb0>().try_swap(3, 7)?;
    /// assert_eq!(words, [0b1000_0000]);
    /// # Ok::<(), worghulen::Refusal>(())
    /// ```
    pub fn try_swap(&mut self, i: usize, j: usize) -> Result<(), Refusal> {
        self.has(i)?;
        self.has(j)?;
        let (words, start) = self.place_mut();
        T::swap(O::CODE, words, start + i, start + j)
    }

    /// Makes every bit the same as `bit`. Costs by words.
    ///
    /// # Examples
    ///
    /// ```
    /// use worghulen::{BitSliceMut, Lsb0};
    ///
    /// let mut words = [0_u16; 2];
    /// BitSliceMut::<_, Lsb0>::new(&mut words, 12..20)?.fill(true);
    /// assert_eq!(words, [0xf000, 0x000f]);
    /// # Ok::<(), worghulen::Refusal>(())
    /// ```
    pub fn fill(&mut self, bit: bool) {
        let len = self.len();
        let (words, start) = self.place_mut();
        granted(T::fill(O::CODE, words, start, len, bit));
    }

    /// Turns each bit over. Costs by words.
    ///
    /// # Examples
    ///
    /// ```
    /// use worghulen::{BitSliceMut, Lsb0};
    ///
    /// let mut words = [0x12_u8, 0x34];
    /// BitSliceMut::<_, Lsb0>::new(&mut words, 4..12)?.invert();
    /// assert_eq!(words, [0xe2, 0x3b]);
    /// # Ok::<(), worghulen::Refusal>(())
    /// ```
    pub fn invert(&mut self) {
        let len = self.len();
        let (words, start) = self.place_mut();
        granted(T::invert(O::CODE, words, start, len));
    }

    /// Copies the bits of a range of indices to those from an index on, which may overlap them:
    /// each gets what stood there before. Costs by words.
    ///
    /// # Panics
    ///
    /// Panics, with the place and the length, where [`try_copy_within`](Self::try_copy_within) is
    /// refused. No bit is changed then.
    ///
    /// # Examples
    ///
    /// ```
    /// use worghulen::{BitView, Msb0};
    ///
    /// let mut words = [0b1011_0000_u8];
    /// words.view_bits_mut::<Msb0>().copy_within(..4, 4);
    /// assert_eq!(words, [0b1011_1011]);
    /// ```
    #[track_caller]
    pub fn copy_within(&mut self, range: impl RangeBounds<usize>, start: usize) {
        let bounds = (range.start_bound().cloned(), range.end_bound().cloned());
        if let Err(why) = self.try_copy_within(range, start) {
            refused("copy_within", &(bounds, start), self.len(), why);
        }
    }

    /// Makes the bits the digits of a number, those of the first word lowest, so that
    /// [`load_le`](Self::load_le) gives it back. Constant time.
    ///
    /// # Panics
    ///
    /// Panics, with the number and the length, where [`try_store_le`](Self::try_store_le) is
    /// refused: where the number does not fit. No bit is changed then.
    ///
    /// # Examples
    ///
    /// ```
    /// use worghulen::{BitView, Lsb0};
    ///
    /// let mut words = [0_u8; 2];
    /// words.view_bits_mut::<Lsb0>().get_mut(4..12).unwrap().store_le(0x23);
    /// assert_eq!(words, [0x30, 0x02]);
    /// ```
    ///
    /// ```should_panic
    /// use worghulen::{BitView, Lsb0};
    ///
    /// let mut word = 0_u8;
    /// word.view_bits_mut::<Lsb0>().store_le(0x123);
    /// ```
    #[inline]
    #[track_caller]
    pub fn store_le<N: Number>(&mut self, number: N) {
        if let Err(why) = self.try_store_le(number) {
            not_stored("store_le", "le", number, self.len(), why);
        }
    }

    /// Makes the bits the digits of a number, those of the first word highest, so that
    /// [`load_be`](Self::load_be) gives it back. Constant time.
    ///
    /// # Panics
    ///
    /// Panics, with the number and the length, where [`try_store_be`](Self::try_store_be) is
    /// refused: where the number does not fit. No bit is changed then.
    ///
    /// # Examples
    ///
    /// ```
    /// use worghulen::{BitView, Msb0};
    ///
    /// let mut words = [0_u8; 2];
    /// words.view_bits_mut::<Msb0>().get_mut(4..12).unwrap().store_be(0x23);
    /// assert_eq!(words, [0x02, 0x30]);
    /// ```
    #[inline]
    #[track_caller]
    pub fn store_be<N: Number>(&mut self, number: N) {
        if let Err(why) = self.try_store_be(number) {
            not_stored("store_be", "be", number, self.len(), why);
        }
    }

    /// As [`store_le`](Self::store_le), on every machine. Constant time.
    ///
    /// # Panics
    ///
    /// As that call.
    ///
    /// # Examples
    ///
    /// ```
    /// use worghulen::{BitView, Lsb0};
    ///
    /// let mut words = [0_u8; 2];
    /// words.view_bits_mut::<Lsb0>().store(0x1234_u16);
    /// assert_eq!(words, [0x34, 0x12]);
    /// ```
    #[inline]
    #[track_caller]
    pub fn store<N: Number>(&mut self, number: N) {
        if let Err(why) = self.try_store_le(number) {
            not_stored("store", "le", number, self.len(), why);
        }
    }

    /// As [`store_le_wrapping`](Self::store_le_wrapping), on every machine. Constant time.
    ///
    /// # Panics
    ///
    /// As that call.
    ///
    /// # Examples
    ///
    /// ```
    /// use worghulen::{BitView, Lsb0};
    ///
    /// let mut words = [0_u8; 2];
    /// words.view_bits_mut::<Lsb0>().get_mut(4..12).unwrap().store_wrapping(0x123);
    /// assert_eq!(words, [0x30, 0x02]);
    /// ```
    #[inline]
    #[track_caller]
    pub fn store_wrapping<N: Number>(&mut self, number: N) {
        self.put_lowest("store_wrapping", false, number);
    }

    /// As [`store_le`](Self::store_le) of the number's lowest digits, as many as there are bits: the
    /// digits above these are dropped. Where the type has fewer digits than there are bits, those
    /// above are 0, or of a negative number 1. Constant time.
    ///
    /// # Panics
    ///
    /// Panics where there are more than 64 bits. No bit is changed then.
    ///
    /// # Examples
    ///
    /// ```
    /// use worghulen::{BitView, Lsb0};
    ///
    /// let mut words = [0_u8; 2];
    /// words.view_bits_mut::<Lsb0>().get_mut(4..12).unwrap().store_le_wrapping(0x123);
    /// assert_eq!(words, [0x30, 0x02]);
    /// ```
    #[inline]
    #[track_caller]
    pub fn store_le_wrapping<N: Number>(&mut self, number: N) {
        self.put_lowest("store_le_wrapping", false, number);
    }

    /// As [`store_be`](Self::store_be) of the number's lowest digits, as many as there are bits: the
    /// digits above these are dropped. Where the type has fewer digits than there are bits, those
    /// above are 0, or of a negative number 1. Constant time.
    ///
    /// # Panics
    ///
    /// Panics where there are more than 64 bits. No bit is changed then.
    ///
    /// # Examples
    ///
    /// ```
    /// use worghulen::{BitView, Msb0};
    ///
    /// let mut words = [0_u8; 2];
    /// words.view_bits_mut::<Msb0>().get_mut(4..12).unwrap().store_be_wrapping(0x123);
    /// assert_eq!(words, [0x02, 0x30]);
    /// words.view_bits_mut::<Msb0>().store_be_wrapping(-2_i8);
    /// assert_eq!(words, [0xff, 0xfe]);
    /// ```
    #[inline]
    #[track_caller]
    pub fn store_be_wrapping<N: Number>(&mut self, number: N) {
        self.put_lowest("store_be_wrapping", true, number);
    }

    /// Makes the bits the digits of a number, those of the first word lowest, so that
    /// [`load_le`](Self::load_le) gives it back. Constant time.
    ///
    /// It is refused where [`write_le`](crate::BitWriter::write_le) of as many bits is. A signed
    /// number is in two's complement of as many digits as there are bits: 255 fits into 8 bits as a
    /// `u8` and not as an `i32`, which a number with no type is.
    ///
    /// # Errors
    ///
    /// [`Refusal::TooWide`] where there are more bits than the number's type has, and otherwise
    /// [`Refusal::TooLarge`] where the number has more digits than there are bits: of no bits, where
    /// it is not 0.
    ///
    /// # Examples
    ///
    /// ```
    /// use worghulen::{BitSliceMut, Lsb0, Refusal};
    ///
    /// let mut words = [0_u8; 2];
    /// let mut bits = BitSliceMut::<_, Lsb0>::new(&mut words, 4..12)?;
    /// bits.try_store_le(0x23)?;
    /// assert_eq!(bits.try_store_le(0x123), Err(Refusal::TooLarge));
    /// BitSliceMut::<_, Lsb0>::new(&mut words, 0..4)?.try_store_le(-2_i8)?;
    /// assert_eq!(words, [0x3e, 0x02]);
    /// let refused = BitSliceMut::<_, Lsb0>::new(&mut words, ..)?.try_store_le(1_u8);
    /// assert_eq!(refused, Err(Refusal::TooWide));
    /// # Ok::<(), Refusal>(())
    /// ```
    #[inline]
    pub fn try_store_le<N: Number>(&mut self, number: N) -> Result<(), Refusal> {
        self.put(false, number)
    }

    /// Makes the bits the digits of a number, those of the first word highest, so that
    /// [`load_be`](Self::load_be) gives it back. Constant time.
    ///
    /// It is refused where [`write_be`](crate::BitWriter::write_be) of as many bits is.
    ///
    /// # Errors
    ///
    /// As [`try_store_le`](Self::try_store_le).
    ///
    /// # Examples
    ///
    /// ```
    /// use worghulen::{BitSliceMut, Msb0, Refusal};
    ///
    /// let mut words = [0_u8; 2];
    /// let mut bits = BitSliceMut::<_, Msb0>::new(&mut words, 4..12)?;
    /// bits.try_store_be(0x23_u16)?;
    /// assert_eq!(bits.try_store_be(0x123_u16), Err(Refusal::TooLarge));
    /// assert_eq!(words, [0x02, 0x30]);
    /// # Ok::<(), Refusal>(())
    /// ```
    #[inline]
    pub fn try_store_be<N: Number>(&mut self, number: N) -> Result<(), Refusal> {
        self.put(true, number)
    }

    #[inline]
    fn put<N: Number>(&mut self, big: bool, number: N) -> Result<(), Refusal> {
        let len = self.len();
        let digits = number.fitting(len)?;
        let (words, start) = self.place_mut();
        T::store(O::CODE, big, words, start, len, digits)
    }

    #[inline]
    #[track_caller]
    fn put_lowest<N: Number>(&mut self, call: &str, big: bool, number: N) {
        let len = self.len();
        let (words, start) = self.place_mut();
        let stored = number.store(O::CODE, big, words, start, len);
        assert!(
            stored.is_ok(),
            "{call} {number:?} in {len} bits: these are more than 64 (`part_mut` lends fewer)"
        );
    }

    /// Makes the bits the same as those of another slice, of any words and order. Costs by words
    /// where the orders are the same, else by bits.
    ///
    /// # Errors
    ///
    /// [`Refusal::Lengths`] where that has not as many bits.
    ///
    /// # Examples
    ///
    /// ```
    /// use worghulen::{BitSlice, BitSliceMut, Lsb0, Msb0};
    ///
    /// let source = BitSlice::<_, Msb0>::new(&[0x0f_u8, 0xf0], 4..12)?;
    /// let mut words = [0_u8; 2];
    /// BitSliceMut::<_, Msb0>::new(&mut words, 1..9)?.copy_from(&source)?;
    /// assert_eq!(words, [0x7f, 0x80]);
    /// let mut words = [0_u32];
    /// BitSliceMut::<_, Lsb0>::new(&mut words, 9..17)?.copy_from(&source)?;
    /// assert_eq!(words, [0x1fe00]);
    /// # Ok::<(), worghulen::Refusal>(())
    /// ```
    pub fn copy_from<B: AsBitSlice>(&mut self, source: B) -> Result<(), Refusal> {
        let source = source.as_bitslice();
        let len = self.len();
        if source.len() != len {
            let other = source.len();
            return Err(Refusal::Lengths { len, other });
        }
        match T::same(&source.seen()) {
            Some(words) if O::CODE == B::Order::CODE => {
                copy::<T, O>((words, source.place().1), self.place_mut(), len)
            }
            _ => T::convert(
                B::Order::CODE,
                &source.seen(),
                source.place().1,
                O::CODE,
                self.place_mut(),
                len,
            ),
        }
    }

    /// Copies the bits of a range of indices to those from an index on, which may overlap them:
    /// each gets what stood there before. Costs by words.
    ///
    /// # Errors
    ///
    /// [`Refusal::Reversed`] where the range starts past its end, [`Refusal::TooLong`] where it has
    /// too many bits, and [`Refusal::Outside`] where it, or what it is copied to, ends past the
    /// last bit.
    ///
    /// # Examples
    ///
    /// ```
    /// use worghulen::{BitSliceMut, Msb0};
    ///
    /// let mut words = [0b1011_0000_u8];
    /// BitSliceMut::<_, Msb0>::new(&mut words, ..)?.try_copy_within(..4, 2)?;
    /// assert_eq!(words, [0b1010_1100]);
    /// # Ok::<(), worghulen::Refusal>(())
    /// ```
    pub fn try_copy_within(
        &mut self,
        range: impl RangeBounds<usize>,
        start: usize,
    ) -> Result<(), Refusal> {
        let (from, count) = within(range, self.len())?;
        let (to, count) = within(run_of(start, count, self.len())?, self.len())?;
        let (words, first) = self.place_mut();
        T::copy_within(O::CODE, words, first + from, first + to, count)
    }

    /// Puts the bits in the opposite order. Costs by words.
    ///
    /// # Examples
    ///
    /// ```
    /// use worghulen::{BitView, Lsb0};
    ///
    /// let mut words = [0x03_u8, 0x40];
    /// words.view_bits_mut::<Lsb0>().get_mut(..15).unwrap().reverse();
    /// assert_eq!(words, [0x01, 0x60]);
    /// ```
    pub fn reverse(&mut self) {
        let len = self.len();
        let (words, start) = self.place_mut();
        granted(T::reverse(O::CODE, words, start, len));
    }

    /// Moves each bit `by` places towards the first: the first `by` bits are lost, and the last
    /// `by` become zero. Costs by words.
    ///
    /// # Errors
    ///
    /// [`Refusal::Outside`] where `by` is past the length.
    ///
    /// # Examples
    ///
    /// ```
    /// use worghulen::{BitView, Msb0};
    ///
    /// let mut words = [0b1011_0011_u8];
    /// words.view_bits_mut::<Msb0>().try_shift_left(3)?;
    /// assert_eq!(words, [0b1001_1000]);
    /// # Ok::<(), worghulen::Refusal>(())
    /// ```
    pub fn try_shift_left(&mut self, by: usize) -> Result<(), Refusal> {
        self.can_move(by)?;
        let len = self.len();
        let (words, start) = self.place_mut();
        T::shift_left(O::CODE, words, start, len, by)
    }

    /// Moves each bit `by` places towards the last: the last `by` bits are lost, and the first `by`
    /// become zero. Costs by words.
    ///
    /// # Errors
    ///
    /// [`Refusal::Outside`] where `by` is past the length.
    ///
    /// # Examples
    ///
    /// ```
    /// use worghulen::{BitView, Msb0};
    ///
    /// let mut words = [0b1011_0011_u8];
    /// words.view_bits_mut::<Msb0>().try_shift_right(3)?;
    /// assert_eq!(words, [0b0001_0110]);
    /// # Ok::<(), worghulen::Refusal>(())
    /// ```
    pub fn try_shift_right(&mut self, by: usize) -> Result<(), Refusal> {
        self.can_move(by)?;
        let len = self.len();
        let (words, start) = self.place_mut();
        T::shift_right(O::CODE, words, start, len, by)
    }

    /// Puts the first `by` bits behind the others. Costs by words.
    ///
    /// # Errors
    ///
    /// [`Refusal::Outside`] where `by` is past the length.
    ///
    /// # Examples
    ///
    /// ```
    /// use worghulen::{BitView, Msb0};
    ///
    /// let mut words = [0b1011_0011_u8];
    /// words.view_bits_mut::<Msb0>().try_rotate_left(3)?;
    /// assert_eq!(words, [0b1001_1101]);
    /// # Ok::<(), worghulen::Refusal>(())
    /// ```
    pub fn try_rotate_left(&mut self, by: usize) -> Result<(), Refusal> {
        self.can_move(by)?;
        let len = self.len();
        let (words, start) = self.place_mut();
        T::rotate_left(O::CODE, words, start, len, by)
    }

    /// Puts the last `by` bits before the others. Costs by words.
    ///
    /// # Errors
    ///
    /// [`Refusal::Outside`] where `by` is past the length.
    ///
    /// # Examples
    ///
    /// ```
    /// use worghulen::{BitView, Msb0};
    ///
    /// let mut words = [0b1011_0011_u8];
    /// words.view_bits_mut::<Msb0>().try_rotate_right(3)?;
    /// assert_eq!(words, [0b0111_0110]);
    /// # Ok::<(), worghulen::Refusal>(())
    /// ```
    pub fn try_rotate_right(&mut self, by: usize) -> Result<(), Refusal> {
        self.can_move(by)?;
        self.try_rotate_left(self.len() - by)
    }

    /// Makes of the first bits what a function makes of at most 64 of them, as digits, the first
    /// lowest, from an index on.
    #[inline]
    pub(crate) fn make(&mut self, len: usize, new: impl Fn(u64, usize, usize) -> u64) {
        let (words, start) = self.place_mut();
        let mut from = 0;
        while from < len {
            let place = start + from;
            let count = to_boundary(place, len - from);
            let bits = new(load_bits::<T, O>(words, place, count), from, count);
            let number = O::turned(bits, count);
            granted(T::store(O::CODE, O::BIG, words, place, count, number));
            from += count;
        }
    }
}
