//! Numbers that are written one behind the other.

use crate::number::{Number, ones};
use crate::order::Order;
use crate::refusal::Refusal;
use crate::register::Register;
use crate::slice::{BitSlice, granted};
use crate::slice_mut::BitSliceMut;
use core::mem;

/// The bits of a slice, and the place among them behind those that were written.
///
/// Each call writes from there on, and moves the place behind what it wrote. Where one is refused,
/// the place and the bits stay. A [`BitReader`](crate::BitReader) reads it back by the calls of the
/// same names.
///
/// It keeps fewer than 64 bits back. [`finish`](Self::finish) and [`written`](Self::written) put them
/// in the words, and so does its drop, also where a call panics: before the words are looked at it has
/// to end. Where it is forgotten (`core::mem::forget`), these last bits are as they were.
///
/// # Examples
///
/// The first numbers of an IPv4 header.
///
/// ```
/// use worghulen::{BitView, BitWriter, Msb0, Refusal};
///
/// let mut header = [0_u8; 4];
/// let mut writer = BitWriter::new(header.view_bits_mut::<Msb0>());
/// writer.write_be(4, 4_u8)?;
/// writer.write_be(4, 5_u8)?;
/// writer.skip(8)?;
/// assert_eq!(writer.write_be(17, 1500_u32), Err(Refusal::TooFew));
/// writer.write_be(16, 1500_u16)?;
/// assert_eq!(writer.write_bit(true), Err(Refusal::TooFew));
/// drop(writer);
/// assert_eq!(header, [0x45, 0x00, 0x05, 0xdc]);
/// # Ok::<(), Refusal>(())
/// ```
#[derive(Debug)]
pub struct BitWriter<'a, T: Register, O: Order> {
    bits: BitSliceMut<'a, T, O>,
    /// What is written of its window need not be in the words yet.
    at: Window,
}

/// Where a writer stands. (What is seldom called is handed its numbers and not itself, so that it can
/// stay in registers.)
#[derive(Debug)]
struct Window {
    /// 64 bits of the slice, those of its words from one on, of which the last `free` are still to be
    /// written: these are zeros here. Where `free` is 0 there are none, and the word is past all words.
    written: u64,
    word: usize,
    free: usize,
    /// How many bits of the slice are behind those that are free.
    left: usize,
}

impl Window {
    /// No bits are known, and so many are left.
    #[inline]
    fn none(left: usize) -> Self {
        Self {
            written: 0,
            word: usize::MAX,
            free: 0,
            left,
        }
    }

    /// The bits of words from a place on, which end before that of an end: none where the words have not
    /// 64 before it.
    #[inline]
    fn at<T: Register, O: Order>(words: &[T], place: usize, end: usize) -> Self {
        let (word, into) = (place / T::BITS, place % T::BITS);
        match T::joined(words, word, O::BIG) {
            Some(stood) if word * T::BITS + 64 <= end => Self {
                written: stood ^ last::<O>(stood, 64 - into),
                word,
                free: 64 - into,
                left: end - word * T::BITS - 64,
            },
            _ => Self::none(end - place),
        }
    }

    /// Becomes another. (Of a copy of all at once the compiler would have each in memory.)
    #[inline]
    fn set(&mut self, other: &Self) {
        self.written = other.written;
        self.word = other.word;
        self.free = other.free;
        self.left = other.left;
    }

    /// For how many bits there is room.
    #[inline]
    fn remaining(&self) -> usize {
        self.free + self.left
    }

    /// What is written, and how many bits are free, behind digits, the first by the order, fewer than
    /// are free.
    #[inline]
    #[allow(clippy::cast_possible_truncation)] // (of a place in a window)
    fn with<O: Order>(&self, count: usize, digits: u64) -> (u64, usize) {
        let free = self.free - count;
        let up = if O::BIG { free } else { 64 - self.free };
        (self.written | digits.wrapping_shl(up as u32), free)
    }
}

/// Puts the bits of a window that a writer held in place of those of words from one on, of which the
/// last, `free` of them, stay. Where the words have none there, it does nothing.
#[inline(never)]
fn put_held<T: Register, O: Order>(words: &mut [T], word: usize, written: u64, free: usize) {
    if let Some(stood) = T::joined(words, word, O::BIG) {
        T::put(words, word, O::BIG, written | last::<O>(stood, free));
    }
}

/// The last of 64 bits, `count` of them and at most as many, and zeros in place of the others.
#[inline]
fn last<O: Order>(bits: u64, count: usize) -> u64 {
    if O::BIG {
        bits & ones(count)
    } else {
        bits & !ones(64 - count)
    }
}

/// Digits, at most 64, as they stand in 64 bits behind others, where the first is the highest or not.
#[inline]
#[allow(clippy::cast_possible_truncation)] // (of no digits all are zero)
fn in_order<O: Order>(digits: u64, big: bool, count: usize) -> u64 {
    if O::BIG == big {
        digits
    } else {
        digits.reverse_bits().wrapping_shr(64 - count as u32)
    }
}

/// Digits, the first by the order, as they stand in the last bits of a window, those that are free, and
/// the rest of them in the first bits of the next. (These are shifted twice, since by 64
/// at once they would be by none.)
#[inline]
#[allow(clippy::cast_possible_truncation)] // (of a place in a window)
fn parted<O: Order>(digits: u64, free: usize, rest: usize) -> (u64, u64) {
    let (free, rest) = (free as u32, rest as u32);
    if O::BIG {
        let behind = (digits << 1).wrapping_shl(63 ^ rest);
        (digits.wrapping_shr(rest), behind)
    } else {
        let behind = (digits >> 1).wrapping_shr(free.wrapping_sub(1));
        (digits.wrapping_shl(64 - free), behind)
    }
}

/// Puts a number in the next of the bits that are left before an end, or says why it is refused. Returns
/// the window behind it, too. (Cold: of many numbers in a row it has the first and the last.)
#[cold]
#[inline(never)]
fn put_any<T: Register, O: Order, N: Number>(
    words: &mut [T],
    end: usize,
    left: usize,
    (big, count, number): (bool, usize, N),
) -> (Window, Result<(), Refusal>) {
    let mut place = end - left;
    let answer = if count > N::WIDTH {
        Err(Refusal::TooWide)
    } else if count > left {
        Err(Refusal::TooFew)
    } else {
        number.digits(count).ok_or(Refusal::TooLarge)
    };
    let answer = answer.map(|digits| {
        if count > 0 {
            let digits = in_order::<O>(digits, big, count);
            granted(T::store(O::CODE, O::BIG, words, place, count, digits));
        }
        place += count;
    });
    (Window::at::<T, O>(words, place, end), answer)
}

impl<T: Register, O: Order> Drop for BitWriter<'_, T, O> {
    /// Puts what is held in the words, whose bits behind it stay.
    #[inline]
    fn drop(&mut self) {
        self.put_held();
    }
}

impl<'a, T: Register, O: Order> BitWriter<'a, T, O> {
    /// A writer before the first bit of a slice. Constant time.
    ///
    /// # Examples
    ///
    /// ```
    /// use worghulen::{BitView, BitWriter, Lsb0};
    ///
    /// let mut words = [0_u8];
    /// assert_eq!(BitWriter::new(words.view_bits_mut::<Lsb0>()).remaining(), 8);
    /// ```
    #[inline]
    #[must_use]
    pub fn new(bits: BitSliceMut<'a, T, O>) -> Self {
        let at = Window::none(bits.len());
        Self { bits, at }
    }

    /// How many bits were written or passed over. Constant time.
    ///
    /// # Examples
    ///
    /// ```
    /// use worghulen::{BitView, BitWriter, Lsb0};
    ///
    /// let mut words = [0_u8];
    /// let mut writer = BitWriter::new(words.view_bits_mut::<Lsb0>());
    /// writer.write_le(3, 5_u8)?;
    /// assert_eq!((writer.position(), writer.remaining()), (3, 5));
    /// # Ok::<(), worghulen::Refusal>(())
    /// ```
    #[inline]
    #[must_use]
    pub fn position(&self) -> usize {
        self.bits.len() - self.remaining()
    }

    /// For how many bits there is room. Constant time.
    ///
    /// # Examples
    ///
    /// ```
    /// use worghulen::{BitView, BitWriter, Lsb0};
    ///
    /// let mut words = [0_u16; 2];
    /// assert_eq!(BitWriter::new(words.view_bits_mut::<Lsb0>()).remaining(), 32);
    /// ```
    #[inline]
    #[must_use]
    pub fn remaining(&self) -> usize {
        self.at.remaining()
    }

    /// What was written or passed over, for reading. Constant time.
    ///
    /// # Examples
    ///
    /// ```
    /// use worghulen::{BitReader, BitView, BitWriter, Lsb0};
    ///
    /// let mut words = [0_u8; 2];
    /// let mut writer = BitWriter::new(words.view_bits_mut::<Lsb0>());
    /// writer.write_le(5, 11_u8)?;
    /// assert_eq!(writer.written().to_string(), "11010");
    /// assert_eq!(BitReader::new(writer.written()).read_le::<u8>(5)?, 11);
    /// # Ok::<(), worghulen::Refusal>(())
    /// ```
    #[inline]
    #[must_use]
    pub fn written(&mut self) -> BitSlice<'_, T, O> {
        self.put_held();
        self.bits.as_bitslice().start(self.position())
    }

    /// The whole slice, with what was written in its first [`position`](BitWriter::position) bits
    /// and the rest as it was. Nothing is kept back then. Constant time.
    ///
    /// # Examples
    ///
    /// ```
    /// use worghulen::{BitView, BitWriter, Msb0};
    ///
    /// let mut words = [0xff_u8];
    /// let mut writer = BitWriter::new(words.view_bits_mut::<Msb0>());
    /// writer.write_be(4, 6_u8)?;
    /// let mut bits = writer.finish();
    /// bits.set(7, false);
    /// assert_eq!(words, [0b0110_1110]);
    /// # Ok::<(), worghulen::Refusal>(())
    /// ```
    #[inline]
    #[allow(clippy::must_use_candidate)] // (a writer may end with it)
    pub fn finish(mut self) -> BitSliceMut<'a, T, O> {
        self.put_held();
        // (what is left has no words, so that its drop puts nothing)
        mem::replace(&mut self.bits, BitSliceMut::of(&mut [], 0, 0))
    }

    /// Has a call of the library write from the place on, which it moves.
    #[inline]
    fn ask(
        &mut self,
        call: impl FnOnce(&mut [T], &mut usize, usize) -> Result<(), Refusal>,
    ) -> Result<(), Refusal> {
        self.put_held();
        let (len, position) = (self.bits.len(), self.position());
        let (words, start) = self.bits.place_mut();
        let mut place = start + position;
        call(words, &mut place, start + len)?;
        self.stand_at(place - start);
        Ok(())
    }

    /// Stands at an index, and holds nothing.
    #[inline]
    fn stand_at(&mut self, index: usize) {
        self.at = Window::none(self.bits.len() - index);
    }

    /// Passes over `count` bits, which stay as they are. Constant time.
    ///
    /// # Errors
    ///
    /// [`Refusal::TooFew`] where fewer are left.
    ///
    /// # Examples
    ///
    /// ```
    /// use worghulen::{BitView, BitWriter, Lsb0, Refusal};
    ///
    /// let mut words = [0x0f_u8];
    /// let mut writer = BitWriter::new(words.view_bits_mut::<Lsb0>());
    /// writer.skip(7)?;
    /// assert_eq!(writer.skip(2), Err(Refusal::TooFew));
    /// writer.write_bit(true)?;
    /// drop(writer);
    /// assert_eq!(words, [0x8f]);
    /// # Ok::<(), Refusal>(())
    /// ```
    #[inline]
    pub fn skip(&mut self, count: usize) -> Result<(), Refusal> {
        if count > self.remaining() {
            return Err(Refusal::TooFew);
        }
        if self.pass_over(count).is_none() {
            self.put_held();
            self.stand_at(self.position() + count);
        }
        Ok(())
    }

    /// Has fewer bits of the window than are free as they are in the words, where there are more.
    #[inline]
    fn pass_over(&mut self, count: usize) -> Option<()> {
        let free = self.at.free.checked_sub(count).filter(|free| *free > 0)?;
        let (words, _) = self.bits.place_mut();
        let stood = T::joined(words, self.at.word, O::BIG)?;
        self.at.written |= last::<O>(stood, self.at.free) ^ last::<O>(stood, free);
        self.at.free = free;
        Some(())
    }

    /// Passes over the bits before the next place that is a multiple of `of` bits, from the first
    /// bit of the slice on: none where it stands at one. They stay as they are. Constant time.
    ///
    /// # Errors
    ///
    /// [`Refusal::TooFew`] where the bits end before such a place, also where `of` is 0.
    ///
    /// # Examples
    ///
    /// ```
    /// use worghulen::{BitView, BitWriter, Msb0};
    ///
    /// let mut bytes = [0_u8; 2];
    /// let mut writer = BitWriter::new(bytes.view_bits_mut::<Msb0>());
    /// writer.write(3, 5_u8)?;
    /// writer.skip_to_multiple_of(8)?;
    /// writer.write(8, 7_u8)?;
    /// drop(writer);
    /// assert_eq!(bytes, [0xa0, 7]);
    /// # Ok::<(), worghulen::Refusal>(())
    /// ```
    #[inline]
    pub fn skip_to_multiple_of(&mut self, of: usize) -> Result<(), Refusal> {
        let to = self.position().checked_next_multiple_of(of);
        self.skip(to.ok_or(Refusal::TooFew)? - self.position())
    }

    /// Writes a bit. Constant time.
    ///
    /// # Errors
    ///
    /// [`Refusal::TooFew`] where none is left.
    ///
    /// # Examples
    ///
    /// ```
    /// use worghulen::{BitView, BitWriter, Msb0};
    ///
    /// let mut words = [0b0111_1111_u8];
    /// let mut writer = BitWriter::new(words.view_bits_mut::<Msb0>());
    /// writer.write_bit(true)?;
    /// writer.write_bit(false)?;
    /// drop(writer);
    /// assert_eq!(words, [0b1011_1111]);
    /// # Ok::<(), worghulen::Refusal>(())
    /// ```
    #[inline]
    pub fn write_bit(&mut self, bit: bool) -> Result<(), Refusal> {
        self.put(O::BIG, 1, u8::from(bit))
    }

    /// Writes the bits of a slice, of any words and order. Costs by words where the orders are the
    /// same, else by bits.
    ///
    /// # Errors
    ///
    /// [`Refusal::TooFew`] where fewer are left.
    ///
    /// # Examples
    ///
    /// ```
    /// use worghulen::{BitView, BitWriter, Lsb0, Msb0, Refusal};
    ///
    /// let (source, mut words) = ([0b1010_0000_u8], [0_u16]);
    /// let source = source.view_bits::<Msb0>();
    /// let mut writer = BitWriter::new(words.view_bits_mut::<Lsb0>());
    /// writer.skip(4)?;
    /// writer.write_slice(&source)?;
    /// assert_eq!(writer.write_slice(&source), Err(Refusal::TooFew));
    /// assert_eq!(writer.remaining(), 4);
    /// drop(writer);
    /// assert_eq!(words, [0x0050]);
    /// # Ok::<(), Refusal>(())
    /// ```
    pub fn write_slice<T2: Register, O2: Order>(
        &mut self,
        source: &BitSlice<'_, T2, O2>,
    ) -> Result<(), Refusal> {
        if source.len() > self.remaining() {
            return Err(Refusal::TooFew);
        }
        self.put_held();
        let place = self.position();
        let end = place + source.len();
        self.bits.part_mut(place..end)?.copy_from(source)?;
        self.stand_at(end);
        Ok(())
    }

    /// Writes bytes, each in 8 bits: the first bit of a byte is its highest digit in an `Msb0`
    /// slice, and its lowest in an `Lsb0` one. Costs by words.
    ///
    /// # Errors
    ///
    /// [`Refusal::TooFew`] where fewer bits are left.
    ///
    /// # Examples
    ///
    /// ```
    /// use worghulen::{BitView, BitWriter, Msb0};
    ///
    /// let mut words = [0_u32];
    /// let mut writer = BitWriter::new(words.view_bits_mut::<Msb0>());
    /// writer.skip(4)?;
    /// writer.write_bytes(&[0x23, 0x45])?;
    /// drop(writer);
    /// assert_eq!(words, [0x0234_5000]);
    /// # Ok::<(), worghulen::Refusal>(())
    /// ```
    pub fn write_bytes(&mut self, bytes: &[u8]) -> Result<(), Refusal> {
        self.write_slice(&BitSlice::<u8, O>::from_slice(bytes))
    }

    /// Writes a number in the next `count` bits, as the order has it: as
    /// [`write_be`](Self::write_be) in an `Msb0` slice, and as [`write_le`](Self::write_le) in an
    /// `Lsb0` one. Costs by words.
    ///
    /// # Errors
    ///
    /// As [`write_be`](Self::write_be).
    ///
    /// # Examples
    ///
    /// ```
    /// use worghulen::{BitView, BitWriter, Lsb0};
    ///
    /// let mut words = [0_u8];
    /// let mut writer = BitWriter::new(words.view_bits_mut::<Lsb0>());
    /// writer.write(4, 11_u16)?;
    /// writer.write(4, -3_i8)?;
    /// drop(writer);
    /// assert_eq!(words, [0b1101_1011]);
    /// # Ok::<(), worghulen::Refusal>(())
    /// ```
    #[inline]
    pub fn write<N: Number>(&mut self, count: usize, number: N) -> Result<(), Refusal> {
        self.put(O::BIG, count, number)
    }

    /// Writes a number in the next `count` bits, the first the highest digit; a signed number in
    /// two's complement of `count` digits. Costs by words.
    ///
    /// # Errors
    ///
    /// [`Refusal::TooWide`] where `count` is more than the bits of the number's type, otherwise
    /// [`Refusal::TooFew`] where fewer are left, and otherwise [`Refusal::TooLarge`] where the
    /// number has more digits: in no bits, where it is not 0.
    ///
    /// # Examples
    ///
    /// ```
    /// use worghulen::{BitView, BitWriter, Lsb0, Refusal};
    ///
    /// let mut words = [0_u8];
    /// let mut writer = BitWriter::new(words.view_bits_mut::<Lsb0>());
    /// writer.write_be(4, 0b1011_u16)?;
    /// assert_eq!(writer.write_be(9, 1_u8), Err(Refusal::TooWide));
    /// assert_eq!(writer.write_be(5, 1_u8), Err(Refusal::TooFew));
    /// assert_eq!(writer.write_be(3, 8_u8), Err(Refusal::TooLarge));
    /// assert_eq!(writer.write_be(3, -5_i8), Err(Refusal::TooLarge));
    /// writer.write_be(3, -2_i8)?;
    /// drop(writer);
    /// assert_eq!(words, [0b0011_1101]);
    /// # Ok::<(), Refusal>(())
    /// ```
    #[inline]
    pub fn write_be<N: Number>(&mut self, count: usize, number: N) -> Result<(), Refusal> {
        self.put(true, count, number)
    }

    /// Writes a number in the next `count` bits, the first the lowest digit; a signed number in
    /// two's complement of `count` digits. Costs by words.
    ///
    /// # Errors
    ///
    /// As [`write_be`](Self::write_be).
    ///
    /// # Examples
    ///
    /// ```
    /// use worghulen::{BitView, BitWriter, Msb0};
    ///
    /// let mut words = [0_u8];
    /// let mut writer = BitWriter::new(words.view_bits_mut::<Msb0>());
    /// writer.write_le(4, 0b1011_u16)?;
    /// writer.write_le(4, -3_i16)?;
    /// drop(writer);
    /// assert_eq!(words, [0b1101_1011]);
    /// # Ok::<(), worghulen::Refusal>(())
    /// ```
    #[inline]
    pub fn write_le<N: Number>(&mut self, count: usize, number: N) -> Result<(), Refusal> {
        self.put(false, count, number)
    }

    /// Writes a number, in the window alone until this is full. (Always inlined: of a number of bits that
    /// is known few tests are left.)
    #[inline(always)]
    #[allow(clippy::inline_always)]
    fn put<N: Number>(&mut self, big: bool, count: usize, number: N) -> Result<(), Refusal> {
        if count < self.at.free && (N::WIDTH == 64 || count <= N::WIDTH) {
            if let Some(digits) = number.digits(count) {
                let digits = in_order::<O>(digits, big, count);
                (self.at.written, self.at.free) = self.at.with::<O>(count, digits);
                return Ok(());
            }
        } else if count <= N::WIDTH {
            if let Some(digits) = number.digits(count) {
                let digits = in_order::<O>(digits, big, count);
                if self.pass_on(count, digits).is_some() {
                    return Ok(());
                }
            }
        }
        self.put_held();
        let (len, left) = (self.bits.len(), self.remaining());
        let (words, start) = self.bits.place_mut();
        let asked = (big, count, number);
        let (at, answer) = put_any::<T, O, N>(words, start + len, left, asked);
        self.at.set(&at);
        answer
    }

    /// Puts what is held in the words.
    #[inline]
    fn put_held(&mut self) {
        let (at, (words, _)) = (&self.at, self.bits.place_mut());
        put_held::<T, O>(words, at.word, at.written, at.free);
    }

    /// Puts digits, the first by the order, in the bits of the window that are free, at most as many,
    /// and in the next window, which then is this one: where there is one.
    #[inline]
    fn pass_on(&mut self, count: usize, digits: u64) -> Option<()> {
        let left = self.at.left.checked_sub(64)?;
        let (word, rest) = (self.at.word, count - self.at.free);
        let (first, written) = parted::<O>(digits, self.at.free, rest);
        let (words, _) = self.bits.place_mut();
        T::put(words, word, O::BIG, self.at.written | first)?;
        self.at = Window {
            written,
            word: word + 64 / T::BITS,
            free: 64 - rest,
            left,
        };
        Some(())
    }

    /// Writes `count` bits that are `bit`, and one that is not. Costs by words.
    ///
    /// # Errors
    ///
    /// [`Refusal::TooFew`] where no more than `count` are left.
    ///
    /// # Examples
    ///
    /// ```
    /// use worghulen::{BitView, BitWriter, Msb0, Refusal};
    ///
    /// let mut words = [0_u8];
    /// let mut writer = BitWriter::new(words.view_bits_mut::<Msb0>());
    /// writer.write_unary(true, 3)?;
    /// writer.write_unary(false, 1)?;
    /// assert_eq!(writer.write_unary(false, 2), Err(Refusal::TooFew));
    /// drop(writer);
    /// assert_eq!(words, [0b1110_0100]);
    /// # Ok::<(), Refusal>(())
    /// ```
    #[inline]
    pub fn write_unary(&mut self, bit: bool, count: usize) -> Result<(), Refusal> {
        self.ask(|words, place, end| T::write_unary(O::CODE, words, place, end, bit, count))
    }

    /// Writes a number's Exp-Golomb code: `ue(v)` of ITU-T H.264 and H.265, or for a signed type
    /// `se(v)`. Costs by words.
    ///
    /// [`read_exp_golomb`](crate::BitReader::read_exp_golomb) says which that is. Each number has
    /// one: of a type of 64 bits it has at most 129 bits.
    ///
    /// # Errors
    ///
    /// [`Refusal::TooFew`] where fewer bits are left than the code has.
    ///
    /// # Examples
    ///
    /// ```
    /// use worghulen::{BitView, BitWriter, Msb0, Refusal};
    ///
    /// let mut words = [0_u8; 2];
    /// let mut writer = BitWriter::new(words.view_bits_mut::<Msb0>());
    /// writer.write_exp_golomb(0_u8)?;
    /// writer.write_exp_golomb(1_u8)?;
    /// writer.write_exp_golomb(-1)?;
    /// writer.write_exp_golomb(2)?;
    /// assert_eq!(writer.write_exp_golomb(3_u8), Err(Refusal::TooFew));
    /// assert_eq!(writer.remaining(), 4);
    /// drop(writer);
    /// assert_eq!(words, [0b1010_0110, 0b0100_0000]);
    /// # Ok::<(), Refusal>(())
    /// ```
    #[inline]
    pub fn write_exp_golomb<N: Number>(&mut self, number: N) -> Result<(), Refusal> {
        if let Some(code) = number.code() {
            let zeros = code.ilog2() as usize;
            return self.put::<u64>(true, 2 * zeros + 1, code.get().into());
        }
        self.ask(|words, place, end| number.write_code(O::CODE, words, place, end))
    }
}
