//! Numbers that stand one behind the other.

use crate::number::Number;
use crate::order::Order;
use crate::refusal::Refusal;
use crate::register::Register;
use crate::slice::{BitSlice, to_boundary};

/// The bits of a slice, and the place among them behind those that were read.
///
/// Each call reads from there on, and moves the place behind what it read. Where one is refused,
/// the place stays. To read ahead, read by a clone.
///
/// # Examples
///
/// The first numbers of an IPv4 header.
///
/// ```
/// use worghulen::{BitReader, BitView, Msb0, Refusal};
///
/// let header = [0x45_u8, 0x00, 0x05, 0xdc];
/// let mut reader = BitReader::new(header.view_bits::<Msb0>());
/// assert_eq!(reader.read_be::<u8>(4)?, 4);
/// assert_eq!(reader.read_be::<u8>(4)?, 5);
/// reader.skip(8)?;
/// assert_eq!(reader.clone().read_be::<u8>(8)?, 5);
/// assert_eq!(reader.read_be::<u16>(16)?, 1500);
/// assert_eq!(reader.read_bit(), Err(Refusal::TooFew));
/// # Ok::<(), Refusal>(())
/// ```
#[derive(Clone, Debug)]
pub struct BitReader<'a, T: Register, O: Order> {
    bits: BitSlice<'a, T, O>,
    at: At<'a, T>,
}

/// Where a reader stands. (It is handed on by value, so that it can stay in registers.)
#[derive(Clone, Copy, Debug)]
struct At<'a, T> {
    /// The words behind the bits that were read, passed over, or are in the window: those that the
    /// slice has whole, and none where one of them begins among these bits. The index behind them.
    words: &'a [T],
    until: usize,
    /// The last of the bits before them, which are not read yet, fewer than 64: the first is the
    /// highest digit where the order is `BIG`, and the lowest else. The other digits are zero.
    window: u64,
    held: usize,
}

impl<'a, T: Register> At<'a, T> {
    /// At an index, with nothing in the window.
    #[inline]
    fn index<O: Order>(bits: &BitSlice<'a, T, O>, index: usize) -> Self {
        let words = bits.whole_from(index);
        Self {
            words,
            until: index + words.len() * T::BITS,
            window: 0,
            held: 0,
        }
    }

    /// The index behind the window.
    #[inline]
    fn behind(&self) -> usize {
        self.until - self.words.len() * T::BITS
    }
}

/// `count` bits from a place on, at most 64, as the window of a reader has them.
#[inline]
fn bits_at<T: Register, O: Order>(words: &[T], place: usize, count: usize) -> u64 {
    let digits = BitSlice::<T, O>::of(words, place, count).digits();
    if O::BIG && count > 0 {
        digits << (64 - count)
    } else {
        digits
    }
}

/// The bits behind a window, 64 of them where whole words have them: else `lacking` at least, and up
/// to where whole words begin, if that is not too far. How many they are, and where a reader stands
/// behind them. `None` where fewer are left.
#[inline(always)]
#[allow(clippy::inline_always)] // (what it returns would pass by memory)
fn more<'a, T: Register, O: Order>(
    bits: &BitSlice<'a, T, O>,
    at: &At<'a, T>,
    lacking: usize,
) -> Option<(u64, usize, At<'a, T>)> {
    let ((words, start), index) = (bits.place(), at.behind());
    if let Some((digits, _)) = T::split_joined(at.words, O::BIG) {
        return Some((digits, 64, At::index(bits, index + 64)));
    }
    let left = bits.len() - index;
    if lacking > left {
        return None;
    }
    let mut count = to_boundary(start + index, left);
    if count < lacking {
        count = left.min(64);
    }
    let digits = bits_at::<T, O>(words, start + index, count);
    Some((digits, count, At::index(bits, index + count)))
}

/// A window of the next bits, at most 64 and more than are held, or none; and where a reader stands
/// behind these. `None` where fewer are left.
#[cold]
#[inline(never)]
fn read_on<'a, T: Register, O: Order>(
    bits: BitSlice<'a, T, O>,
    at: At<'a, T>,
    count: usize,
) -> Option<(u64, At<'a, T>)> {
    if count == 0 {
        return Some((0, at));
    }
    let lacking = count - at.held;
    let (next, taken, behind_them) = more(&bits, &at, lacking)?;
    let window = at.window | behind_held::<O>(next, at.held);
    let At { words, until, .. } = behind_them;
    // (by 64 in two steps)
    let rest = behind::<O>(behind::<O>(next, lacking - 1), 1);
    let at = At {
        words,
        until,
        window: rest,
        held: taken - lacking,
    };
    Some((window, at))
}

/// A window of `count` bits at least, which begins with those that are held, fewer, and the place of a
/// reader that holds of those behind them as many as it can, fewer than 64 with these: up to where a
/// word ends where that is enough, so that whole words come next. `None` where the bits end.
#[inline(never)]
fn peeked<'a, T: Register, O: Order>(
    bits: BitSlice<'a, T, O>,
    at: At<'a, T>,
    count: usize,
) -> Option<(u64, At<'a, T>)> {
    let (held, index) = (at.held, at.behind());
    let (next, taken, _) = more(&bits, &at, count - held)?;
    let window = at.window | behind_held::<O>(next, held);
    let (most, into) = (63 - held, (bits.place().1 + index) % T::BITS);
    let whole = ((into + most) / T::BITS * T::BITS).saturating_sub(into);
    let kept = if held + whole < count { most } else { whole };
    let kept = kept.min(taken);
    let mut at = At::index(&bits, index + kept);
    at.held = held + kept;
    at.window = first_of::<O>(window, at.held);
    Some((window, at))
}

/// The first bits of a window, at most 64, as a number has their digits.
#[inline]
fn digits_of<O: Order>(window: u64, big: bool, count: usize) -> u64 {
    if count == 0 {
        return 0;
    }
    let above = 64 - count;
    match (O::BIG, big) {
        (true, true) => window >> above,
        (true, false) => window.reverse_bits() << above >> above,
        (false, true) => window.reverse_bits() >> above,
        (false, false) => window << above >> above,
    }
}

/// The same of some, fewer than 64.
#[inline]
fn few_digits_of<O: Order>(window: u64, big: bool, count: usize) -> u64 {
    let window = if O::BIG == big {
        window
    } else {
        window.reverse_bits()
    };
    if big {
        window >> (64 - count)
    } else {
        window & !(!0 << count)
    }
}

/// Bits as they stand in a window behind those that it holds, fewer than 64.
#[inline]
fn behind_held<O: Order>(next: u64, held: usize) -> u64 {
    if O::BIG { next >> held } else { next << held }
}

/// A window of the first bits alone, fewer than 64.
#[inline]
fn first_of<O: Order>(window: u64, count: usize) -> u64 {
    if O::BIG {
        window & !(!0 >> count)
    } else {
        window & !(!0 << count)
    }
}

/// A window whose first bits are gone, fewer than 64.
#[inline]
fn behind<O: Order>(window: u64, count: usize) -> u64 {
    if O::BIG {
        window << count
    } else {
        window >> count
    }
}

/// How many of the first bits of a window are zero.
#[inline]
fn run_of_zeros<O: Order>(window: u64) -> usize {
    let zeros = if O::BIG {
        window.leading_zeros()
    } else {
        window.trailing_zeros()
    };
    zeros as usize
}

/// The number whose Exp-Golomb code stands next, by the library, and where a reader stands behind it.
#[cold]
#[inline(never)]
fn code_on<'a, T: Register, O: Order, N: Number>(
    bits: BitSlice<'a, T, O>,
    at: At<'a, T>,
) -> Result<(N, At<'a, T>), Refusal> {
    let mut reader = BitReader { bits, at };
    let number = reader.ask(|words, place, end| N::read_code(O::CODE, words, place, end))?;
    Ok((number, reader.at))
}

impl<'a, T: Register, O: Order> BitReader<'a, T, O> {
    /// A reader before the first bit of a slice. Constant time.
    ///
    /// # Examples
    ///
    /// ```
    /// use worghulen::{BitReader, BitView, Lsb0};
    ///
    /// let words = [0x2c_u8];
    /// assert_eq!(BitReader::new(words.view_bits::<Lsb0>()).remaining(), 8);
    /// ```
    #[inline]
    #[must_use]
    pub fn new(bits: BitSlice<'a, T, O>) -> Self {
        let at = At::index(&bits, 0);
        Self { bits, at }
    }

    /// How many bits were read or passed over. Constant time.
    ///
    /// # Examples
    ///
    /// ```
    /// use worghulen::{BitReader, BitView, Lsb0};
    ///
    /// let words = [0x2c_u8];
    /// let mut reader = BitReader::new(words.view_bits::<Lsb0>());
    /// reader.skip(3)?;
    /// assert_eq!((reader.position(), reader.remaining()), (3, 5));
    /// # Ok::<(), worghulen::Refusal>(())
    /// ```
    #[inline]
    #[must_use]
    pub fn position(&self) -> usize {
        self.at.behind() - self.at.held
    }

    /// How many bits are left. Constant time.
    ///
    /// # Examples
    ///
    /// ```
    /// use worghulen::{BitReader, BitView, Lsb0};
    ///
    /// assert_eq!(BitReader::new([0_u16; 2].view_bits::<Lsb0>()).remaining(), 32);
    /// ```
    #[inline]
    #[must_use]
    pub fn remaining(&self) -> usize {
        self.bits.len() - self.position()
    }

    /// The bits that are left, as a slice of the same words. Constant time.
    ///
    /// # Examples
    ///
    /// ```
    /// use worghulen::{BitReader, BitView, Lsb0};
    ///
    /// let words = [0b0010_1100_u8];
    /// let mut reader = BitReader::new(words.view_bits::<Lsb0>());
    /// reader.skip(2)?;
    /// assert_eq!(reader.rest().to_string(), "110100");
    /// # Ok::<(), worghulen::Refusal>(())
    /// ```
    #[inline]
    #[must_use]
    pub fn rest(&self) -> BitSlice<'a, T, O> {
        self.bits.rest(self.position())
    }

    /// Has a call of the library read from the place on, which it moves.
    #[inline]
    fn ask<A>(
        &mut self,
        call: impl FnOnce(&[T], &mut usize, usize) -> Result<A, Refusal>,
    ) -> Result<A, Refusal> {
        let (words, start) = self.bits.place();
        let mut place = start + self.position();
        let answer = call(words, &mut place, start + self.bits.len())?;
        self.pass(place - start - self.position());
        Ok(answer)
    }

    /// Moves the place behind `count` of the bits that are left.
    #[inline]
    fn pass(&mut self, count: usize) {
        if count <= self.at.held {
            self.at.held -= count;
            self.at.window = behind::<O>(self.at.window, count);
            return;
        }
        let lacking = count - self.at.held;
        match T::split_joined(self.at.words, O::BIG) {
            Some((next, words)) if lacking < 64 => {
                self.at.words = words;
                self.at.window = behind::<O>(next, lacking);
                self.at.held = 64 - lacking;
            }
            _ => self.at = At::index(&self.bits, self.position() + count),
        }
    }

    /// A window of 64 bits that begins with those that are held, where whole words have the next 64. The
    /// reader then holds as many of these words as it can, where it holds `count` bits then.
    #[inline]
    fn look_ahead(&mut self, count: usize) -> Option<u64> {
        let At { words, held, .. } = self.at;
        let (next, _) = T::split_joined(words, O::BIG)?;
        let window = self.at.window | behind_held::<O>(next, held);
        let more = (63 - held) / T::BITS;
        let holds = held + more * T::BITS;
        if T::BITS < 64 && count <= holds {
            self.at.words = words.get(more..)?;
            self.at.window = first_of::<O>(window, holds);
            self.at.held = holds;
        }
        Some(window)
    }

    /// Passes over 64 bits, where whole words have the next 64: a window that begins with those that are
    /// held. As many are held behind them as before.
    #[inline]
    fn take_64(&mut self) -> Option<u64> {
        let At { window, held, .. } = self.at;
        let (next, words) = T::split_joined(self.at.words, O::BIG)?;
        self.at.words = words;
        // (by 64 in two steps)
        self.at.window = behind::<O>(behind::<O>(next, 63 - held), 1);
        Some(window | behind_held::<O>(next, held))
    }

    /// The number of the next `count` bits, which are passed over. (Always inlined: of a number of
    /// bits that is known few tests are left.)
    #[inline(always)]
    #[allow(clippy::inline_always)]
    fn number<N: Number>(&mut self, big: bool, count: usize) -> Result<N, Refusal> {
        let At { window, held, .. } = self.at;
        // (fewer than 64 are held, so that no number of 64 bits wants a second test)
        let are_held = if big {
            count.wrapping_sub(1) < held
        } else {
            count <= held
        };
        if are_held && (N::WIDTH == 64 || count <= N::WIDTH) {
            let digits = few_digits_of::<O>(window, big, count);
            self.at.window = behind::<O>(window, count);
            self.at.held = held - count;
            return Ok(N::of_digits(digits, count));
        }
        if count.wrapping_sub(1) < N::WIDTH.min(63) {
            if let Some((next, words)) = T::split_joined(self.at.words, O::BIG) {
                let (lacking, window) = (count - held, window | behind_held::<O>(next, held));
                self.at.window = behind::<O>(next, lacking);
                self.at.held = 64 - lacking;
                self.at.words = words;
                return Ok(N::of_digits(few_digits_of::<O>(window, big, count), count));
            }
        }
        if N::WIDTH == 64 && count == 64 {
            if let Some(window) = self.take_64() {
                return Ok(N::of_digits(digits_of::<O>(window, big, 64), 64));
            }
        }
        if count > N::WIDTH {
            return Err(Refusal::TooWide);
        }
        let Some((window, at)) = read_on(self.bits, self.at, count) else {
            return Err(Refusal::TooFew);
        };
        self.at = at;
        Ok(N::of_digits(digits_of::<O>(window, big, count), count))
    }

    /// Passes over `count` bits. Constant time.
    ///
    /// # Errors
    ///
    /// [`Refusal::TooFew`] where fewer are left.
    ///
    /// # Examples
    ///
    /// ```
    /// use worghulen::{BitReader, BitView, Lsb0, Refusal};
    ///
    /// let words = [0x80_u8];
    /// let mut reader = BitReader::new(words.view_bits::<Lsb0>());
    /// reader.skip(7)?;
    /// assert_eq!(reader.skip(2), Err(Refusal::TooFew));
    /// assert!(reader.read_bit()?);
    /// # Ok::<(), Refusal>(())
    /// ```
    #[inline]
    pub fn skip(&mut self, count: usize) -> Result<(), Refusal> {
        // (as many as are held need no second test. What is left of the window is kept in the second
        // case too, where it is nothing: else the compiler would shift behind the test. Who looks codes
        // up waits for each shift, and one of x86 takes longer behind a comparison)
        let rest = behind::<O>(self.at.window, count % 64);
        if count <= self.at.held {
            self.at.window = rest;
            self.at.held -= count;
            return Ok(());
        }
        if count > self.remaining() {
            return Err(Refusal::TooFew);
        }
        self.pass(count);
        if count < 64 {
            self.at.window |= rest;
        }
        Ok(())
    }

    /// Passes over the bits before the next place that is a multiple of `of` bits, from the first
    /// bit of the slice on: none where it stands at one. Constant time.
    ///
    /// # Errors
    ///
    /// [`Refusal::TooFew`] where the bits end before such a place, also where `of` is 0.
    ///
    /// # Examples
    ///
    /// ```
    /// use worghulen::{BitReader, BitView, Msb0, Refusal};
    ///
    /// let bytes = [0xa0_u8, 7];
    /// let mut reader = BitReader::new(bytes.view_bits::<Msb0>());
    /// assert_eq!(reader.read::<u8>(3)?, 5);
    /// reader.skip_to_multiple_of(8)?;
    /// assert_eq!(reader.read::<u8>(8)?, 7);
    /// assert_eq!(reader.skip_to_multiple_of(32), Err(Refusal::TooFew));
    /// # Ok::<(), Refusal>(())
    /// ```
    #[inline]
    pub fn skip_to_multiple_of(&mut self, of: usize) -> Result<(), Refusal> {
        let to = self.position().checked_next_multiple_of(of);
        self.skip(to.ok_or(Refusal::TooFew)? - self.position())
    }

    /// The next bit. Constant time.
    ///
    /// # Errors
    ///
    /// [`Refusal::TooFew`] where none is left.
    ///
    /// # Examples
    ///
    /// ```
    /// use worghulen::{BitReader, BitView, Msb0};
    ///
    /// let words = [0b1000_0000_u8];
    /// let mut reader = BitReader::new(words.view_bits::<Msb0>());
    /// assert_eq!((reader.read_bit()?, reader.read_bit()?), (true, false));
    /// # Ok::<(), worghulen::Refusal>(())
    /// ```
    #[inline]
    pub fn read_bit(&mut self) -> Result<bool, Refusal> {
        Ok(self.number::<u64>(O::BIG, 1)? == 1)
    }

    /// The next `count` bits as a slice of the same memory. Constant time.
    ///
    /// # Errors
    ///
    /// [`Refusal::TooFew`] where fewer are left.
    ///
    /// # Examples
    ///
    /// ```
    /// use worghulen::{BitReader, BitView, Lsb0, Refusal};
    ///
    /// let words = [0x2c_u8, 0xff];
    /// let mut reader = BitReader::new(words.view_bits::<Lsb0>());
    /// assert_eq!(reader.read_slice(6)?.count_ones(), 3);
    /// assert_eq!(reader.read_slice(11).err(), Some(Refusal::TooFew));
    /// assert_eq!(reader.remaining(), 10);
    /// # Ok::<(), Refusal>(())
    /// ```
    #[inline]
    pub fn read_slice(&mut self, count: usize) -> Result<BitSlice<'a, T, O>, Refusal> {
        let slice = self.rest().get(..count).ok_or(Refusal::TooFew)?;
        self.pass(count);
        Ok(slice)
    }

    /// The next bytes, each of 8 bits: the first bit of a byte is its highest digit of an `Msb0`
    /// slice, and its lowest of an `Lsb0` one. Costs by words.
    ///
    /// # Errors
    ///
    /// [`Refusal::TooFew`] where fewer are left. The bytes stay then.
    ///
    /// # Examples
    ///
    /// ```
    /// use worghulen::{BitReader, BitView, Msb0, Refusal};
    ///
    /// let words = [0x1234_5678_u32];
    /// let (mut reader, mut bytes) = (BitReader::new(words.view_bits::<Msb0>()), [0; 2]);
    /// reader.skip(4)?;
    /// reader.read_bytes(&mut bytes)?;
    /// assert_eq!(bytes, [0x23, 0x45]);
    /// assert_eq!(reader.read_bytes(&mut bytes), Err(Refusal::TooFew));
    /// # Ok::<(), Refusal>(())
    /// ```
    pub fn read_bytes(&mut self, bytes: &mut [u8]) -> Result<(), Refusal> {
        let mut bytes = BitSlice::<u8, O>::from_slice_mut(bytes);
        bytes.copy_from(self.read_slice(bytes.len())?)
    }

    /// The number of the next `count` bits, as the order has it: as [`read_be`](Self::read_be) of
    /// an `Msb0` slice, and as [`read_le`](Self::read_le) of an `Lsb0` one. Constant time: up to 64
    /// bits are read from the words at once, and kept.
    ///
    /// # Errors
    ///
    /// As [`read_be`](Self::read_be).
    ///
    /// # Examples
    ///
    /// ```
    /// use worghulen::{BitReader, BitView, Lsb0, Msb0};
    ///
    /// let words = [0b0010_1101_u8];
    /// assert_eq!(BitReader::new(words.view_bits::<Msb0>()).read::<u16>(4)?, 0b0010);
    /// assert_eq!(BitReader::new(words.view_bits::<Lsb0>()).read::<u16>(4)?, 0b1101);
    /// assert_eq!(BitReader::new(words.view_bits::<Lsb0>()).read::<i16>(4)?, -3);
    /// # Ok::<(), worghulen::Refusal>(())
    /// ```
    #[inline]
    pub fn read<N: Number>(&mut self, count: usize) -> Result<N, Refusal> {
        self.number(O::BIG, count)
    }

    /// The number that [`read`](Self::read) would read, and the place stays. Constant time.
    ///
    /// # Errors
    ///
    /// As [`read_be`](Self::read_be).
    ///
    /// # Examples
    ///
    /// ```
    /// use worghulen::{BitReader, BitView, Msb0};
    ///
    /// let words = [0b0010_1101_u8];
    /// let mut reader = BitReader::new(words.view_bits::<Msb0>());
    /// assert_eq!((reader.peek::<u8>(4)?, reader.read::<u8>(6)?), (2, 11));
    /// # Ok::<(), worghulen::Refusal>(())
    /// ```
    #[inline]
    pub fn peek<N: Number>(&mut self, count: usize) -> Result<N, Refusal> {
        if count > N::WIDTH {
            return Err(Refusal::TooWide);
        }
        let mut window = self.at.window;
        if count > self.at.held {
            if let Some(whole) = self.look_ahead(count) {
                window = whole;
            } else if let Some((some, at)) = peeked(self.bits, self.at, count) {
                (window, self.at) = (some, at);
            } else {
                return Err(Refusal::TooFew);
            }
        }
        let digits = digits_of::<O>(window, O::BIG, count);
        Ok(N::of_digits(digits, count))
    }

    /// The number of the next `count` bits, the first the highest digit; a signed number is in
    /// two's complement of `count` digits. Of no bits it is 0. Costs by words.
    ///
    /// # Errors
    ///
    /// [`Refusal::TooWide`] where `count` is more than the bits of the number's type, otherwise
    /// [`Refusal::TooFew`] where fewer are left.
    ///
    /// # Examples
    ///
    /// ```
    /// use worghulen::{BitReader, BitView, Lsb0, Refusal};
    ///
    /// let words = [0b0010_1101_u8];
    /// let mut reader = BitReader::new(words.view_bits::<Lsb0>());
    /// assert_eq!(reader.read_be::<u16>(4)?, 0b1011);
    /// assert_eq!(reader.read_be::<u8>(9), Err(Refusal::TooWide));
    /// assert_eq!(reader.read_be::<u8>(5), Err(Refusal::TooFew));
    /// assert_eq!(reader.read_be::<i8>(2)?, 1);
    /// # Ok::<(), Refusal>(())
    /// ```
    #[inline]
    pub fn read_be<N: Number>(&mut self, count: usize) -> Result<N, Refusal> {
        self.number(true, count)
    }

    /// The number of the next `count` bits, the first the lowest digit; a signed number is in two's
    /// complement of `count` digits. Of no bits it is 0. Costs by words.
    ///
    /// # Errors
    ///
    /// As [`read_be`](Self::read_be).
    ///
    /// # Examples
    ///
    /// ```
    /// use worghulen::{BitReader, BitView, Msb0};
    ///
    /// let words = [0b1101_1011_u8];
    /// let mut reader = BitReader::new(words.view_bits::<Msb0>());
    /// assert_eq!(reader.read_le::<u16>(4)?, 0b1011);
    /// assert_eq!(reader.read_le::<i16>(4)?, -3);
    /// # Ok::<(), worghulen::Refusal>(())
    /// ```
    #[inline]
    pub fn read_le<N: Number>(&mut self, count: usize) -> Result<N, Refusal> {
        self.number(false, count)
    }

    /// How many bits are `bit` before the first that is not, which is read too. Costs by words.
    ///
    /// # Errors
    ///
    /// [`Refusal::TooFew`] where all that are left are `bit`, also where none is left.
    ///
    /// # Examples
    ///
    /// ```
    /// use worghulen::{BitReader, BitView, Msb0, Refusal};
    ///
    /// let words = [0b1110_0100_u8];
    /// let mut reader = BitReader::new(words.view_bits::<Msb0>());
    /// assert_eq!((reader.read_unary(true)?, reader.read_unary(false)?), (3, 1));
    /// assert_eq!(reader.read_unary(false), Err(Refusal::TooFew));
    /// assert_eq!(reader.remaining(), 2);
    /// # Ok::<(), Refusal>(())
    /// ```
    #[inline]
    pub fn read_unary(&mut self, bit: bool) -> Result<usize, Refusal> {
        let At { window, held, .. } = self.at;
        let run = run_of_zeros::<O>(if bit { !window } else { window });
        if run < held {
            self.pass(run + 1);
            return Ok(run);
        }
        self.ask(|words, place, end| T::read_unary(O::CODE, words, place, end, bit))
    }

    /// The number whose Exp-Golomb code stands next: `ue(v)` of ITU-T H.264 and H.265, or for a
    /// signed type `se(v)`. Costs by words.
    ///
    /// The code of an unsigned number is as many zeros as the number and one have binary digits,
    /// less one, and then these digits, the highest first: `1` is 0, `010` is 1, `011` is 2 and
    /// `00100` is 3. The codes of 0, 1, 2, 3, 4 and so on are, as signed numbers, those of 0, 1,
    /// -1, 2, -2 and so on.
    ///
    /// # Errors
    ///
    /// [`Refusal::TooFew`] where the bits end before a code does, and [`Refusal::TooLarge`] where
    /// the type has not the number.
    ///
    /// # Examples
    ///
    /// ```
    /// use worghulen::{BitReader, BitView, Msb0, Refusal};
    ///
    /// let words = [0b1010_0110_u8, 0b0100_0010];
    /// let mut reader = BitReader::new(words.view_bits::<Msb0>());
    /// assert_eq!(reader.read_exp_golomb::<u8>()?, 0);
    /// assert_eq!(reader.read_exp_golomb::<u8>()?, 1);
    /// assert_eq!(reader.read_exp_golomb::<i32>()?, -1);
    /// assert_eq!(reader.read_exp_golomb::<i32>()?, 2);
    /// assert_eq!(reader.read_exp_golomb::<u8>(), Err(Refusal::TooFew));
    /// assert_eq!(reader.remaining(), 4);
    /// # Ok::<(), Refusal>(())
    /// ```
    #[inline]
    pub fn read_exp_golomb<N: Number>(&mut self) -> Result<N, Refusal> {
        let at = self.at;
        let Some(count) = self.code_length() else {
            let (number, behind_it) = code_on::<T, O, N>(self.bits, at)?;
            self.at = behind_it;
            return Ok(number);
        };
        let number = N::of_code(self.number(true, count)?);
        if number.is_none() {
            self.at = at;
        }
        number.ok_or(Refusal::TooLarge)
    }

    /// How many bits the Exp-Golomb code has that stands next, where they are fewer than 64, and what is
    /// held, or the next 64 bits of whole words behind it, shows that.
    #[inline]
    fn code_length(&self) -> Option<usize> {
        let At {
            words,
            window,
            held,
            ..
        } = self.at;
        let mut zeros = run_of_zeros::<O>(window);
        if zeros >= held {
            let (next, _) = T::split_joined(words, O::BIG)?;
            zeros = run_of_zeros::<O>(window | behind_held::<O>(next, held));
        }
        (zeros < 32).then_some(2 * zeros + 1)
    }
}
