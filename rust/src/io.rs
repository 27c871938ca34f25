//! Numbers that are read from an input, and written to an output, of bytes.

// (a `usize` has 64 bits, and what is dropped of a number stands past the digits that are wanted)
#![allow(clippy::cast_possible_truncation)]

extern crate std;

use crate::number::Number;
use crate::order::Order;
use crate::own::AsBitSlice;
use crate::refusal::Refusal;
use core::marker::PhantomData;
use std::io::{Error, ErrorKind, Read, Result, Write};

/// As an error of an input or an output: of the kind `UnexpectedEof` where bits are too few,
/// `InvalidData` where a number is too large, and else `InvalidInput`.
///
/// # Examples
///
/// ```
/// use std::io::{Error, ErrorKind};
/// use worghulen::Refusal;
///
/// let error = Error::from(Refusal::TooFew);
/// assert_eq!((error.kind(), error.to_string()), (ErrorKind::UnexpectedEof, Refusal::TooFew.to_string()));
/// ```
impl From<Refusal> for Error {
    fn from(refusal: Refusal) -> Self {
        let kind = match refusal {
            Refusal::TooFew => ErrorKind::UnexpectedEof,
            Refusal::TooLarge => ErrorKind::InvalidData,
            _ => ErrorKind::InvalidInput,
        };
        Self::new(kind, refusal)
    }
}

/// The bits of the bytes of an input, one behind the other: the calls of a
/// [`BitReader`](crate::BitReader). The first bit of a byte is its highest digit by `Msb0`, and its
/// lowest by `Lsb0`.
///
/// It keeps up to 64 bits and a byte. No byte is taken from the input before one of its bits is
/// asked for: so an input where each call is dear is best behind a `BufReader`. An error of the
/// input is handed on, and where the input ends the error is of the kind `UnexpectedEof`; what
/// [`read`](Self::read) and its like found before it can still be read.
///
/// # Examples
///
/// ```
/// use worghulen::{IoReader, Msb0};
///
/// let mut reader = IoReader::<_, Msb0>::new(&[0x45_u8, 0x00, 0x05, 0xdc][..]);
/// assert_eq!((reader.read::<u8>(4)?, reader.read::<u8>(4)?), (4, 5));
/// reader.skip(8)?;
/// assert_eq!(reader.read::<u16>(16)?, 1500);
/// assert!(reader.read_bit().is_err());
/// # Ok::<(), std::io::Error>(())
/// ```
#[derive(Clone, Debug)]
pub struct IoReader<R, O> {
    input: R,
    /// The bits that are held: the first is the highest digit where the order is `BIG`, and the
    /// lowest else. The other digits are zero.
    window: u128,
    held: usize,
    position: u64,
    order: PhantomData<O>,
}

impl<R: Read, O: Order> IoReader<R, O> {
    /// A reader before the first bit of an input. Nothing of it is read yet. Constant time.
    ///
    /// # Examples
    ///
    /// ```
    /// use worghulen::{IoReader, Lsb0};
    ///
    /// assert!(IoReader::<_, Lsb0>::new(&[1_u8][..]).read_bit()?);
    /// # Ok::<(), std::io::Error>(())
    /// ```
    #[must_use]
    pub fn new(input: R) -> Self {
        Self {
            input,
            window: 0,
            held: 0,
            position: 0,
            order: PhantomData,
        }
    }

    /// How many bits were read or passed over. Constant time.
    ///
    /// # Examples
    ///
    /// ```
    /// use worghulen::{IoReader, Lsb0};
    ///
    /// let mut reader = IoReader::<_, Lsb0>::new(&[0_u8; 4][..]);
    /// reader.skip(11)?;
    /// assert_eq!(reader.position(), 11);
    /// # Ok::<(), std::io::Error>(())
    /// ```
    #[inline]
    #[must_use]
    pub fn position(&self) -> u64 {
        self.position
    }

    /// The input, behind the last byte that was taken. Where only `read` and its like were called,
    /// that is the byte of the last bit that was read: bits of it that were not are lost. Constant
    /// time.
    ///
    /// # Examples
    ///
    /// ```
    /// use worghulen::{IoReader, Lsb0};
    ///
    /// let mut reader = IoReader::<_, Lsb0>::new(&[1_u8, 2, 3][..]);
    /// reader.skip(9)?;
    /// assert_eq!(reader.into_inner(), [3]);
    /// # Ok::<(), std::io::Error>(())
    /// ```
    #[must_use]
    pub fn into_inner(self) -> R {
        self.input
    }

    /// Takes bytes until `count` bits are held, at most 64.
    #[inline]
    fn hold(&mut self, count: usize) -> Result<()> {
        while self.held < count {
            self.take((count - self.held).div_ceil(8))?;
        }
        Ok(())
    }

    /// Takes `bytes` bytes or fewer, at most 8 and at least one.
    fn take(&mut self, bytes: usize) -> Result<()> {
        let mut taken = [0; 8];
        let len = loop {
            match self.input.read(&mut taken[..bytes]) {
                Ok(0) => return Err(Refusal::TooFew.into()),
                Ok(len) => break len,
                Err(error) if error.kind() == ErrorKind::Interrupted => {}
                Err(error) => return Err(error),
            }
        };
        taken[len..].fill(0);
        self.window |= if O::BIG {
            u128::from(u64::from_be_bytes(taken)) << 64 >> self.held
        } else {
            u128::from(u64::from_le_bytes(taken)) << self.held
        };
        self.held += 8 * len;
        Ok(())
    }

    /// The digits of the next `count` bits, at most 64, as a number has them.
    #[inline]
    fn digits(&mut self, big: bool, count: usize) -> Result<u64> {
        self.hold(count)?;
        if count == 0 {
            return Ok(0);
        }
        let above = 64 - count;
        let next = if O::BIG {
            (self.window >> 64) as u64 >> above
        } else {
            self.window as u64 & u64::MAX >> above
        };
        Ok(if O::BIG == big {
            next
        } else {
            next.reverse_bits() >> above
        })
    }

    /// Drops `count` bits that are held.
    #[inline]
    fn pass(&mut self, count: usize) {
        self.position += count as u64;
        self.held -= count;
        self.window = if O::BIG {
            self.window << count
        } else {
            self.window >> count
        };
    }

    #[inline]
    fn number<N: Number>(&mut self, big: bool, count: usize) -> Result<N> {
        if count > N::WIDTH {
            return Err(Refusal::TooWide.into());
        }
        let digits = self.digits(big, count)?;
        self.pass(count);
        Ok(N::of_digits(digits, count))
    }

    /// The number of the next `count` bits, as the order has it: as [`read_be`](Self::read_be) by
    /// `Msb0`, and as [`read_le`](Self::read_le) by `Lsb0`. Constant time, but for the input: bytes
    /// are taken where fewer bits are held.
    ///
    /// # Errors
    ///
    /// Of the kind `InvalidInput` where `count` is more than the bits of the number's type, and else
    /// those of the input. The place stays then.
    ///
    /// # Examples
    ///
    /// ```
    /// use worghulen::{IoReader, Lsb0};
    ///
    /// let mut reader = IoReader::<_, Lsb0>::new(&[0b1101_1011_u8][..]);
    /// assert_eq!((reader.read::<u8>(4)?, reader.read::<i8>(4)?), (0b1011, -3));
    /// # Ok::<(), std::io::Error>(())
    /// ```
    #[inline]
    pub fn read<N: Number>(&mut self, count: usize) -> Result<N> {
        self.number(O::BIG, count)
    }

    /// The number of the next `count` bits, the first the highest digit; a signed number is in two's
    /// complement of `count` digits. Constant time, as [`read`](Self::read).
    ///
    /// # Errors
    ///
    /// As [`read`](Self::read).
    ///
    /// # Examples
    ///
    /// ```
    /// use worghulen::{IoReader, Lsb0};
    ///
    /// let mut reader = IoReader::<_, Lsb0>::new(&[0b0000_1101_u8][..]);
    /// assert_eq!(reader.read_be::<u16>(4)?, 0b1011);
    /// # Ok::<(), std::io::Error>(())
    /// ```
    #[inline]
    pub fn read_be<N: Number>(&mut self, count: usize) -> Result<N> {
        self.number(true, count)
    }

    /// The number of the next `count` bits, the first the lowest digit; a signed number is in two's
    /// complement of `count` digits. Constant time, as [`read`](Self::read).
    ///
    /// # Errors
    ///
    /// As [`read`](Self::read).
    ///
    /// # Examples
    ///
    /// ```
    /// use worghulen::{IoReader, Msb0};
    ///
    /// let mut reader = IoReader::<_, Msb0>::new(&[0b1101_0000_u8][..]);
    /// assert_eq!(reader.read_le::<u16>(4)?, 0b1011);
    /// # Ok::<(), std::io::Error>(())
    /// ```
    #[inline]
    pub fn read_le<N: Number>(&mut self, count: usize) -> Result<N> {
        self.number(false, count)
    }

    /// The number that [`read`](Self::read) would read, and the place stays.
    ///
    /// # Errors
    ///
    /// As [`read`](Self::read).
    ///
    /// # Examples
    ///
    /// ```
    /// use worghulen::{IoReader, Msb0};
    ///
    /// let mut reader = IoReader::<_, Msb0>::new(&[0x2d_u8][..]);
    /// assert_eq!((reader.peek::<u8>(4)?, reader.read::<u8>(6)?), (2, 11));
    /// # Ok::<(), std::io::Error>(())
    /// ```
    #[inline]
    pub fn peek<N: Number>(&mut self, count: usize) -> Result<N> {
        if count > N::WIDTH {
            return Err(Refusal::TooWide.into());
        }
        Ok(N::of_digits(self.digits(O::BIG, count)?, count))
    }

    /// The next bit. Constant time, but for the input.
    ///
    /// # Errors
    ///
    /// Those of the input. The place stays then.
    ///
    /// # Examples
    ///
    /// ```
    /// use worghulen::{IoReader, Msb0};
    ///
    /// let mut reader = IoReader::<_, Msb0>::new(&[0x80_u8][..]);
    /// assert_eq!((reader.read_bit()?, reader.read_bit()?), (true, false));
    /// # Ok::<(), std::io::Error>(())
    /// ```
    #[inline]
    pub fn read_bit(&mut self) -> Result<bool> {
        let bit = self.digits(O::BIG, 1)? == 1;
        self.pass(1);
        Ok(bit)
    }

    /// Passes over `count` bits. Costs by words of 64.
    ///
    /// # Errors
    ///
    /// Those of the input. Where it ends before, the place is its end.
    ///
    /// # Examples
    ///
    /// ```
    /// use worghulen::{IoReader, Msb0};
    ///
    /// let mut reader = IoReader::<_, Msb0>::new(&[0_u8, 0x0f][..]);
    /// reader.skip(12)?;
    /// assert_eq!(reader.read::<u8>(4)?, 15);
    /// # Ok::<(), std::io::Error>(())
    /// ```
    pub fn skip(&mut self, count: u64) -> Result<()> {
        let mut left = count;
        while left > 0 {
            if self.held == 0 {
                self.take(left.div_ceil(8).min(8) as usize)?;
            }
            let passed = left.min(self.held.min(64) as u64);
            self.pass(passed as usize);
            left -= passed;
        }
        Ok(())
    }

    /// Passes over the bits before the next place that is a multiple of `of` bits, from the first
    /// bit that was read on: none where it stands at one.
    ///
    /// # Errors
    ///
    /// As [`skip`](Self::skip), and where `of` is 0.
    ///
    /// # Examples
    ///
    /// ```
    /// use worghulen::{IoReader, Msb0};
    ///
    /// let mut reader = IoReader::<_, Msb0>::new(&[0xa0_u8, 7][..]);
    /// assert_eq!(reader.read::<u8>(3)?, 5);
    /// reader.skip_to_multiple_of(8)?;
    /// assert_eq!(reader.read::<u8>(8)?, 7);
    /// # Ok::<(), std::io::Error>(())
    /// ```
    pub fn skip_to_multiple_of(&mut self, of: u64) -> Result<()> {
        let to = self.position.checked_next_multiple_of(of);
        self.skip(to.ok_or(Refusal::TooFew)? - self.position)
    }

    /// How many bits are `bit` before the first that is not, which is read too. Costs by bytes of the
    /// input.
    ///
    /// # Errors
    ///
    /// Those of the input. Where it ends before, the place is its end.
    ///
    /// # Examples
    ///
    /// ```
    /// use worghulen::{IoReader, Msb0};
    ///
    /// let mut reader = IoReader::<_, Msb0>::new(&[0b1110_0100_u8][..]);
    /// assert_eq!((reader.read_unary(true)?, reader.read_unary(false)?), (3, 1));
    /// # Ok::<(), std::io::Error>(())
    /// ```
    pub fn read_unary(&mut self, bit: bool) -> Result<u64> {
        let mut before = 0;
        loop {
            let zeros = if bit { !self.window } else { self.window };
            let run = if O::BIG {
                zeros.leading_zeros()
            } else {
                zeros.trailing_zeros()
            } as usize;
            if run < self.held {
                self.pass(run + 1);
                return Ok(before + run as u64);
            }
            before += self.held as u64;
            self.position += self.held as u64;
            (self.window, self.held) = (0, 0);
            self.take(1)?;
        }
    }

    /// The number whose Exp-Golomb code stands next: `ue(v)` of ITU-T H.264 and H.265, or for a
    /// signed type `se(v)`, as [`BitReader::read_exp_golomb`](crate::BitReader::read_exp_golomb)
    /// says. Constant time, but for the input: a code has at most 129 bits.
    ///
    /// # Errors
    ///
    /// Those of the input, and one of the kind `InvalidData` where the type has not the number. The
    /// place is then behind what was read.
    ///
    /// # Examples
    ///
    /// ```
    /// use worghulen::{IoReader, Msb0};
    ///
    /// let mut reader = IoReader::<_, Msb0>::new(&[0b1010_0110_u8][..]);
    /// assert_eq!((reader.read_exp_golomb::<u8>()?, reader.read_exp_golomb::<u8>()?), (0, 1));
    /// assert_eq!(reader.read_exp_golomb::<i8>()?, -1);
    /// # Ok::<(), std::io::Error>(())
    /// ```
    pub fn read_exp_golomb<N: Number>(&mut self) -> Result<N> {
        let zeros = self.read_unary(false)?;
        if zeros > 64 {
            return Err(Refusal::TooLarge.into());
        }
        let above = 1_i128 << zeros | i128::from(self.read_be::<u64>(zeros as usize)?);
        Ok(N::of_wide(match (N::HAS_SIGN, above % 2) {
            (false, _) => above - 1,
            (true, 0) => above / 2,
            (true, _) => -(above / 2),
        })?)
    }

    /// The next bytes, each of 8 bits. Costs by words of 64, and where the place is a multiple of 8,
    /// by one call of the input.
    ///
    /// # Errors
    ///
    /// Those of the input. Where it ends before, the place and the bytes are not said.
    ///
    /// # Examples
    ///
    /// ```
    /// use worghulen::{IoReader, Msb0};
    ///
    /// let (mut reader, mut bytes) = (IoReader::<_, Msb0>::new(&[0x12, 0x34, 0x56][..]), [0; 2]);
    /// reader.skip(4)?;
    /// reader.read_bytes(&mut bytes)?;
    /// assert_eq!(bytes, [0x23, 0x45]);
    /// # Ok::<(), std::io::Error>(())
    /// ```
    pub fn read_bytes(&mut self, bytes: &mut [u8]) -> Result<()> {
        if self.held == 0 {
            self.input.read_exact(bytes)?;
            self.position += 8 * bytes.len() as u64;
            return Ok(());
        }
        for bytes in bytes.chunks_mut(8) {
            let digits = self.read_le::<u64>(8 * bytes.len())?;
            let digits = if O::BIG {
                digits.reverse_bits().to_be_bytes()
            } else {
                digits.to_le_bytes()
            };
            bytes.copy_from_slice(&digits[..bytes.len()]);
        }
        Ok(())
    }
}

/// The bytes of an output, whose bits are written one behind the other: the calls of a
/// [`BitWriter`](crate::BitWriter). The first bit of a byte is its highest digit by `Msb0`, and its
/// lowest by `Lsb0`.
///
/// It keeps up to 63 bits, and hands on 8 bytes at a time: what it still has is lost where neither
/// [`into_inner`](Self::into_inner) nor [`flush`](Self::flush) is called. An error of the output is
/// handed on; what of the call it wrote is then not said.
///
/// # Examples
///
/// ```
/// use worghulen::{IoWriter, Msb0};
///
/// let mut writer = IoWriter::<_, Msb0>::new(Vec::new());
/// writer.write(4, 4_u8)?;
/// writer.write(4, 5_u8)?;
/// writer.write(8, 0_u8)?;
/// writer.write(16, 1500_u16)?;
/// assert_eq!(writer.into_inner()?, [0x45, 0x00, 0x05, 0xdc]);
/// # Ok::<(), std::io::Error>(())
/// ```
#[derive(Debug)]
pub struct IoWriter<W, O> {
    output: W,
    /// The bits that are held, as a reader has them.
    window: u64,
    held: usize,
    position: u64,
    order: PhantomData<O>,
}

impl<W: Write, O: Order> IoWriter<W, O> {
    /// A writer of nothing yet. Constant time.
    ///
    /// # Examples
    ///
    /// ```
    /// use worghulen::{IoWriter, Lsb0};
    ///
    /// assert!(IoWriter::<_, Lsb0>::new(Vec::new()).into_inner()?.is_empty());
    /// # Ok::<(), std::io::Error>(())
    /// ```
    #[must_use]
    pub fn new(output: W) -> Self {
        Self {
            output,
            window: 0,
            held: 0,
            position: 0,
            order: PhantomData,
        }
    }

    /// How many bits were written. Constant time.
    ///
    /// # Examples
    ///
    /// ```
    /// use worghulen::{IoWriter, Lsb0};
    ///
    /// let mut writer = IoWriter::<_, Lsb0>::new(Vec::new());
    /// writer.write(11, 5_u16)?;
    /// assert_eq!(writer.position(), 11);
    /// # Ok::<(), std::io::Error>(())
    /// ```
    #[inline]
    #[must_use]
    pub fn position(&self) -> u64 {
        self.position
    }

    /// The output, to which all is written: the last byte is filled by zeros. Constant time, but for
    /// the output.
    ///
    /// # Errors
    ///
    /// Those of the output.
    ///
    /// # Examples
    ///
    /// ```
    /// use worghulen::{IoWriter, Msb0};
    ///
    /// let mut writer = IoWriter::<_, Msb0>::new(Vec::new());
    /// writer.write(3, 5_u8)?;
    /// assert_eq!(writer.into_inner()?, [0xa0]);
    /// # Ok::<(), std::io::Error>(())
    /// ```
    pub fn into_inner(mut self) -> Result<W> {
        self.pad_to_multiple_of(8, false)?;
        self.flush()?;
        Ok(self.output)
    }

    /// Hands on the bytes that are whole, and has the output do so with what it keeps. The bits of a
    /// byte that is not whole yet stay here. Constant time, but for the output.
    ///
    /// # Errors
    ///
    /// Those of the output.
    ///
    /// # Examples
    ///
    /// ```
    /// use worghulen::{IoWriter, Msb0};
    ///
    /// let mut bytes = Vec::new();
    /// let mut writer = IoWriter::<_, Msb0>::new(&mut bytes);
    /// writer.write(12, 0xabc_u16)?;
    /// writer.flush()?;
    /// assert_eq!(bytes, [0xab]);
    /// # Ok::<(), std::io::Error>(())
    /// ```
    pub fn flush(&mut self) -> Result<()> {
        let whole = self.held / 8;
        self.output.write_all(&self.bytes()[..whole])?;
        let passed = 8 * whole;
        self.window = if O::BIG {
            self.window << passed
        } else {
            self.window >> passed
        };
        self.held -= passed;
        self.output.flush()
    }

    /// The window as bytes.
    #[inline]
    fn bytes(&self) -> [u8; 8] {
        if O::BIG {
            self.window.to_be_bytes()
        } else {
            self.window.to_le_bytes()
        }
    }

    /// Writes `count` digits, at most 64, where those above them are zero, by the order.
    #[inline]
    fn put(&mut self, big: bool, digits: u64, count: usize) -> Result<()> {
        if count == 0 {
            return Ok(());
        }
        let digits = if O::BIG == big {
            digits
        } else {
            digits.reverse_bits() >> (64 - count)
        };
        let free = 64 - self.held;
        if count < free {
            self.window |= if O::BIG {
                digits << (free - count)
            } else {
                digits << self.held
            };
            self.held += count;
        } else {
            let left = count - free;
            self.window |= if O::BIG {
                digits >> left
            } else {
                digits << self.held
            };
            self.output.write_all(&self.bytes())?;
            self.window = if left == 0 {
                0
            } else if O::BIG {
                digits << (64 - left)
            } else {
                digits >> free
            };
            self.held = left;
        }
        self.position += count as u64;
        Ok(())
    }

    #[inline]
    fn number<N: Number>(&mut self, big: bool, count: usize, number: N) -> Result<()> {
        if count > N::WIDTH {
            return Err(Refusal::TooWide.into());
        }
        let digits = number.digits(count).ok_or(Refusal::TooLarge)?;
        self.put(big, digits, count)
    }

    /// Writes a number in `count` bits, as the order has it: as [`write_be`](Self::write_be) by
    /// `Msb0`, and as [`write_le`](Self::write_le) by `Lsb0`. Constant time, but for the output,
    /// which has the bytes by eight.
    ///
    /// # Errors
    ///
    /// Of the kind `InvalidInput` where `count` is more than the bits of the number's type, of the
    /// kind `InvalidData` where the number has more digits, and else those of the output.
    ///
    /// # Examples
    ///
    /// ```
    /// use worghulen::{IoWriter, Lsb0};
    ///
    /// let mut writer = IoWriter::<_, Lsb0>::new(Vec::new());
    /// writer.write(4, 11_u16)?;
    /// writer.write(4, -3_i8)?;
    /// assert!(writer.write(3, 8_u8).is_err());
    /// assert_eq!(writer.into_inner()?, [0b1101_1011]);
    /// # Ok::<(), std::io::Error>(())
    /// ```
    #[inline]
    pub fn write<N: Number>(&mut self, count: usize, number: N) -> Result<()> {
        self.number(O::BIG, count, number)
    }

    /// Writes a number in `count` bits, the first the highest digit; a signed number in two's
    /// complement of `count` digits. Constant time, as [`write`](Self::write).
    ///
    /// # Errors
    ///
    /// As [`write`](Self::write).
    ///
    /// # Examples
    ///
    /// ```
    /// use worghulen::{IoWriter, Lsb0};
    ///
    /// let mut writer = IoWriter::<_, Lsb0>::new(Vec::new());
    /// writer.write_be(4, 0b1011_u16)?;
    /// assert_eq!(writer.into_inner()?, [0b1101]);
    /// # Ok::<(), std::io::Error>(())
    /// ```
    #[inline]
    pub fn write_be<N: Number>(&mut self, count: usize, number: N) -> Result<()> {
        self.number(true, count, number)
    }

    /// Writes a number in `count` bits, the first the lowest digit; a signed number in two's
    /// complement of `count` digits. Constant time, as [`write`](Self::write).
    ///
    /// # Errors
    ///
    /// As [`write`](Self::write).
    ///
    /// # Examples
    ///
    /// ```
    /// use worghulen::{IoWriter, Msb0};
    ///
    /// let mut writer = IoWriter::<_, Msb0>::new(Vec::new());
    /// writer.write_le(4, 0b1011_u16)?;
    /// assert_eq!(writer.into_inner()?, [0b1101_0000]);
    /// # Ok::<(), std::io::Error>(())
    /// ```
    #[inline]
    pub fn write_le<N: Number>(&mut self, count: usize, number: N) -> Result<()> {
        self.number(false, count, number)
    }

    /// Writes a bit. Constant time, but for the output.
    ///
    /// # Errors
    ///
    /// Those of the output.
    ///
    /// # Examples
    ///
    /// ```
    /// use worghulen::{IoWriter, Msb0};
    ///
    /// let mut writer = IoWriter::<_, Msb0>::new(Vec::new());
    /// writer.write_bit(true)?;
    /// assert_eq!(writer.into_inner()?, [0x80]);
    /// # Ok::<(), std::io::Error>(())
    /// ```
    #[inline]
    pub fn write_bit(&mut self, bit: bool) -> Result<()> {
        self.put(O::BIG, u64::from(bit), 1)
    }

    /// Writes `count` bits that are `bit`, and one that is not. Costs by words of 64.
    ///
    /// # Errors
    ///
    /// Those of the output.
    ///
    /// # Examples
    ///
    /// ```
    /// use worghulen::{IoWriter, Msb0};
    ///
    /// let mut writer = IoWriter::<_, Msb0>::new(Vec::new());
    /// writer.write_unary(true, 3)?;
    /// writer.write_unary(false, 1)?;
    /// assert_eq!(writer.into_inner()?, [0b1110_0100]);
    /// # Ok::<(), std::io::Error>(())
    /// ```
    pub fn write_unary(&mut self, bit: bool, count: u64) -> Result<()> {
        self.fill(bit, count)?;
        self.write_bit(!bit)
    }

    /// Writes `count` bits that are `bit`.
    fn fill(&mut self, bit: bool, count: u64) -> Result<()> {
        let mut left = count;
        while left > 0 {
            let part = left.min(64);
            let digits = if bit { u64::MAX >> (64 - part) } else { 0 };
            self.put(O::BIG, digits, part as usize)?;
            left -= part;
        }
        Ok(())
    }

    /// Writes bits that are `bit` up to the next place that is a multiple of `of` bits, from the
    /// first on: none where it stands at one. Costs by words of 64.
    ///
    /// # Errors
    ///
    /// Those of the output, and of the kind `InvalidInput` where `of` is 0.
    ///
    /// # Examples
    ///
    /// ```
    /// use worghulen::{IoWriter, Msb0};
    ///
    /// let mut writer = IoWriter::<_, Msb0>::new(Vec::new());
    /// writer.write(3, 5_u8)?;
    /// writer.pad_to_multiple_of(8, true)?;
    /// writer.write(8, 7_u8)?;
    /// assert_eq!(writer.into_inner()?, [0xbf, 7]);
    /// # Ok::<(), std::io::Error>(())
    /// ```
    pub fn pad_to_multiple_of(&mut self, of: u64, bit: bool) -> Result<()> {
        let to = self.position.checked_next_multiple_of(of);
        self.fill(bit, to.ok_or(ErrorKind::InvalidInput)? - self.position)
    }

    /// Writes a number's Exp-Golomb code: `ue(v)` of ITU-T H.264 and H.265, or for a signed type
    /// `se(v)`, as [`BitReader::read_exp_golomb`](crate::BitReader::read_exp_golomb) says. Constant
    /// time, but for the output: a code has at most 129 bits.
    ///
    /// # Errors
    ///
    /// Those of the output.
    ///
    /// # Examples
    ///
    /// ```
    /// use worghulen::{IoWriter, Msb0};
    ///
    /// let mut writer = IoWriter::<_, Msb0>::new(Vec::new());
    /// writer.write_exp_golomb(0_u8)?;
    /// writer.write_exp_golomb(1_u8)?;
    /// writer.write_exp_golomb(-1)?;
    /// assert_eq!(writer.into_inner()?, [0b1010_0110]);
    /// # Ok::<(), std::io::Error>(())
    /// ```
    #[allow(clippy::cast_sign_loss)] // (it is not negative)
    pub fn write_exp_golomb<N: Number>(&mut self, number: N) -> Result<()> {
        let number = number.wide();
        let above = match (N::HAS_SIGN, number > 0) {
            (false, _) => number + 1,
            (true, true) => 2 * number,
            (true, false) => 1 - 2 * number,
        };
        let zeros = above.ilog2() as usize;
        self.put(true, 0, zeros)?;
        self.put(true, 1, 1)?;
        self.put(true, (above - (1 << zeros)) as u64, zeros)
    }

    /// Writes the bits of a slice, a vector or an array, of any words and order. Costs by words.
    ///
    /// # Errors
    ///
    /// Those of the output.
    ///
    /// # Examples
    ///
    /// ```
    /// use worghulen::{IoWriter, Msb0, bits};
    ///
    /// let mut writer = IoWriter::<_, Msb0>::new(Vec::new());
    /// writer.write_slice(bits![0, 1, 1])?;
    /// assert_eq!(writer.into_inner()?, [0x60]);
    /// # Ok::<(), std::io::Error>(())
    /// ```
    pub fn write_slice(&mut self, bits: impl AsBitSlice) -> Result<()> {
        let bits = bits.as_bitslice();
        let mut from = 0;
        while from < bits.len() {
            let count = bits.ahead(from);
            self.put(false, bits.window(from, count), count)?;
            from += count;
        }
        Ok(())
    }

    /// Writes bytes, each in 8 bits. Costs by words of 64, and where the place is a multiple of 64,
    /// by one call of the output.
    ///
    /// # Errors
    ///
    /// Those of the output.
    ///
    /// # Examples
    ///
    /// ```
    /// use worghulen::{IoWriter, Msb0};
    ///
    /// let mut writer = IoWriter::<_, Msb0>::new(Vec::new());
    /// writer.write(4, 1_u8)?;
    /// writer.write_bytes(&[0x23, 0x45])?;
    /// assert_eq!(writer.into_inner()?, [0x12, 0x34, 0x50]);
    /// # Ok::<(), std::io::Error>(())
    /// ```
    pub fn write_bytes(&mut self, bytes: &[u8]) -> Result<()> {
        if self.held == 0 {
            self.output.write_all(bytes)?;
            self.position += 8 * bytes.len() as u64;
            return Ok(());
        }
        for bytes in bytes.chunks(8) {
            let mut whole = [0; 8];
            whole[..bytes.len()].copy_from_slice(bytes);
            let digits = if O::BIG {
                u64::from_be_bytes(whole).reverse_bits()
            } else {
                u64::from_le_bytes(whole)
            };
            self.put(false, digits, 8 * bytes.len())?;
        }
        Ok(())
    }
}
