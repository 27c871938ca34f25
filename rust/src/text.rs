//! Texts of bits.

use crate::array::BitArray;
#[cfg(feature = "alloc")]
use crate::boxed::BitBox;
use crate::order::Order;
use crate::register::Register;
use crate::slice::BitSlice;
use crate::slice_mut::BitSliceMut;
#[cfg(feature = "alloc")]
use crate::vec::BitVec;
use core::fmt::{self, Alignment, Binary, Debug, Display, Formatter, Write};
use core::fmt::{LowerHex, Octal, UpperHex};

/// Writes a prefix and the bits in order, each as 0 or 1, in as wide a field as is asked for.
fn write_bits<T: Register, O: Order>(
    f: &mut Formatter<'_>,
    prefix: &str,
    bits: &BitSlice<'_, T, O>,
) -> fmt::Result {
    let room = f.width().unwrap_or(0);
    let empty = room.saturating_sub(prefix.len()).saturating_sub(bits.len());
    let before = match f.align() {
        Some(Alignment::Right) => empty,
        Some(Alignment::Center) => empty / 2,
        _ => 0,
    };
    let fill = f.fill();
    (0..before).try_for_each(|_| f.write_char(fill))?;
    f.write_str(prefix)?;
    bits.iter()
        .by_vals()
        .try_for_each(|bit| f.write_char(if bit { '1' } else { '0' }))?;
    (before..empty).try_for_each(|_| f.write_char(fill))
}

/// The bits in order, each as 0 or 1, with nothing between them. Width, fill and alignment are as
/// of a text. Costs by bits.
///
/// # Examples
///
/// ```
/// use worghulen::{BitView, Lsb0};
///
/// let words = [0b0000_1101_u8];
/// let bits = words.view_bits::<Lsb0>();
/// assert_eq!(format!("{bits}"), "10110000");
/// let (low, high) = bits.split_at(4);
/// assert_eq!(format!("{low:>6}|{high:.<6}"), "  1011|0000..");
/// ```
impl<T: Register, O: Order> Display for BitSlice<'_, T, O> {
    fn fmt(&self, f: &mut Formatter<'_>) -> fmt::Result {
        write_bits(f, "", self)
    }
}

/// The text of `Display`, behind `0b` where the flag `#` asks for it. No zeros are put before it.
/// Costs by bits.
///
/// # Examples
///
/// ```
/// use worghulen::{BitView, Msb0};
///
/// let words = [0b0000_1101_u8];
/// let bits = words.view_bits::<Msb0>();
/// assert_eq!(format!("{bits:b} {bits:#b}"), "00001101 0b00001101");
/// ```
impl<T: Register, O: Order> Binary for BitSlice<'_, T, O> {
    fn fmt(&self, f: &mut Formatter<'_>) -> fmt::Result {
        write_bits(f, if f.alternate() { "0b" } else { "" }, self)
    }
}

/// The bits in order as a list, each as 0 or 1. Costs by bits.
///
/// # Examples
///
/// ```
/// use worghulen::{BitView, Lsb0};
///
/// let bits = 0b1101_u64;
/// assert_eq!(format!("{:?}", bits.view_bits::<Lsb0>().get(..4).unwrap()), "[1, 0, 1, 1]");
/// ```
impl<T: Register, O: Order> Debug for BitSlice<'_, T, O> {
    fn fmt(&self, f: &mut Formatter<'_>) -> fmt::Result {
        let bits = self.iter().by_vals().map(u8::from);
        f.debug_list().entries(bits).finish()
    }
}

/// What writes a number, given how many digits it has.
type Writes = fn(&mut Formatter<'_>, u64, usize) -> fmt::Result;

/// The number of the bits that a word has of a slice, as an item of a list.
struct Item(u64, usize, Writes);

impl Debug for Item {
    fn fmt(&self, f: &mut Formatter<'_>) -> fmt::Result {
        self.2(f, self.0, self.1)
    }
}

/// Writes a list of numbers, one for each word that a slice has bits of: of these the first is the
/// highest digit, and each digit that is written stands for `size` of them.
fn write_words<T: Register, O: Order>(
    f: &mut Formatter<'_>,
    bits: &BitSlice<'_, T, O>,
    size: usize,
    writes: Writes,
) -> fmt::Result {
    let mut list = f.debug_list();
    let mut left = *bits;
    while !left.is_empty() {
        let (_, start) = left.place();
        let len = left.len().min(T::BITS - start % T::BITS);
        let number = left.window(0, len).reverse_bits() >> (64 - len);
        list.entry(&Item(number, len.div_ceil(size), writes));
        left = left.rest(len);
    }
    list.finish()
}

macro_rules! lists {
    ($($(#[$doc:meta])* $text:ident: $size:literal, $prefix:literal, $format:literal;)*) => { $(
        $(#[$doc])*
        impl<T: Register, O: Order> $text for BitSlice<'_, T, O> {
            fn fmt(&self, f: &mut Formatter<'_>) -> fmt::Result {
                write_words(f, self, $size, |f, number, width| {
                    f.write_str(if f.alternate() { $prefix } else { "" })?;
                    write!(f, $format, number, width = width)
                })
            }
        }
    )* };
}

lists! {
    /// A list of numbers in base 16, one for each word that has some of the bits (not compared with
    /// what the crate `bitvec` writes): the first bit of a word is the number's highest digit in base 2, by both
    /// orders, and as many digits are written as the bits fill. The flag `#` puts `0x` before each,
    /// and each in a line. Costs by words.
    ///
    /// # Examples
    ///
    /// ```
    /// use worghulen::{BitView, Lsb0, Msb0};
    ///
    /// let words = [0x1a_u8, 0xbc, 0xde];
    /// let bits = words.view_bits::<Msb0>();
    /// assert_eq!(format!("{bits:x}"), "[1a, bc, de]");
    /// assert_eq!(format!("{:x}", bits.get(6..18).unwrap()), "[2, bc, 3]");
    /// assert_eq!(format!("{:x}", words.view_bits::<Lsb0>()), "[58, 3d, 7b]");
    /// assert_eq!(format!("{:#x}", bits.get(..4).unwrap()), "[\n    0x1,\n]");
    /// ```
    LowerHex: 4, "0x", "{:0width$x}";
    /// As [`LowerHex`], by the digits `A` to `F`.
    ///
    /// # Examples
    ///
    /// ```
    /// use worghulen::{BitView, Msb0};
    ///
    /// assert_eq!(format!("{:X}", [0x1a_u8, 0xbc].view_bits::<Msb0>()), "[1A, BC]");
    /// ```
    UpperHex: 4, "0x", "{:0width$X}";
    /// As [`LowerHex`], in base 8, with `0o` by the flag `#`.
    ///
    /// # Examples
    ///
    /// ```
    /// use worghulen::{BitView, Msb0};
    ///
    /// let words = [0b10_001_101_u8, 0b01_000_000];
    /// let bits = words.view_bits::<Msb0>();
    /// assert_eq!(format!("{:o}", bits.get(..10).unwrap()), "[215, 1]");
    /// ```
    Octal: 3, "0o", "{:0width$o}";
}

macro_rules! text {
    ($text:ident [$($generics:tt)*] $type:ty) => {
        /// The text of the same bits as a [`BitSlice`]. Costs by bits.
        impl<$($generics)*> $text for $type {
            fn fmt(&self, f: &mut Formatter<'_>) -> fmt::Result {
                $text::fmt(&self.as_bitslice(), f)
            }
        }
    };
}

macro_rules! texts {
    ($generics:tt $type:ty) => {
        text! { Display $generics $type }
        text! { Binary $generics $type }
        text! { LowerHex $generics $type }
        text! { UpperHex $generics $type }
        text! { Octal $generics $type }
        text! { Debug $generics $type }
    };
}

texts! { [T: Register, O: Order] BitSliceMut<'_, T, O> }
texts! { [T: Register, O: Order, const W: usize] BitArray<[T; W], O> }
#[cfg(feature = "alloc")]
texts! { [T: Register, O: Order] BitVec<T, O> }
#[cfg(feature = "alloc")]
texts! { [T: Register, O: Order] BitBox<T, O> }
