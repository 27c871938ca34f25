//! The types of numbers that stand in ranges of bits.

use crate::proved::bitvec::mem::BitRegister;
use crate::proved::bitvec_slice::field::Sequential;
use crate::proved::bitvec_slice::slice::BitSlice;
use crate::refusal::Refusal;
use crate::sys::Exports;
use core::fmt::Debug;
use core::num::NonZero;

/// A number of at most 64 bits: `u8` to `u64`, `usize`, `i8` to `i64`, `isize`, and no other.
///
/// # Examples
///
/// ```
/// use worghulen::{BitView, Msb0};
///
/// let bytes = [0x12_u8, 0x34, 0xff];
/// let bits = bytes.view_bits::<Msb0>();
/// assert_eq!(bits.get(..16).unwrap().load_be::<u16>(), 0x1234);
/// assert_eq!(bits.get(16..).unwrap().load_be::<i64>(), -1);
/// ```
///
/// A wider number is two:
///
/// ```compile_fail
/// let number: u128 = worghulen::bits![1; 100].load_be();
/// ```
#[diagnostic::on_unimplemented(
    message = "`{Self}` is no number of at most 64 bits",
    label = "a number is a `u8` to `u64`, a `usize`, an `i8` to `i64` or an `isize`",
    note = "a wider one is two: `split_at(64)`, and `load_be::<u64>()` of both"
)]
pub trait Number: digits::Digits + Copy + Debug {}

/// The numbers of so many ones: of more than 64 as of 64. (A look here costs less than a shift by a
/// count that is not known, and needs no test, since there are as many as a byte has numbers.)
const ONES: &[u64; 256] = &{
    let mut ones = [u64::MAX; 256];
    let mut count = 0;
    while count < 64 {
        ones[count] = !(u64::MAX << count);
        count += 1;
    }
    ones
};

/// The number whose lowest digits are ones, `count` of them and at most 64, and whose others are zeros.
#[inline]
pub(crate) fn ones(count: usize) -> u64 {
    ONES[count % ONES.len()]
}

pub(crate) mod digits {
    use crate::proved::bitvec::mem::BitRegister;
    use crate::proved::bitvec_slice::field::Sequential;
    use crate::proved::bitvec_slice::slice::BitSlice;
    use crate::refusal::Refusal;
    use crate::sys::Exports;
    use core::num::NonZero;

    /// A number, and the exports that take one of its kind: those of signed numbers where it is
    /// signed. Nothing outside this crate can name it.
    pub trait Digits: Sized {
        /// How many digits a number of this type has.
        const WIDTH: usize;

        /// Whether some are less than 0.
        const HAS_SIGN: bool;

        /// The number of `count` digits, at most 64, where those above them are zero.
        fn of_digits(digits: u64, count: usize) -> Self;

        /// Its lowest digits, `count` of them and at most its width, where it is the number of these.
        fn digits(self, count: usize) -> Option<u64>;

        /// Its lowest digits, `count` of them, where a number of its type has as many and it has no
        /// more.
        #[inline]
        fn fitting(self, count: usize) -> Result<u64, Refusal> {
            if count > Self::WIDTH {
                return Err(Refusal::TooWide);
            }
            self.digits(count).ok_or(Refusal::TooLarge)
        }

        /// The number, of more digits.
        #[cfg(feature = "std")]
        fn wide(self) -> i128;

        /// The number, where the type has it.
        #[cfg(feature = "std")]
        fn of_wide(number: i128) -> Result<Self, Refusal>;

        /// The number of bits, at most its width, those of the first word highest where `big`.
        fn load<R: BitRegister, O: Sequential<R>>(bits: &BitSlice<R, O>, big: bool) -> Self;

        /// Makes `count` bits its lowest digits.
        fn store<T: Exports>(
            self,
            order: u8,
            big: bool,
            words: &mut [T],
            start: usize,
            count: usize,
        ) -> Result<(), Refusal>;

        /// The number whose Exp-Golomb code has these digits behind its zeros, at most 32, where the type
        /// has it.
        fn of_code(digits: u64) -> Option<Self>;

        /// The digits of its Exp-Golomb code, where these are at most 32.
        fn code(self) -> Option<NonZero<u32>>;

        /// The number of the Exp-Golomb code that stands there.
        fn read_code<T: Exports>(
            order: u8,
            words: &[T],
            place: &mut usize,
            end: usize,
        ) -> Result<Self, Refusal>;

        /// Writes its Exp-Golomb code there.
        fn write_code<T: Exports>(
            self,
            order: u8,
            words: &mut [T],
            place: &mut usize,
            end: usize,
        ) -> Result<(), Refusal>;
    }
}

macro_rules! numbers {
    ($(
        $t:ident: $wide:ident by $load_be:ident, $load_le:ident, $store:ident, $read_code:ident,
            $write_code:ident;
    )*) => { $(
        impl Number for $t {}

        #[allow(clippy::cast_possible_truncation)] // (no digit stands past the width)
        #[allow(clippy::cast_lossless, clippy::unnecessary_cast)]
        #[allow(clippy::unnecessary_fallible_conversions, clippy::useless_conversion)]
        impl digits::Digits for $t {
            const WIDTH: usize = $t::BITS as usize;

            const HAS_SIGN: bool = $t::MIN != 0;

            #[inline]
            #[allow(clippy::cast_possible_wrap)] // (the highest digit is the sign's)
            fn of_digits(digits: u64, count: usize) -> Self {
                if count == 0 || !Self::HAS_SIGN {
                    return digits as Self;
                }
                let above = 64 - count;
                ((digits << above) as $wide >> above) as Self
            }

            #[inline]
            #[allow(clippy::cast_sign_loss)] // (of two's complement)
            fn digits(self, count: usize) -> Option<u64> {
                let wide = self as u64;
                if !Self::HAS_SIGN {
                    return (wide <= ones(count)).then_some(wide);
                }
                let digits = if count == 0 {
                    0
                } else {
                    wide << (64 - count) >> (64 - count)
                };
                (Self::of_digits(digits, count) == self).then_some(digits)
            }

            #[cfg(feature = "std")]
            #[inline]
            fn wide(self) -> i128 {
                self as i128
            }

            #[cfg(feature = "std")]
            #[inline]
            fn of_wide(number: i128) -> Result<Self, Refusal> {
                Self::try_from(number).map_err(|_| Refusal::TooLarge)
            }

            #[inline]
            #[allow(clippy::cast_possible_wrap)] // (of so few digits)
            fn of_code(digits: u64) -> Option<Self> {
                let half = digits as $wide / 2;
                Self::try_from(match (Self::HAS_SIGN, digits % 2) {
                    (false, _) => digits as $wide - 1,
                    (true, 0) => half,
                    (true, _) => half.wrapping_neg(),
                })
                .ok()
            }

            #[inline]
            #[allow(clippy::cast_sign_loss)] // (it is not negative)
            fn code(self) -> Option<NonZero<u32>> {
                let wide = self as $wide;
                let digits = match (Self::HAS_SIGN, wide > 0) {
                    (false, _) => wide.checked_add(1)?,
                    (true, true) => wide.checked_mul(2)?,
                    (true, false) => (1 as $wide).checked_sub(wide.checked_mul(2)?)?,
                };
                NonZero::new(u32::try_from(digits).ok()?)
            }

            #[inline]
            fn load<R: BitRegister, O: Sequential<R>>(bits: &BitSlice<R, O>, big: bool) -> Self {
                let wide: $wide = if big {
                    bits.$load_be()
                } else {
                    bits.$load_le()
                };
                wide as Self
            }

            #[inline]
            fn store<T: Exports>(self, order: u8, big: bool, words: &mut [T], start: usize, count: usize) -> Result<(), Refusal> {
                T::$store(order, big, words, start, count, self as $wide)
            }

            #[inline]
            fn read_code<T: Exports>(order: u8, words: &[T], place: &mut usize, end: usize) -> Result<Self, Refusal> {
                let mut behind = *place;
                let wide = T::$read_code(order, words, &mut behind, end)?;
                let number = Self::try_from(wide).map_err(|_| Refusal::TooLarge)?;
                *place = behind;
                Ok(number)
            }

            #[inline]
            fn write_code<T: Exports>(
                self,
                order: u8,
                words: &mut [T],
                place: &mut usize,
                end: usize,
            ) -> Result<(), Refusal> {
                T::$write_code(order, words, place, end, self as $wide)
            }
        }
    )* };
}

numbers! {
    u8: u64 by load_be, load_le, store, read_exp_golomb, write_exp_golomb;
    u16: u64 by load_be, load_le, store, read_exp_golomb, write_exp_golomb;
    u32: u64 by load_be, load_le, store, read_exp_golomb, write_exp_golomb;
    u64: u64 by load_be, load_le, store, read_exp_golomb, write_exp_golomb;
    usize: u64 by load_be, load_le, store, read_exp_golomb, write_exp_golomb;
    i8: i64 by load_signed_be, load_signed_le, store_signed, read_signed_exp_golomb,
        write_signed_exp_golomb;
    i16: i64 by load_signed_be, load_signed_le, store_signed, read_signed_exp_golomb,
        write_signed_exp_golomb;
    i32: i64 by load_signed_be, load_signed_le, store_signed, read_signed_exp_golomb,
        write_signed_exp_golomb;
    i64: i64 by load_signed_be, load_signed_le, store_signed, read_signed_exp_golomb,
        write_signed_exp_golomb;
    isize: i64 by load_signed_be, load_signed_le, store_signed, read_signed_exp_golomb,
        write_signed_exp_golomb;
}
