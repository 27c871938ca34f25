//! The words of a memory.

use crate::own::Owned;
use core::fmt::Debug;

/// A word of a memory: `u8`, `u16`, `u32`, `u64` or `usize`, and no other.
///
/// # Examples
///
/// ```
/// use worghulen::{BitSlice, Lsb0, Register};
///
/// fn widths<T: Register>(bits: BitSlice<'_, T, Lsb0>) -> (usize, usize) {
///     (T::BITS, bits.len())
/// }
///
/// assert_eq!(widths(BitSlice::from_slice(&[0_u32; 2])), (32, 64));
/// ```
///
/// A cell of a word is none:
///
/// ```compile_fail
/// use std::sync::atomic::AtomicU8;
/// use worghulen::{BitReader, Lsb0};
///
/// let reader: Option<BitReader<'_, AtomicU8, Lsb0>> = None;
/// ```
#[diagnostic::on_unimplemented(
    message = "`{Self}` is no word of bits",
    label = "a word is a `u8`, `u16`, `u32`, `u64` or `usize`",
    note = "the word stands before the order: `BitVec<u8, Lsb0>`"
)]
pub trait Register: Owned + Copy + Debug + Send + Sync + 'static {
    /// How many bits a word has.
    ///
    /// # Examples
    ///
    /// ```
    /// use worghulen::Register;
    ///
    /// assert_eq!(<u16 as Register>::BITS, 16);
    /// assert_eq!(<usize as Register>::BITS, 64);
    /// ```
    const BITS: usize;
}

macro_rules! registers {
    ($($word:ident)*) => {
        $(impl Register for $word {
            const BITS: usize = $word::BITS as usize;
        })*
    };
}

registers!(u8 u16 u32 u64 usize);
