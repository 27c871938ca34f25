//! Where the bit of an index lies in a word.

use crate::proved::bitvec::mem::BitRegister;
use crate::proved::bitvec::order;
use core::fmt::Debug;
use core::hash::Hash;

/// An order of the bits in a word: [`Lsb0`] or [`Msb0`], and no other.
///
/// # Examples
///
/// ```
/// use worghulen::{BitView, Lsb0, Msb0, Order};
///
/// fn first<O: Order>(word: u8) -> bool {
///     word.view_bits::<O>()[0]
/// }
///
/// assert!(first::<Lsb0>(1) && !first::<Msb0>(1));
/// ```
///
/// A word is none:
///
/// ```compile_fail
/// use worghulen::BitReader;
///
/// let reader: Option<BitReader<'_, u8, u8>> = None;
/// ```
#[diagnostic::on_unimplemented(
    message = "`{Self}` is no order of bits in a word",
    label = "an order is `Lsb0` or `Msb0`",
    note = "the order stands behind the word: `BitVec<u8, Msb0>`"
)]
pub trait Order: code::Code + Copy + Eq + Hash + Debug + Send + Sync + 'static {}

/// The bit of index `i` of a word is its digit `i`: index 0 is least.
///
/// # Examples
///
/// ```
/// use worghulen::{BitView, Lsb0};
///
/// assert!([0b0000_0001_u8].view_bits::<Lsb0>()[0]);
/// ```
#[derive(Clone, Copy, PartialEq, Eq, Hash, Debug, Default)]
pub struct Lsb0;

/// The bit of index `i` of a word is its digit `width - 1 - i`: index 0 is greatest.
///
/// # Examples
///
/// ```
/// use worghulen::{BitView, Msb0};
///
/// assert!([0b1000_0000_u8].view_bits::<Msb0>()[0]);
/// ```
#[derive(Clone, Copy, PartialEq, Eq, Hash, Debug, Default)]
pub struct Msb0;

/// The order that the crate `bitvec` has of this name on most machines, and this crate on each.
///
/// # Examples
///
/// ```
/// use worghulen::{BitView, LocalBits};
///
/// assert!([1_u8].view_bits::<LocalBits>()[0]);
/// ```
pub type LocalBits = Lsb0;

impl Order for Lsb0 {}
impl Order for Msb0 {}

impl code::Code for Lsb0 {
    const CODE: u8 = 0;
    const BIG: bool = false;

    type In<R: BitRegister> = order::Lsb0;

    #[inline]
    fn turned(bits: u64, _: usize) -> u64 {
        bits
    }
}

impl code::Code for Msb0 {
    const CODE: u8 = 1;
    const BIG: bool = true;

    type In<R: BitRegister> = order::Msb0;

    #[inline]
    fn turned(bits: u64, count: usize) -> u64 {
        if count == 0 {
            return 0;
        }
        bits.reverse_bits() >> (64 - count)
    }
}

pub(crate) mod code {
    use crate::proved::bitvec::mem::BitRegister;
    use crate::proved::bitvec_slice::field::Sequential;

    /// The number by which the library knows an order. Nothing outside this crate can name it.
    pub trait Code {
        /// The number.
        const CODE: u8;

        /// The order as the library has it.
        type In<R: BitRegister>: Sequential<R>;

        /// Whether a number has the bits in this order, or in the opposite one, where the part of
        /// its first word is highest.
        const BIG: bool;

        /// The lowest `count` digits, at most 64, in the opposite order where `BIG`.
        fn turned(bits: u64, count: usize) -> u64;
    }
}
