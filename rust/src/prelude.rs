//! Most names of this crate, by one `use`: also those that the crate `bitvec` has for the same.
//!
//! # Examples
//!
//! ```
//! use worghulen::prelude::*;
//!
//! fn ones<T: BitStore, O: BitOrder>(bits: BitSlice<'_, T, O>) -> usize {
//!     bits.count_ones()
//! }
//!
//! let words = vec![3_u8, 1];
//! assert_eq!(ones(words.view_bits::<LocalBits>()), 3);
//! ```

pub use crate::order::{LocalBits, Lsb0, Msb0, Order, Order as BitOrder};
pub use crate::proxy::BitRef;
pub use crate::register::{Register, Register as BitStore};
pub use crate::view::{AsBits, AsMutBits, BitView};
pub use crate::{AsBitSlice, BitArray, BitReader, BitSlice, BitSliceMut, BitWriter, Refusal};
pub use crate::{BitArr, bitarr, bits};
#[cfg(feature = "alloc")]
pub use crate::{BitBox, BitVec, bitbox, bitvec};
#[cfg(feature = "std")]
pub use crate::{IoReader, IoWriter};
