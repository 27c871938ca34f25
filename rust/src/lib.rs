#![cfg_attr(feature = "alloc", doc = include_str!("../README.md"))]
#![cfg_attr(
    not(feature = "alloc"),
    doc = "Bits in slices of words, and in arrays of their own: see `rust/README.md`, whose examples want the feature `alloc`."
)]
#![no_std]
#![deny(missing_docs)]
#![forbid(unsafe_code)]

// (proved for a `usize` of 64 bits; with one of 32 it is built, and nothing more is known)
#[cfg(not(any(target_pointer_width = "64", target_pointer_width = "32")))]
compile_error!("a usize has 64 bits here, as the library is proved for, or 32");

#[cfg(test)]
extern crate std;

// (first, since rustdoc lists the calls of a type by its modules in this order)
mod array;
#[cfg(feature = "alloc")]
mod boxed;
mod slice;
mod slice_mut;
#[cfg(feature = "alloc")]
mod vec;

#[cfg(feature = "std")]
mod bytes;
mod combine;
mod compare;
mod domain;
mod edit;
mod find;
mod freemap;
mod index;
#[cfg(feature = "std")]
mod io;
mod iter;
mod macros;
mod number;
mod order;
mod own;
mod pieces;
pub mod prelude;
mod proved;
mod proxy;
mod range;
mod readers;
mod refusal;
mod register;
mod run;
#[cfg(feature = "serde")]
mod serde;
mod stream;
mod sys;
mod text;
mod view;
mod words;
mod writer;

pub use array::BitArray;
#[cfg(feature = "alloc")]
pub use boxed::BitBox;
pub use domain::Domain;
pub use freemap::{FreeMap, FreeRuns};
pub use index::{BitIndex, BitPosition};
#[cfg(feature = "std")]
pub use io::{IoReader, IoWriter};
pub use iter::{BitRefIter, BitValIter, Chunks, Iter, Ones, Zeros};
#[doc(hidden)]
pub use macros::parts as __macros;
pub use number::Number;
pub use order::{LocalBits, Lsb0, Msb0, Order};
pub use own::AsBitSlice;
pub use pieces::{ChunksExact, RChunks, Windows};
pub use proxy::{BitRef, Const, IterMut, Mut, Mutability};
pub use refusal::Refusal;
pub use register::Register;
pub use run::{Command, ManySpans, Reply, Request, Spans};
pub use slice::BitSlice;
pub use slice_mut::{BitSliceMut, copy_bits};
pub use stream::BitReader;
pub use sys::Span;
#[cfg(feature = "alloc")]
pub use vec::{BitVec, IntoIter};
pub use view::{AsBits, AsMutBits, BitView};
pub use writer::BitWriter;

/// The number of the version of the proved library: 10000 times its first part, 100 times its second,
/// and its third.
///
/// # Examples
///
/// ```
/// assert_eq!(worghulen::VERSION, 500);
/// ```
pub const VERSION: u32 = proved::bitvec_call::version::VERSION;
