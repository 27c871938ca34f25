//! What stands for Rattle's std in the library: Rust's own, but for the modules here. The tests stand
//! over it too, which compile more of the sources.
#![allow(dead_code, unused_imports)]

pub use core::{cell, cmp, error, fmt, hash, iter, mem, ops};

pub mod alloc;
pub mod clone;
#[cfg(feature = "alloc")]
pub mod vec;

/// Rust's markers, and what says in the sources what a contract sees of a type.
pub mod marker {
    pub use core::marker::*;

    /// It is imported, and its implementations are taken out.
    pub trait Model {}
}

/// What the sources ask of texts.
pub mod str {
    /// The text of bytes that a proof says are one.
    ///
    /// It tests them, and panics where they are none: a proof rules that out.
    pub fn from_utf8_unchecked(bytes: &[u8]) -> &str {
        core::str::from_utf8(bytes).expect("the bytes of digits are a text")
    }
}

/// What each file of the sources names without an import.
pub mod prelude {
    pub use super::clone::TryClone;
    #[cfg(feature = "alloc")]
    pub use super::vec::Vec;
}
