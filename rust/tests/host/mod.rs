//! The proved libraries with their tests and programs, and what stands for the names of Rattle's std
//! that those have.

#[path = "../../src/proved/shim/mod.rs"]
mod base;

/// Rattle's std: what the library has of it, and what a program has of its host.
pub mod shim {
    pub use super::base::{alloc, cell, cmp, error, fmt, hash, iter, marker, ops, str};

    pub mod macros;
    pub mod text;
    pub mod vec;
    pub mod world;

    pub(crate) use macros::{rt_assert as assert, rt_assert_eq as assert_eq, rt_format as format};
    pub(crate) use macros::{rt_print as print, rt_println as println, rt_vec as vec};
    pub use world::{env, fs, io, process, rt};

    /// What a test answers.
    pub mod test {
        /// That a test failed.
        pub type Fail = Box<dyn std::error::Error>;
    }

    /// What each file of the sources names without an import.
    pub mod prelude {
        pub use super::super::base::prelude::*;
        pub use super::rt::{AllocGlobal, Print};
        pub use super::text::{CollectIn, String};
        pub use super::vec::Vec;
    }
}

include!(concat!(env!("OUT_DIR"), "/proved/library.rs"));
include!(concat!(env!("OUT_DIR"), "/proved/asking.rs"));
