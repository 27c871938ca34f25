//! The proved library, as `build.rs` makes plain Rust of it, and what stands for the names of
//! Rattle's std that Rust has not.

pub(crate) mod shim;

include!(concat!(env!("OUT_DIR"), "/proved/library.rs"));
