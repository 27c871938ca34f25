//! The proved library and its exports, as `build.rs` makes plain Rust of them, and what stands for
//! the names of Rattle's std that Rust has not.

#[path = "../../src/proved/shim/mod.rs"]
pub(crate) mod shim;

include!(concat!(env!("OUT_DIR"), "/proved/library.rs"));
