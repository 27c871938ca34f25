//! The tests and the examples of other crates of bits, as Debian packages them, over this library by
//! the names of those crates: `cargo test` here. `build.rs` reads them where their packages are, and
//! says which are ignored, and why. What stands in these modules is a shim of names, and each does
//! no more than call.
//!
//! | Crate | What differs, and why |
//! |---|---|
//! | `bit-vec` | `clear` there makes each bit zero: `fill(false)`. Of two lengths `or` and so on panic there. |
//! | `fixedbitset` | `a & &b` has the shorter length there, and `a \| &b` the longer: here both have that of `a`. `insert` and `grow` are those of sets. |
//! | `smallbitvec` | bits that lie in the vector itself: here a `BitVec` has memory of its own, and a `BitArray` none |

#[cfg(test)]
extern crate alloc;

#[cfg(all(test, bit_vec))]
mod bit_vec;
#[cfg(all(test, fixedbitset))]
mod fixedbitset;
#[cfg(all(test, smallbitvec))]
mod smallbitvec;
