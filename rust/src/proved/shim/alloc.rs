//! What is asked for memory, and that it was refused.

use core::{error, fmt};

/// Memory was refused.
#[derive(Clone, Copy, PartialEq, Eq, Debug)]
pub struct AllocError;

impl fmt::Display for AllocError {
    fn fmt(&self, f: &mut fmt::Formatter<'_>) -> fmt::Result {
        f.write_str("memory was refused")
    }
}

impl error::Error for AllocError {}

/// What is asked for leave to take memory. The memory itself is Rust's global allocator's, so that
/// a caller has to keep to nothing.
pub trait Allocator {
    /// Gives leave to take `size` bytes. What it answers is not used, but an error refuses.
    fn allocate(&self, size: usize, align: usize) -> Result<*mut u8, AllocError>;

    /// Nothing is given back.
    fn deallocate(&self, _: *mut u8, _: usize, _: usize) {}
}

/// What refuses nothing, but where Rust's global allocator does.
#[derive(Clone, Copy, Default, Debug)]
pub struct Global;

impl Allocator for Global {
    #[inline]
    fn allocate(&self, _: usize, _: usize) -> Result<*mut u8, AllocError> {
        Ok(core::ptr::null_mut())
    }
}

impl<A: Allocator> Allocator for &A {
    fn allocate(&self, size: usize, align: usize) -> Result<*mut u8, AllocError> {
        (**self).allocate(size, align)
    }
}
