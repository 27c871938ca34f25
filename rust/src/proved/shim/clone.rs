//! Copies that answer where memory is refused, as every copy of the sources does.

use super::alloc::AllocError;

/// What is copied, where no memory is refused.
///
/// A type that takes memory for a copy has a method of this name of its own, which is called in the
/// place of this one wherever the type is known.
pub trait TryClone: Clone {
    /// A copy. This one is never refused.
    fn try_clone(&self) -> Result<Self, AllocError> {
        Ok(self.clone())
    }
}

impl<T: Clone> TryClone for T {}
