//! Vectors that are handed an allocator and answer where memory is refused, over Rust's.
//!
//! The memory is Rust's global allocator's. The allocator that a vector is handed is asked first,
//! and may refuse.

extern crate alloc as memory;

use super::alloc::{AllocError, Allocator, Global};
use core::ops::{Deref, DerefMut};
use memory::vec::Vec as Items;

/// A vector with its allocator.
pub struct Vec<T, A = Global> {
    items: Items<T>,
    alloc: A,
}

impl<T> From<Items<T>> for Vec<T> {
    #[inline]
    fn from(items: Items<T>) -> Self {
        Self {
            items,
            alloc: Global,
        }
    }
}

impl<T> From<Vec<T>> for Items<T> {
    #[inline]
    fn from(all: Vec<T>) -> Self {
        all.items
    }
}

impl<T, A: Allocator> Vec<T, A> {
    /// A vector of nothing.
    #[inline]
    pub fn new(alloc: A) -> Self {
        Self {
            items: Items::new(),
            alloc,
        }
    }

    /// Its allocator.
    #[inline]
    pub fn allocator(&self) -> &A {
        &self.alloc
    }

    /// Takes room for that many more items, where the allocator gives leave.
    #[inline]
    pub fn reserve(&mut self, more: usize) -> Result<(), AllocError> {
        let len = self.items.len().checked_add(more).ok_or(AllocError)?;
        if len <= self.items.capacity() {
            return Ok(());
        }
        let size = len.checked_mul(size_of::<T>()).ok_or(AllocError)?;
        self.alloc.allocate(size, align_of::<T>())?;
        self.items.try_reserve(more).map_err(|_| AllocError)
    }

    /// Puts an item behind the last.
    #[inline]
    pub fn push(&mut self, item: T) -> Result<(), AllocError> {
        if self.items.len() == self.items.capacity() {
            self.make_room()?;
        }
        self.items.push(item);
        Ok(())
    }

    /// Takes room for one more item.
    #[cold]
    #[inline(never)]
    fn make_room(&mut self) -> Result<(), AllocError> {
        self.reserve(1)
    }

    /// Puts copies of items behind the last.
    #[inline]
    pub fn extend_from_slice(&mut self, items: &[T]) -> Result<(), AllocError>
    where
        T: Clone,
    {
        self.reserve(items.len())?;
        self.items.extend_from_slice(items);
        Ok(())
    }

    /// Puts an item before another.
    #[inline]
    pub fn insert(&mut self, at: usize, item: T) -> Result<(), AllocError> {
        self.reserve(1)?;
        self.items.insert(at, item);
        Ok(())
    }

    /// Puts copies of an item behind the last, or drops the last, until there are that many.
    #[inline]
    pub fn resize(&mut self, len: usize, item: T) -> Result<(), AllocError>
    where
        T: Clone,
    {
        self.reserve(len.saturating_sub(self.items.len()))?;
        self.items.resize(len, item);
        Ok(())
    }
}

/// Rust's calls of these names. (Those of slices are here too, so that an argument may read the
/// vector.)
impl<T, A> Vec<T, A> {
    /// How many items have room.
    #[inline]
    pub fn capacity(&self) -> usize {
        self.items.capacity()
    }

    /// The items.
    #[inline]
    pub fn as_slice(&self) -> &[T] {
        &self.items
    }

    /// The items, to be changed.
    #[inline]
    pub fn as_mut_slice(&mut self) -> &mut [T] {
        &mut self.items
    }

    /// How many there are.
    #[inline]
    pub fn len(&self) -> usize {
        self.items.len()
    }

    /// Takes the last out.
    #[inline]
    pub fn pop(&mut self) -> Option<T> {
        self.items.pop()
    }

    /// Takes one out.
    #[inline]
    pub fn remove(&mut self, at: usize) -> T {
        self.items.remove(at)
    }

    /// Takes one out, and puts the last in its place.
    #[inline]
    pub fn swap_remove(&mut self, at: usize) -> T {
        self.items.swap_remove(at)
    }

    /// Puts the first behind the others.
    #[inline]
    pub fn rotate_left(&mut self, by: usize) {
        self.items.rotate_left(by);
    }

    /// Drops the last, until there are that many.
    #[inline]
    pub fn truncate(&mut self, len: usize) {
        self.items.truncate(len);
    }
}

impl<T, A> Deref for Vec<T, A> {
    type Target = [T];

    #[inline]
    fn deref(&self) -> &[T] {
        &self.items
    }
}

impl<T, A> DerefMut for Vec<T, A> {
    #[inline]
    fn deref_mut(&mut self) -> &mut [T] {
        &mut self.items
    }
}
