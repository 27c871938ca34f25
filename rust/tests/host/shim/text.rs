//! Texts that are handed an allocator, over Rust's, and what is collected with one.

use super::alloc::{AllocError, Allocator, Global};
use super::vec::Vec;
use std::{fmt, ops};

/// A text with its allocator.
pub struct String<A = Global> {
    text: std::string::String,
    alloc: A,
}

impl From<std::string::String> for String {
    fn from(text: std::string::String) -> Self {
        Self {
            text,
            alloc: Global,
        }
    }
}

impl<A: Allocator> String<A> {
    /// A text of nothing.
    pub fn new(alloc: A) -> Self {
        Self {
            text: std::string::String::new(),
            alloc,
        }
    }

    /// A copy of a text.
    pub fn from_str(alloc: A, text: &str) -> Result<Self, AllocError> {
        let mut all = Self::new(alloc);
        all.push_str(text)?;
        Ok(all)
    }

    /// Puts a text behind it, where the allocator gives leave.
    pub fn push_str(&mut self, text: &str) -> Result<(), AllocError> {
        if !text.is_empty() {
            self.alloc.allocate(self.text.len() + text.len(), 1)?;
        }
        self.text.push_str(text);
        Ok(())
    }

    /// What `write!` calls.
    pub fn write_fmt(&mut self, args: fmt::Arguments<'_>) -> Result<(), AllocError> {
        fmt::Write::write_fmt(self, args).map_err(|_| AllocError)
    }

    /// The text.
    pub fn as_str(&self) -> &str {
        &self.text
    }
}

impl<A: Allocator> fmt::Write for String<A> {
    fn write_str(&mut self, text: &str) -> fmt::Result {
        self.push_str(text).map_err(|_| fmt::Error)
    }
}

impl<A> PartialEq for String<A> {
    fn eq(&self, other: &Self) -> bool {
        self.text == other.text
    }
}

impl<A> ops::Deref for String<A> {
    type Target = str;

    fn deref(&self) -> &str {
        &self.text
    }
}

impl<A> fmt::Debug for String<A> {
    fn fmt(&self, f: &mut fmt::Formatter<'_>) -> fmt::Result {
        self.text.fmt(f)
    }
}

impl<A> fmt::Display for String<A> {
    fn fmt(&self, f: &mut fmt::Formatter<'_>) -> fmt::Result {
        self.text.fmt(f)
    }
}

/// What is made of items, in an allocator's memory.
pub trait FromIn<T, A>: Sized {
    /// Takes the items, or answers that memory was refused.
    fn from_in(items: impl Iterator<Item = T>, alloc: A) -> Result<Self, AllocError>;
}

impl<T, A: Allocator> FromIn<T, A> for Vec<T, A> {
    fn from_in(items: impl Iterator<Item = T>, alloc: A) -> Result<Self, AllocError> {
        let mut all = Vec::new(alloc);
        for item in items {
            all.push(item)?;
        }
        Ok(all)
    }
}

/// Collects with an allocator.
pub trait CollectIn: Iterator + Sized {
    /// What is made of the items.
    fn collect_in<C: FromIn<Self::Item, A>, A>(self, alloc: A) -> Result<C, AllocError> {
        C::from_in(self, alloc)
    }
}

impl<I: Iterator> CollectIn for I {}
