//! The names of the crate `smallbitvec`.

use std::fmt::{Debug, Formatter, Result};
use std::ops::{Index, Range};
use worghulen::{BitSlice, BitValIter, BitVec, IntoIter, Lsb0};

/// The panics of that crate have this text.
const NO_INDEX: &str = "index out of range";

pub fn inline_capacity() -> usize {
    62
}

#[derive(Clone, Default, PartialEq, Eq, Hash)]
pub struct SmallBitVec(BitVec);

#[allow(dead_code)]
pub enum InternalStorage {
    Inline(usize),
    Spilled(Box<[usize]>),
}

impl SmallBitVec {
    pub fn new() -> Self {
        Self::default()
    }

    pub fn with_capacity(bits: usize) -> Self {
        Self(BitVec::with_capacity(bits))
    }

    pub fn from_elem(len: usize, bit: bool) -> Self {
        Self(BitVec::repeat(bit, len))
    }

    pub fn len(&self) -> usize {
        self.0.len()
    }

    pub fn is_empty(&self) -> bool {
        self.0.is_empty()
    }

    pub fn is_inline(&self) -> bool {
        false
    }

    pub fn is_heap(&self) -> bool {
        true
    }

    pub fn capacity(&self) -> usize {
        self.0.capacity()
    }

    /// (Nothing is unsafe here: new bits are zeros.)
    ///
    /// # Safety
    ///
    /// None is asked.
    pub unsafe fn set_len(&mut self, len: usize) {
        self.0.resize(len, false);
    }

    pub fn get(&self, i: usize) -> Option<bool> {
        self.0.get(i).map(bool::from)
    }

    pub fn set(&mut self, i: usize, bit: bool) {
        self.0.set(i, bit);
    }

    pub fn push(&mut self, bit: bool) {
        self.0.push(bit);
    }

    pub fn pop(&mut self) -> Option<bool> {
        self.0.pop()
    }

    pub fn remove(&mut self, i: usize) -> bool {
        self.0.remove(i)
    }

    pub fn truncate(&mut self, len: usize) {
        self.0.truncate(len);
    }

    pub fn resize(&mut self, len: usize, bit: bool) {
        self.0.resize(len, bit);
    }

    pub fn reserve(&mut self, more: usize) {
        self.0.reserve(more);
    }

    pub fn all_true(&self) -> bool {
        self.0.all()
    }

    pub fn all_false(&self) -> bool {
        self.0.not_any()
    }

    pub fn iter(&self) -> BitValIter<'_, usize, Lsb0> {
        self.0.iter().by_vals()
    }

    pub fn range(&self, range: Range<usize>) -> VecRange<'_> {
        VecRange(self.0.part(range).expect("range out of bounds"))
    }

    pub fn into_storage(self) -> InternalStorage {
        InternalStorage::Spilled(self.0.into_vec().into())
    }

    /// # Safety
    ///
    /// None is asked.
    pub unsafe fn from_storage(storage: InternalStorage) -> Self {
        Self(BitVec::from_vec(match storage {
            InternalStorage::Inline(word) => vec![word],
            InternalStorage::Spilled(words) => words.into(),
        }))
    }
}

pub struct VecRange<'a>(BitSlice<'a, usize, Lsb0>);

impl VecRange<'_> {
    pub fn iter(&self) -> BitValIter<'_, usize, Lsb0> {
        self.0.iter().by_vals()
    }
}

impl Index<usize> for VecRange<'_> {
    type Output = bool;

    fn index(&self, i: usize) -> &bool {
        if *self.0.get(i).expect(NO_INDEX) {
            &true
        } else {
            &false
        }
    }
}

impl Index<usize> for SmallBitVec {
    type Output = bool;

    fn index(&self, i: usize) -> &bool {
        if *self.0.get(i).expect(NO_INDEX) {
            &true
        } else {
            &false
        }
    }
}

impl Debug for SmallBitVec {
    fn fmt(&self, f: &mut Formatter<'_>) -> Result {
        Debug::fmt(&self.0, f)
    }
}

impl IntoIterator for SmallBitVec {
    type Item = bool;
    type IntoIter = IntoIter;

    fn into_iter(self) -> IntoIter {
        self.0.into_iter()
    }
}

#[allow(unused_macros)]
macro_rules! sbvec {
    ($bit:expr; $len:expr) => {
        SmallBitVec::from_elem($len, $bit)
    };
    ($($bit:expr),*) => {
        SmallBitVec({
            let bits: &[bool] = &[$($bit),*];
            bits.iter().collect::<BitVec>()
        })
    };
}

#[allow(warnings, clippy::all)]
mod tests {
    include!(concat!(env!("OUT_DIR"), "/smallbitvec.rs"));
}

#[allow(warnings, clippy::all)]
mod examples {
    include!(concat!(env!("OUT_DIR"), "/smallbitvec_examples.rs"));
}
