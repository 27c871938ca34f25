//! The names of the crate `bit-vec`.

use std::fmt::{Debug, Formatter, Result};
use std::ops::Index;
use std::vec::Vec;
use worghulen::{BitSlice, Lsb0, Msb0};

type Bits = worghulen::BitVec<u32, Lsb0>;

pub type Iter<'a> = worghulen::BitValIter<'a, u32, Lsb0>;

#[derive(Clone, Default, PartialEq, Eq, PartialOrd, Ord, Hash)]
pub struct BitVec(Bits);

impl BitVec {
    pub fn new() -> Self {
        Self::default()
    }

    pub fn with_capacity(bits: usize) -> Self {
        Self(Bits::with_capacity(bits))
    }

    pub fn from_elem(len: usize, bit: bool) -> Self {
        Self(Bits::repeat(bit, len))
    }

    pub fn from_bytes(bytes: &[u8]) -> Self {
        Self(Bits::from_bitslice(BitSlice::<u8, Msb0>::from_slice(bytes)))
    }

    pub fn from_fn(len: usize, bit: impl FnMut(usize) -> bool) -> Self {
        (0..len).map(bit).collect()
    }

    pub fn to_bytes(&self) -> Vec<u8> {
        let mut bits = worghulen::BitVec::<u8, Msb0>::from_bitslice(&self.0);
        bits.resize(bits.len().next_multiple_of(8), false);
        bits.into_vec()
    }

    pub fn eq_vec(&self, bools: &[bool]) -> bool {
        self.0 == *bools
    }

    pub fn len(&self) -> usize {
        self.0.len()
    }

    pub fn capacity(&self) -> usize {
        self.0.capacity()
    }

    pub fn get(&self, i: usize) -> Option<bool> {
        self.0.get(i).map(bool::from)
    }

    pub fn set(&mut self, i: usize, bit: bool) {
        self.0.set(i, bit);
    }

    pub fn set_all(&mut self) {
        self.0.fill(true);
    }

    pub fn clear(&mut self) {
        self.0.fill(false);
    }

    pub fn negate(&mut self) {
        self.0.invert();
    }

    pub fn all(&self) -> bool {
        self.0.all()
    }

    pub fn any(&self) -> bool {
        self.0.any()
    }

    pub fn none(&self) -> bool {
        self.0.not_any()
    }

    pub fn iter(&self) -> Iter<'_> {
        self.0.iter().by_vals()
    }

    /// Whether the bits changed.
    fn becomes(&mut self, other: &Self, by: impl FnOnce(&mut Bits, &Bits)) -> bool {
        assert_eq!(self.len(), other.len());
        let old = self.0.clone();
        by(&mut self.0, &other.0);
        self.0 != old
    }

    pub fn or(&mut self, other: &Self) -> bool {
        self.becomes(other, |a, b| *a |= b)
    }

    pub fn and(&mut self, other: &Self) -> bool {
        self.becomes(other, |a, b| *a &= b)
    }

    pub fn xor(&mut self, other: &Self) -> bool {
        self.becomes(other, |a, b| *a ^= b)
    }

    pub fn nor(&mut self, other: &Self) -> bool {
        self.becomes(other, |a, b| {
            *a |= b;
            a.invert();
        })
    }

    pub fn nand(&mut self, other: &Self) -> bool {
        self.becomes(other, |a, b| {
            *a &= b;
            a.invert();
        })
    }

    pub fn xnor(&mut self, other: &Self) -> bool {
        self.becomes(other, |a, b| {
            *a ^= b;
            a.invert();
        })
    }

    pub fn union(&mut self, other: &Self) -> bool {
        self.or(other)
    }

    pub fn intersect(&mut self, other: &Self) -> bool {
        self.and(other)
    }

    pub fn difference(&mut self, other: &Self) -> bool {
        self.becomes(other, |a, b| a.and_not_from(b).unwrap())
    }

    pub fn push(&mut self, bit: bool) {
        self.0.push(bit);
    }

    pub fn pop(&mut self) -> Option<bool> {
        self.0.pop()
    }

    pub fn truncate(&mut self, len: usize) {
        self.0.truncate(len);
    }

    pub fn reserve(&mut self, more: usize) {
        self.0.reserve(more);
    }

    pub fn reserve_exact(&mut self, more: usize) {
        self.0.reserve(more);
    }

    pub fn grow(&mut self, more: usize, bit: bool) {
        self.0.resize(self.len() + more, bit);
    }

    pub fn append(&mut self, other: &mut Self) {
        self.0.append(&mut other.0);
    }

    pub fn split_off(&mut self, at: usize) -> Self {
        Self(self.0.split_off(at))
    }
}

impl Debug for BitVec {
    fn fmt(&self, f: &mut Formatter<'_>) -> Result {
        write!(f, "{}", self.0)
    }
}

impl Index<usize> for BitVec {
    type Output = bool;

    fn index(&self, i: usize) -> &bool {
        &self.0[i]
    }
}

impl Extend<bool> for BitVec {
    fn extend<I: IntoIterator<Item = bool>>(&mut self, bits: I) {
        self.0.extend(bits);
    }
}

impl FromIterator<bool> for BitVec {
    fn from_iter<I: IntoIterator<Item = bool>>(bits: I) -> Self {
        Self(bits.into_iter().collect())
    }
}

impl IntoIterator for BitVec {
    type Item = bool;
    type IntoIter = worghulen::IntoIter<u32, Lsb0>;

    fn into_iter(self) -> Self::IntoIter {
        self.0.into_iter()
    }
}

#[allow(warnings, clippy::all)]
mod tests {
    include!(concat!(env!("OUT_DIR"), "/bit_vec.rs"));
}

#[allow(warnings, clippy::all)]
mod examples {
    include!(concat!(env!("OUT_DIR"), "/bit_vec_examples.rs"));
}
