//! The names of the crate `fixedbitset`: sets of numbers below a bound.

use std::fmt::{Binary, Display, Formatter, Result};
use std::ops::{
    BitAnd, BitAndAssign, BitOr, BitOrAssign, BitXor, BitXorAssign, Index, RangeBounds,
};
use worghulen::{Lsb0, Ones};

type Bits = worghulen::BitVec<u32, Lsb0>;

#[derive(Clone, Default, Debug, PartialEq, Eq, PartialOrd, Ord, Hash)]
pub struct FixedBitSet(Bits);

impl FixedBitSet {
    pub fn with_capacity(bits: usize) -> Self {
        Self(Bits::repeat(false, bits))
    }

    pub fn with_capacity_and_blocks(bits: usize, blocks: impl IntoIterator<Item = u32>) -> Self {
        let mut all: Bits = blocks.into_iter().collect();
        all.resize(bits, false);
        Self(all)
    }

    pub fn grow(&mut self, bits: usize) {
        if bits > self.len() {
            self.0.resize(bits, false);
        }
    }

    pub fn len(&self) -> usize {
        self.0.len()
    }

    pub fn is_empty(&self) -> bool {
        self.0.is_empty()
    }

    pub fn is_clear(&self) -> bool {
        self.0.not_any()
    }

    pub fn contains(&self, bit: usize) -> bool {
        self.0.get(bit).is_some_and(bool::from)
    }

    pub fn clear(&mut self) {
        self.0.fill(false);
    }

    pub fn insert(&mut self, bit: usize) {
        self.0.set(bit, true);
    }

    pub fn put(&mut self, bit: usize) -> bool {
        self.0.replace(bit, true)
    }

    pub fn toggle(&mut self, bit: usize) {
        let bit = self.0.get_mut(bit);
        let mut bit = bit.unwrap();
        *bit = !*bit;
    }

    pub fn set(&mut self, bit: usize, enabled: bool) {
        self.0.set(bit, enabled);
    }

    pub fn copy_bit(&mut self, from: usize, to: usize) {
        self.0.set(to, self.contains(from));
    }

    pub fn count_ones(&self, range: impl RangeBounds<usize>) -> usize {
        self.0.part(range).unwrap().count_ones()
    }

    pub fn set_range(&mut self, range: impl RangeBounds<usize>, enabled: bool) {
        self.0.part_mut(range).unwrap().fill(enabled);
    }

    pub fn insert_range(&mut self, range: impl RangeBounds<usize>) {
        self.set_range(range, true);
    }

    pub fn toggle_range(&mut self, range: impl RangeBounds<usize>) {
        self.0.part_mut(range).unwrap().invert();
    }

    pub fn ones(&self) -> Ones<'_, u32, Lsb0> {
        self.0.iter_ones()
    }

    pub fn intersection(&self, other: &Self) -> impl Iterator<Item = usize> {
        (self & other).0.into_iter().enumerate().filter_map(one)
    }

    pub fn union(&self, other: &Self) -> impl Iterator<Item = usize> {
        (self | other).0.into_iter().enumerate().filter_map(one)
    }

    pub fn difference(&self, other: &Self) -> impl Iterator<Item = usize> {
        let mut bits = self.clone();
        bits.difference_with(other);
        bits.0.into_iter().enumerate().filter_map(one)
    }

    pub fn symmetric_difference(&self, other: &Self) -> impl Iterator<Item = usize> {
        (self ^ other).0.into_iter().enumerate().filter_map(one)
    }

    pub fn union_with(&mut self, other: &Self) {
        self.grow(other.len());
        self.0 |= &other.0;
    }

    pub fn intersect_with(&mut self, other: &Self) {
        self.0 &= &other.0;
    }

    pub fn difference_with(&mut self, other: &Self) {
        let both = self.len().min(other.len());
        let mut start = self.0.part_mut(..both).unwrap();
        start.and_not_from(other.0.part(..both).unwrap()).unwrap();
    }

    pub fn symmetric_difference_with(&mut self, other: &Self) {
        self.grow(other.len());
        self.0 ^= &other.0;
    }

    pub fn is_disjoint(&self, other: &Self) -> bool {
        !self.0.intersects(&other.0.as_bitslice())
    }

    pub fn is_subset(&self, other: &Self) -> bool {
        let mut over = self.clone();
        over.difference_with(other);
        over.is_clear()
    }

    pub fn is_superset(&self, other: &Self) -> bool {
        other.is_subset(self)
    }
}

fn one((index, bit): (usize, bool)) -> Option<usize> {
    bit.then_some(index)
}

impl Display for FixedBitSet {
    fn fmt(&self, f: &mut Formatter<'_>) -> Result {
        if f.alternate() {
            f.write_str("0b")?;
        }
        write!(f, "{}", self.0)
    }
}

impl Binary for FixedBitSet {
    fn fmt(&self, f: &mut Formatter<'_>) -> Result {
        Display::fmt(self, f)
    }
}

impl Index<usize> for FixedBitSet {
    type Output = bool;

    fn index(&self, bit: usize) -> &bool {
        if self.contains(bit) { &true } else { &false }
    }
}

impl Extend<usize> for FixedBitSet {
    fn extend<I: IntoIterator<Item = usize>>(&mut self, numbers: I) {
        for number in numbers {
            self.grow(number + 1);
            self.insert(number);
        }
    }
}

impl FromIterator<usize> for FixedBitSet {
    fn from_iter<I: IntoIterator<Item = usize>>(numbers: I) -> Self {
        let mut all = Self::default();
        all.extend(numbers);
        all
    }
}

impl BitAnd for &FixedBitSet {
    type Output = FixedBitSet;

    fn bitand(self, other: Self) -> FixedBitSet {
        let mut both = self.clone();
        both.intersect_with(other);
        both.0.truncate(other.len());
        both
    }
}

macro_rules! operators {
    ($($on:ident $name:ident $by:ident;)*) => { $(
        impl $on for &FixedBitSet {
            type Output = FixedBitSet;

            fn $name(self, other: Self) -> FixedBitSet {
                let mut all = self.clone();
                all.$by(other);
                all
            }
        }
    )* };
}

macro_rules! edits {
    ($($on:ident $name:ident $by:ident;)*) => { $(
        impl $on for FixedBitSet {
            fn $name(&mut self, other: Self) {
                self.$by(&other);
            }
        }

        impl $on<&Self> for FixedBitSet {
            fn $name(&mut self, other: &Self) {
                self.$by(other);
            }
        }
    )* };
}

operators! {
    BitOr bitor union_with;
    BitXor bitxor symmetric_difference_with;
}

edits! {
    BitAndAssign bitand_assign intersect_with;
    BitOrAssign bitor_assign union_with;
    BitXorAssign bitxor_assign symmetric_difference_with;
}

#[allow(warnings, clippy::all)]
mod tests {
    use super::*;

    include!(concat!(env!("OUT_DIR"), "/fixedbitset.rs"));
}

#[allow(warnings, clippy::all)]
mod examples {
    include!(concat!(env!("OUT_DIR"), "/fixedbitset_examples.rs"));
}
