//! Bits in memory of their own, whose number changes.
//!
//! Each call that changes the number of bits is one of the proved vectors, whose condition is tested
//! before it: that an index is among the bits, and that words have not too many.

use crate::boxed::BitBox;
use crate::order::code::Code;
use crate::order::{Lsb0, Order};
use crate::own::AsBitSlice;
use crate::proved::bitvec_vec::vec;
use crate::proved::shim::alloc::{AllocError, Global};
use crate::proxy::{BitRef, Mutability};
use crate::range::{MAX_BITS, within};
use crate::refusal::{Refusal, refused};
use crate::register::Register;
use crate::slice::BitSlice;
use crate::slice_mut::BitSliceMut;
use crate::sys::Exports;
use core::iter::FusedIterator;
use core::mem;
use core::ops::{Range, RangeBounds};
use core::str::FromStr;
use std_alloc::vec::Vec;

extern crate alloc as std_alloc;

/// The vector of the library.
type Proved<T, O> =
    vec::BitVec<<T as Exports>::Word, <O as Code>::In<<T as Exports>::Word>, Global>;

/// Bits in memory of their own, whose number changes: a `Vec<bool>` that takes a bit for each.
///
/// Each call of a [`BitSlice`] is one of it, and each edit of a [`BitSliceMut`]; its first bit is
/// the first of its first word. Two are equal where they have the same bits, whatever their words
/// and orders are, and they are ordered and hashed as their slices are.
/// [`bitvec!`](crate::bitvec) writes one down.
///
/// # Examples
///
/// ```
/// use worghulen::{BitVec, Msb0, bitvec};
///
/// let mut bits = BitVec::<u8, Msb0>::new();
/// bits.push(true);
/// bits.extend([false, true]);
/// bits.insert(1, true);
/// assert_eq!(bits, bitvec![1, 1, 0, 1]);
/// assert_eq!((bits.len(), bits.count_ones(), bits.pop()), (4, 3, Some(true)));
/// assert_eq!(bits.to_string(), "110");
/// ```
pub struct BitVec<T: Register = usize, O: Order = Lsb0>(Proved<T, O>);

/// As this crate says it.
fn no_memory(_: AllocError) -> Refusal {
    Refusal::NoMemory
}

/// What a call answers that was not refused.
#[inline]
#[track_caller]
fn had<A>(call: &str, len: usize, answer: Result<A, Refusal>) -> A {
    match answer {
        Ok(answer) => answer,
        Err(why) => refused(call, &(), len, why),
    }
}

impl<T: Register, O: Order> BitVec<T, O> {
    /// No bits. It takes no memory. Constant time.
    ///
    /// # Examples
    ///
    /// ```
    /// use worghulen::{BitVec, Lsb0};
    ///
    /// assert!(BitVec::<u8, Lsb0>::new().is_empty());
    /// ```
    #[inline]
    #[must_use]
    pub fn new() -> Self {
        Self(Proved::<T, O>::new(Global))
    }

    /// No bits, and memory for `capacity` bits. Constant time.
    ///
    /// # Panics
    ///
    /// Panics where there is no memory for them.
    ///
    /// # Examples
    ///
    /// ```
    /// use worghulen::{BitVec, Lsb0};
    ///
    /// assert!(BitVec::<u8, Lsb0>::with_capacity(20).capacity() >= 20);
    /// ```
    #[must_use]
    #[track_caller]
    pub fn with_capacity(capacity: usize) -> Self {
        had("with_capacity", capacity, Self::try_with_capacity(capacity))
    }

    /// As [`with_capacity`](Self::with_capacity), or why that would panic.
    ///
    /// # Errors
    ///
    /// [`Refusal::NoMemory`] where there is no memory for them.
    ///
    /// # Examples
    ///
    /// ```
    /// use worghulen::{BitVec, Lsb0, Refusal};
    ///
    /// let refused = BitVec::<u8, Lsb0>::try_with_capacity(usize::MAX);
    /// assert_eq!(refused.err(), Some(Refusal::NoMemory));
    /// ```
    pub fn try_with_capacity(capacity: usize) -> Result<Self, Refusal> {
        Proved::<T, O>::with_capacity(Global, capacity)
            .map(Self)
            .map_err(no_memory)
    }

    /// The same bit `len` times. Costs by words.
    ///
    /// # Panics
    ///
    /// Panics where there is no memory for them.
    ///
    /// # Examples
    ///
    /// ```
    /// use worghulen::{BitVec, Lsb0};
    ///
    /// assert_eq!(BitVec::<u8, Lsb0>::repeat(true, 10).count_ones(), 10);
    /// ```
    #[must_use]
    #[track_caller]
    pub fn repeat(bit: bool, len: usize) -> Self {
        had("repeat", len, Self::try_repeat(bit, len))
    }

    /// As [`repeat`](Self::repeat), or why that would panic.
    ///
    /// # Errors
    ///
    /// [`Refusal::NoMemory`] where there is no memory for them.
    ///
    /// # Examples
    ///
    /// ```
    /// use worghulen::{BitVec, Lsb0};
    ///
    /// assert!(BitVec::<u8, Lsb0>::try_repeat(false, 9).is_ok_and(|it| it.len() == 9));
    /// assert!(BitVec::<u8, Lsb0>::try_repeat(false, usize::MAX).is_err());
    /// ```
    pub fn try_repeat(bit: bool, len: usize) -> Result<Self, Refusal> {
        Proved::<T, O>::repeat(Global, bit, len)
            .map(Self)
            .map_err(no_memory)
    }

    /// A copy of all bits of words. Costs by words.
    ///
    /// # Panics
    ///
    /// Panics where there is no memory for them, or they are too many.
    ///
    /// # Examples
    ///
    /// ```
    /// use worghulen::{BitVec, Lsb0};
    ///
    /// assert_eq!(BitVec::<u8, Lsb0>::from_slice(&[3, 0]).iter_ones().collect::<Vec<_>>(), [0, 1]);
    /// ```
    #[must_use]
    #[track_caller]
    pub fn from_slice(words: &[T]) -> Self {
        Self::from_bitslice(BitSlice::<T, O>::from_slice(words))
    }

    /// All bits of a word. Constant time, but for the memory.
    ///
    /// # Panics
    ///
    /// Panics where there is no memory for them.
    ///
    /// # Examples
    ///
    /// ```
    /// use worghulen::{BitVec, Msb0};
    ///
    /// assert_eq!(BitVec::<u8, Msb0>::from_element(0x0f).to_string(), "00001111");
    /// ```
    #[must_use]
    #[track_caller]
    pub fn from_element(word: T) -> Self {
        Self::from_slice(&[word])
    }

    /// A copy of bits, of any words and order. Costs by words where the orders are the same, else
    /// by bits.
    ///
    /// # Panics
    ///
    /// Panics where there is no memory for them.
    ///
    /// # Examples
    ///
    /// ```
    /// use worghulen::{BitVec, BitView, Lsb0, Msb0};
    ///
    /// let word = 0x5000_u16;
    /// let bits = BitVec::<u8, Lsb0>::from_bitslice(word.view_bits::<Msb0>().get(..4).unwrap());
    /// assert_eq!(bits.into_vec(), [0b1010]);
    /// ```
    #[must_use]
    #[track_caller]
    pub fn from_bitslice(bits: impl AsBitSlice) -> Self {
        let bits = bits.as_bitslice();
        had("from_bitslice", bits.len(), Self::try_from_bitslice(bits))
    }

    /// As [`from_bitslice`](Self::from_bitslice), or why that would panic.
    ///
    /// # Errors
    ///
    /// [`Refusal::NoMemory`] where there is no memory for them.
    ///
    /// # Examples
    ///
    /// ```
    /// use worghulen::{BitVec, Lsb0, bits};
    ///
    /// assert_eq!(BitVec::<u8, Lsb0>::try_from_bitslice(bits![0, 1])?.to_string(), "01");
    /// # Ok::<(), worghulen::Refusal>(())
    /// ```
    pub fn try_from_bitslice(bits: impl AsBitSlice) -> Result<Self, Refusal> {
        let bits = bits.as_bitslice().proved();
        Proved::<T, O>::from_bitslice(Global, bits)
            .map(Self)
            .map_err(no_memory)
    }

    /// All bits of a vector of words, in its memory. Constant time.
    ///
    /// # Panics
    ///
    /// Panics where there are more than 2305843009213693951 bits.
    ///
    /// # Examples
    ///
    /// ```
    /// use worghulen::{BitVec, Lsb0};
    ///
    /// let mut bits = BitVec::<u8, Lsb0>::from_vec(vec![1, 2]);
    /// bits.push(true);
    /// assert_eq!(bits.into_vec(), [1, 2, 1]);
    /// ```
    #[must_use]
    #[track_caller]
    pub fn from_vec(words: Vec<T>) -> Self {
        let len = words.len();
        let made = Self::try_from_vec(words).map_err(|_| Refusal::TooLong);
        had("from_vec", len.saturating_mul(T::BITS), made)
    }

    /// As [`from_vec`](Self::from_vec).
    ///
    /// # Errors
    ///
    /// The vector itself where that would panic.
    ///
    /// # Examples
    ///
    /// ```
    /// use worghulen::{BitVec, Lsb0};
    ///
    /// let bits = BitVec::<u16, Lsb0>::try_from_vec(vec![0; 2]).unwrap();
    /// assert_eq!(bits.len(), 32);
    /// ```
    pub fn try_from_vec(words: Vec<T>) -> Result<Self, Vec<T>> {
        if words.len() > MAX_BITS / T::BITS {
            return Err(words);
        }
        Ok(Self(Proved::<T, O>::from_words(T::give(words).into())))
    }

    /// The words that the bits lie in. What stands behind the last bit in its word is not said.
    /// Constant time.
    ///
    /// # Examples
    ///
    /// ```
    /// use worghulen::{Lsb0, bitvec};
    ///
    /// let words = bitvec![u8, Lsb0; 1; 9].into_vec();
    /// assert_eq!((words.len(), words[0], words[1] & 1), (2, 0xff, 1));
    /// ```
    #[must_use]
    pub fn into_vec(self) -> Vec<T> {
        T::take(self.0.into_words().into())
    }

    /// The same bits, whose number stays. Constant time.
    ///
    /// # Examples
    ///
    /// ```
    /// use worghulen::bitvec;
    ///
    /// assert_eq!(bitvec![0, 1].into_boxed_bitslice().len(), 2);
    /// ```
    #[must_use]
    pub fn into_boxed_bitslice(self) -> BitBox<T, O> {
        self.into()
    }

    /// For how many bits there is room before memory is asked for. Constant time.
    ///
    /// # Examples
    ///
    /// ```
    /// use worghulen::bitvec;
    ///
    /// assert!(bitvec![0; 100].capacity() >= 100);
    /// ```
    #[must_use]
    pub fn capacity(&self) -> usize {
        self.0.capacity()
    }

    /// Its bits, for reading: a slice that begins with the first bit of its first word. Constant
    /// time.
    ///
    /// # Examples
    ///
    /// ```
    /// use worghulen::{bits, bitvec};
    ///
    /// assert_eq!(bitvec![0, 1, 1].as_bitslice().get(1..).unwrap(), bits![1, 1]);
    /// ```
    #[inline]
    #[must_use]
    pub fn as_bitslice(&self) -> BitSlice<'_, T, O> {
        BitSlice::of(self.as_raw_slice(), 0, self.0.len())
    }

    /// Its bits, borrowed for writing. Constant time.
    ///
    /// # Examples
    ///
    /// ```
    /// use worghulen::bitvec;
    ///
    /// let mut bits = bitvec![0, 1, 1];
    /// bits.as_mut_bitslice().get_mut(..2).unwrap().reverse();
    /// assert_eq!(bits.to_string(), "101");
    /// ```
    #[inline]
    #[must_use]
    pub fn as_mut_bitslice(&mut self) -> BitSliceMut<'_, T, O> {
        let len = self.0.len();
        BitSliceMut::of(T::own_mut(self.0.words.as_mut_slice()), 0, len)
    }

    /// The words that the bits lie in, to be read. Constant time.
    ///
    /// # Examples
    ///
    /// ```
    /// use worghulen::{Lsb0, bitvec};
    ///
    /// assert_eq!(bitvec![u8, Lsb0; 0, 1].as_raw_slice(), [2]);
    /// ```
    #[inline]
    #[must_use]
    pub fn as_raw_slice(&self) -> &[T] {
        T::own(self.0.words.as_slice())
    }

    /// Makes room for `additional` more bits: these can be put behind the others, and no memory is
    /// asked for. Costs by the words that are there, where the memory is another.
    ///
    /// # Panics
    ///
    /// Panics where there is no memory for them. The bits stay then.
    ///
    /// # Examples
    ///
    /// ```
    /// use worghulen::bitvec;
    ///
    /// let mut bits = bitvec![0, 1];
    /// bits.reserve(98);
    /// assert!(bits.capacity() >= 100);
    /// ```
    #[track_caller]
    pub fn reserve(&mut self, additional: usize) {
        had("reserve", additional, self.try_reserve(additional));
    }

    /// As [`reserve`](Self::reserve), or why that would panic.
    ///
    /// # Errors
    ///
    /// [`Refusal::NoMemory`] where there is no memory for them. The bits stay then.
    ///
    /// # Examples
    ///
    /// ```
    /// use worghulen::{Refusal, bitvec};
    ///
    /// assert_eq!(bitvec![0, 1].try_reserve(usize::MAX), Err(Refusal::NoMemory));
    /// ```
    pub fn try_reserve(&mut self, additional: usize) -> Result<(), Refusal> {
        self.0.reserve(additional).map_err(no_memory)
    }

    /// Puts a bit behind the others. Constant time, but where memory is taken.
    ///
    /// # Panics
    ///
    /// Panics where there is no memory for it. The bits stay then.
    ///
    /// # Examples
    ///
    /// ```
    /// use worghulen::bitvec;
    ///
    /// let mut bits = bitvec![0, 1];
    /// bits.push(true);
    /// assert_eq!(bits.to_string(), "011");
    /// ```
    #[inline]
    #[track_caller]
    pub fn push(&mut self, bit: bool) {
        if self.0.push(bit).is_err() {
            // (a copy, since what is lent would lie in memory in each call)
            refused("push", &{ bit }, self.len(), Refusal::NoMemory);
        }
    }

    /// As [`push`](Self::push), or why that would panic.
    ///
    /// # Errors
    ///
    /// [`Refusal::NoMemory`] where there is no memory for it. The bits stay then.
    ///
    /// # Examples
    ///
    /// ```
    /// use worghulen::bitvec;
    ///
    /// let mut bits = bitvec![0, 1];
    /// bits.try_push(true)?;
    /// assert_eq!(bits.len(), 3);
    /// # Ok::<(), worghulen::Refusal>(())
    /// ```
    #[inline]
    pub fn try_push(&mut self, bit: bool) -> Result<(), Refusal> {
        self.0.push(bit).map_err(no_memory)
    }

    /// Takes the last bit away and returns it, and `None` where there are no bits. Constant time.
    ///
    /// # Examples
    ///
    /// ```
    /// use worghulen::bitvec;
    ///
    /// let mut bits = bitvec![0, 1];
    /// assert_eq!((bits.pop(), bits.pop(), bits.pop()), (Some(true), Some(false), None));
    /// ```
    #[inline]
    pub fn pop(&mut self) -> Option<bool> {
        // (no vector has more: of such a length the compiler divides as of one with no sign)
        if self.0.len().wrapping_sub(1) >= MAX_BITS {
            return None;
        }
        self.0.pop()
    }

    /// Takes away the bits from number `len` on, and does nothing where there are none. Costs by
    /// dropped words.
    ///
    /// # Examples
    ///
    /// ```
    /// use worghulen::bitvec;
    ///
    /// let mut bits = bitvec![0, 1, 1];
    /// bits.truncate(2);
    /// bits.truncate(9);
    /// assert_eq!(bits.to_string(), "01");
    /// ```
    pub fn truncate(&mut self, len: usize) {
        self.0.truncate(len);
    }

    /// Takes all bits away. The memory stays. Constant time.
    ///
    /// # Examples
    ///
    /// ```
    /// use worghulen::bitvec;
    ///
    /// let mut bits = bitvec![0, 1, 1];
    /// bits.clear();
    /// assert!(bits.is_empty() && bits.capacity() != 0);
    /// ```
    pub fn clear(&mut self) {
        self.0.clear();
    }

    /// As [`insert`](Self::insert), or why that would panic.
    ///
    /// # Errors
    ///
    /// [`Refusal::Outside`] where the index is past the length, and [`Refusal::NoMemory`]. The bits
    /// stay then.
    ///
    /// # Examples
    ///
    /// ```
    /// use worghulen::{Refusal, bitvec};
    ///
    /// let mut bits = bitvec![0, 1];
    /// assert_eq!(bits.try_insert(3, true), Err(Refusal::Outside { index: 3, len: 2 }));
    /// bits.try_insert(2, false)?;
    /// assert_eq!(bits.to_string(), "010");
    /// # Ok::<(), Refusal>(())
    /// ```
    pub fn try_insert(&mut self, i: usize, bit: bool) -> Result<(), Refusal> {
        self.has_place(i)?;
        self.0.insert(i, bit).map_err(no_memory)
    }

    /// As [`remove`](Self::remove), or why that would panic.
    ///
    /// # Errors
    ///
    /// [`Refusal::Outside`] where there is no such bit.
    ///
    /// # Examples
    ///
    /// ```
    /// use worghulen::{Refusal, bitvec};
    ///
    /// let mut bits = bitvec![0, 1];
    /// assert_eq!(bits.try_remove(1), Ok(true));
    /// assert_eq!(bits.try_remove(1), Err(Refusal::Outside { index: 1, len: 1 }));
    /// ```
    pub fn try_remove(&mut self, i: usize) -> Result<bool, Refusal> {
        self.has(i)?;
        Ok(self.0.remove(i))
    }

    /// As [`swap_remove`](Self::swap_remove), or why that would panic.
    ///
    /// # Errors
    ///
    /// [`Refusal::Outside`] where there is no such bit.
    ///
    /// # Examples
    ///
    /// ```
    /// use worghulen::bitvec;
    ///
    /// let mut bits = bitvec![0, 0, 1];
    /// assert_eq!(bits.try_swap_remove(0), Ok(false));
    /// assert_eq!(bits.to_string(), "10");
    /// ```
    pub fn try_swap_remove(&mut self, i: usize) -> Result<bool, Refusal> {
        self.has(i)?;
        Ok(self.0.swap_remove(i))
    }

    /// Whether there is a bit of this index.
    fn has(&self, index: usize) -> Result<(), Refusal> {
        let len = self.0.len();
        if index < len {
            Ok(())
        } else {
            Err(Refusal::Outside { index, len })
        }
    }

    /// Refused where an index is past the length.
    #[inline]
    fn has_place(&self, index: usize) -> Result<(), Refusal> {
        let len = self.0.len();
        if index <= len {
            Ok(())
        } else {
            Err(Refusal::Outside { index, len })
        }
    }

    /// As [`split_off`](Self::split_off), or why that would panic.
    ///
    /// # Errors
    ///
    /// [`Refusal::Outside`] where the index is past the length, and [`Refusal::NoMemory`]. The bits
    /// stay then.
    ///
    /// # Examples
    ///
    /// ```
    /// use worghulen::{Refusal, bitvec};
    ///
    /// let refused = bitvec![0, 1].try_split_off(3).err();
    /// assert_eq!(refused, Some(Refusal::Outside { index: 3, len: 2 }));
    /// ```
    pub fn try_split_off(&mut self, at: usize) -> Result<Self, Refusal> {
        self.has_place(at)?;
        self.0.split_off(at).map(Self).map_err(no_memory)
    }

    /// As [`resize`](Self::resize), or why that would panic.
    ///
    /// # Errors
    ///
    /// [`Refusal::NoMemory`] where there is no memory for them. The bits stay then.
    ///
    /// # Examples
    ///
    /// ```
    /// use worghulen::{Refusal, bitvec};
    ///
    /// assert_eq!(bitvec![0, 1].try_resize(usize::MAX, true), Err(Refusal::NoMemory));
    /// ```
    pub fn try_resize(&mut self, len: usize, bit: bool) -> Result<(), Refusal> {
        self.0.resize(len, bit).map_err(no_memory)
    }

    /// Puts the bits of another vector, of any words and order, behind the last, and leaves it none.
    /// Costs by words where the orders are the same, else by bits.
    ///
    /// # Panics
    ///
    /// Panics where there is no memory for them. Both stay then.
    ///
    /// # Examples
    ///
    /// ```
    /// use worghulen::{Msb0, bitvec};
    ///
    /// let (mut bits, mut more) = (bitvec![0, 1], bitvec![u8, Msb0; 1, 0, 0]);
    /// bits.append(&mut more);
    /// assert_eq!((bits.to_string().as_str(), more.len()), ("01100", 0));
    /// ```
    #[track_caller]
    pub fn append<T2: Register, O2: Order>(&mut self, other: &mut BitVec<T2, O2>) {
        had("append", other.len(), self.try_append(other));
    }

    /// As [`append`](Self::append), or why that would panic.
    ///
    /// # Errors
    ///
    /// [`Refusal::NoMemory`] where there is no memory for them. Both stay then.
    ///
    /// # Examples
    ///
    /// ```
    /// use worghulen::bitvec;
    ///
    /// let mut bits = bitvec![0, 1];
    /// bits.try_append(&mut bitvec![1])?;
    /// assert_eq!(bits.to_string(), "011");
    /// # Ok::<(), worghulen::Refusal>(())
    /// ```
    pub fn try_append<T2: Register, O2: Order>(
        &mut self,
        other: &mut BitVec<T2, O2>,
    ) -> Result<(), Refusal> {
        self.0.append(&mut other.0).map_err(no_memory)
    }

    /// Puts bits, of any words and order, behind the last. Costs by words where the orders are the
    /// same, else by bits.
    ///
    /// # Panics
    ///
    /// Panics where there is no memory for them. The bits stay then.
    ///
    /// # Examples
    ///
    /// ```
    /// use worghulen::{bits, bitvec};
    ///
    /// let mut all = bitvec![0, 1];
    /// all.extend_from_bitslice(bits![1; 2]);
    /// assert_eq!(all.to_string(), "0111");
    /// ```
    #[track_caller]
    pub fn extend_from_bitslice(&mut self, bits: impl AsBitSlice) {
        let bits = bits.as_bitslice();
        had(
            "extend_from_bitslice",
            bits.len(),
            self.try_extend_from_bitslice(bits),
        );
    }

    /// As [`extend_from_bitslice`](Self::extend_from_bitslice), or why that would panic.
    ///
    /// # Errors
    ///
    /// [`Refusal::NoMemory`] where there is no memory for them. The bits stay then.
    ///
    /// # Examples
    ///
    /// ```
    /// use worghulen::{bits, bitvec};
    ///
    /// let mut all = bitvec![0, 1];
    /// all.try_extend_from_bitslice(bits![1])?;
    /// assert_eq!(all.len(), 3);
    /// # Ok::<(), worghulen::Refusal>(())
    /// ```
    pub fn try_extend_from_bitslice(&mut self, bits: impl AsBitSlice) -> Result<(), Refusal> {
        self.0
            .extend_from_bitslice(bits.as_bitslice().proved())
            .map_err(no_memory)
    }

    /// Puts all bits of words behind the last. Costs by words.
    ///
    /// # Panics
    ///
    /// Panics where there is no memory for them. The bits stay then.
    ///
    /// # Examples
    ///
    /// ```
    /// use worghulen::{Lsb0, bitvec};
    ///
    /// let mut bits = bitvec![u8, Lsb0; 1];
    /// bits.extend_from_raw_slice(&[0x80]);
    /// assert_eq!(bits.to_string(), "100000001");
    /// ```
    #[track_caller]
    pub fn extend_from_raw_slice(&mut self, words: &[T]) {
        self.extend_from_bitslice(BitSlice::<T, O>::from_slice(words));
    }

    /// Keeps those bits of which a function of index and bit says so, in order. Costs by bits.
    ///
    /// Where the function panics, the bits are those kept so far with those behind them as they then
    /// lie.
    ///
    /// # Examples
    ///
    /// ```
    /// use worghulen::bitvec;
    ///
    /// let mut bits = bitvec![0, 1, 1, 0, 1];
    /// bits.retain(|index, bit| index == 0 || *bit);
    /// assert_eq!(bits.to_string(), "0111");
    /// ```
    pub fn retain(&mut self, mut keeps: impl FnMut(usize, &bool) -> bool) {
        let mut kept = 0;
        for index in 0..self.len() {
            let bit = self[index];
            if keeps(index, &bit) {
                self.set(kept, bit);
                kept += 1;
            }
        }
        self.truncate(kept);
    }

    /// Takes the bits of a range of indices out, and returns them in order, from both ends. They are
    /// out when this returns, whether or not the iterator is asked for them. Costs by words.
    ///
    /// # Panics
    ///
    /// Panics where the range does not lie among the bits, or there is no memory for a copy of
    /// them. The bits stay then.
    ///
    /// # Examples
    ///
    /// ```
    /// use worghulen::bitvec;
    ///
    /// let mut bits = bitvec![0, 1, 1, 0, 1];
    /// assert_eq!(bits.drain(1..4).collect::<Vec<_>>(), [true, true, false]);
    /// assert_eq!(bits.to_string(), "01");
    /// ```
    #[track_caller]
    pub fn drain(&mut self, range: impl RangeBounds<usize>) -> IntoIter<T, O> {
        let bounds = (range.start_bound().cloned(), range.end_bound().cloned());
        match self.try_drain(range) {
            Ok(drained) => drained,
            Err(why) => refused("drain", &bounds, self.len(), why),
        }
    }

    /// As [`drain`](Self::drain), or why that would panic.
    ///
    /// # Errors
    ///
    /// As [`BitSlice::part`], and [`Refusal::NoMemory`]. The bits stay then.
    ///
    /// # Examples
    ///
    /// ```
    /// use worghulen::{Refusal, bitvec};
    ///
    /// let mut bits = bitvec![0, 1];
    /// assert_eq!(bits.try_drain(1..3).err(), Some(Refusal::Outside { index: 3, len: 2 }));
    /// assert_eq!(bits.try_drain(1..)?.next(), Some(true));
    /// # Ok::<(), Refusal>(())
    /// ```
    pub fn try_drain(&mut self, range: impl RangeBounds<usize>) -> Result<IntoIter<T, O>, Refusal> {
        let (from, count) = within(range, self.len())?;
        let taken = Self::try_from_bitslice(self.part(from..from + count)?)?;
        self.try_copy_within(from + count.., from)?;
        self.truncate(self.len() - count);
        Ok(taken.into_iter())
    }

    /// A copy, or that there is no memory for one, where `clone` panics. Costs by words.
    ///
    /// # Errors
    ///
    /// [`Refusal::NoMemory`].
    ///
    /// # Examples
    ///
    /// ```
    /// use worghulen::bitvec;
    ///
    /// let bits = bitvec![0, 1];
    /// assert_eq!(bits.try_clone()?, bits);
    /// # Ok::<(), worghulen::Refusal>(())
    /// ```
    pub fn try_clone(&self) -> Result<Self, Refusal> {
        self.0.try_clone().map(Self).map_err(no_memory)
    }

    /// Puts bits behind the last: one by one up to where a word ends, and then whole words of them.
    #[track_caller]
    fn gather(&mut self, mut bits: impl Iterator<Item = bool>) {
        self.reserve(bits.size_hint().0);
        while !self.len().is_multiple_of(T::BITS) {
            let Some(bit) = bits.next() else {
                return;
            };
            self.push(bit);
        }
        let (mut len, mut full) = (self.len(), Full::of(self));
        loop {
            let (digits, count) = gathered(&mut bits);
            let mut words = [T::ZERO; 8];
            let _ = T::put(&mut words, 0, O::BIG, O::turned(digits, 64));
            full.words
                .extend_from_slice(&words[..count.div_ceil(T::BITS)]);
            len += count;
            if count < 64 {
                break;
            }
        }
        drop(full);
        self.truncate(len);
    }
}

/// The words of a vector whose bits fill them, while std's calls put more behind these. The vector
/// has all of them when this is dropped, so also where an iterator panics.
struct Full<'a, T: Register, O: Order> {
    bits: &'a mut BitVec<T, O>,
    words: Vec<T>,
}

impl<'a, T: Register, O: Order> Full<'a, T, O> {
    /// Those of a vector, which has no bits meanwhile.
    #[inline]
    fn of(bits: &'a mut BitVec<T, O>) -> Self {
        let words = mem::take(bits).into_vec();
        Self { bits, words }
    }
}

impl<T: Register, O: Order> Drop for Full<'_, T, O> {
    /// (No machine has more words than a vector takes.)
    #[inline]
    fn drop(&mut self) {
        *self.bits = BitVec::from_vec(mem::take(&mut self.words));
    }
}

/// The next bits, at most 64, as digits, the first lowest, and how many they are.
#[inline]
fn gathered(bits: &mut impl Iterator<Item = bool>) -> (u64, usize) {
    let mut digits = 0;
    for count in 0..64 {
        let Some(bit) = bits.next() else {
            return (digits, count);
        };
        digits |= u64::from(bit) << count;
    }
    (digits, 64)
}

crate::refusal::or_panics! {
    [T: Register, O: Order] BitVec<T, O>:

    /// Puts a bit before bit `i`, or behind all bits where `i` is the length. Costs by words behind
    /// it.
    ///
    /// # Examples
    ///
    /// ```
    /// use worghulen::bitvec;
    ///
    /// let mut bits = bitvec![0, 0];
    /// bits.insert(1, true);
    /// assert_eq!(bits.to_string(), "010");
    /// ```
    insert by try_insert(i: usize, bit: bool);

    /// Takes bit `i` away and returns it; those behind it move up by one. Costs by words behind it.
    ///
    /// # Examples
    ///
    /// ```
    /// use worghulen::bitvec;
    ///
    /// let mut bits = bitvec![0, 1, 0];
    /// assert!(bits.remove(1));
    /// assert_eq!(bits.to_string(), "00");
    /// ```
    remove by try_remove(i: usize) -> bool;

    /// Takes bit `i` away and returns it, and puts the last bit in its place. Constant time.
    ///
    /// # Examples
    ///
    /// ```
    /// use worghulen::bitvec;
    ///
    /// let mut bits = bitvec![0, 0, 1];
    /// assert!(!bits.swap_remove(0));
    /// assert_eq!(bits.to_string(), "10");
    /// ```
    swap_remove by try_swap_remove(i: usize) -> bool;

    /// Takes the bits from number `at` on away, and returns them as a vector of their own. Costs by
    /// their words.
    ///
    /// # Examples
    ///
    /// ```
    /// use worghulen::bitvec;
    ///
    /// let mut bits = bitvec![0, 1, 1];
    /// assert_eq!(bits.split_off(1).to_string(), "11");
    /// assert_eq!(bits.to_string(), "0");
    /// ```
    #[must_use]
    split_off by try_split_off(at: usize) -> Self;

    /// Makes the length `len`: takes away the bits behind it, or puts copies of `bit` behind the
    /// others. Costs by words.
    ///
    /// # Examples
    ///
    /// ```
    /// use worghulen::bitvec;
    ///
    /// let mut bits = bitvec![0, 1];
    /// bits.resize(4, true);
    /// assert_eq!(bits.to_string(), "0111");
    /// bits.resize(1, true);
    /// assert_eq!(bits.to_string(), "0");
    /// ```
    resize by try_resize(len: usize, bit: bool);
}

/// # Panics
///
/// Panics where there is no memory for a copy, as that of a `Vec` does;
/// [`try_clone`](BitVec::try_clone) does not.
impl<T: Register, O: Order> Clone for BitVec<T, O> {
    fn clone(&self) -> Self {
        Self(self.0.clone())
    }
}

/// No bits.
impl<T: Register, O: Order> Default for BitVec<T, O> {
    fn default() -> Self {
        Self::new()
    }
}

/// Bits behind the last, up to 64 of them by one store. Costs by bits.
///
/// Where the iterator panics, the bits are those that it gave before, at most 64 of these left out.
///
/// # Examples
///
/// ```
/// use worghulen::{Lsb0, bits, bitvec};
///
/// let mut all = bitvec![u8, Lsb0; 1];
/// all.extend([true, false]);
/// all.extend([0x80_u8]);
/// all.extend([bits![1, 1], bits![0]]);
/// all.extend(bits![0, 1].iter());
/// assert_eq!(all.to_string(), "1100000000111001");
/// ```
impl<T: Register, O: Order> Extend<bool> for BitVec<T, O> {
    fn extend<I: IntoIterator<Item = bool>>(&mut self, bits: I) {
        self.gather(bits.into_iter());
    }
}

impl<'a, T: Register, O: Order> Extend<&'a bool> for BitVec<T, O> {
    fn extend<I: IntoIterator<Item = &'a bool>>(&mut self, bits: I) {
        self.gather(bits.into_iter().copied());
    }
}

/// Bits that are lent behind the last, as [`BitSlice::iter`] has them.
impl<'a, T, O, M, T2, O2> Extend<BitRef<'a, M, T2, O2>> for BitVec<T, O>
where
    T: Register,
    O: Order,
    M: Mutability,
    T2: Register,
    O2: Order,
{
    fn extend<I: IntoIterator<Item = BitRef<'a, M, T2, O2>>>(&mut self, bits: I) {
        self.gather(bits.into_iter().map(bool::from));
    }
}

/// All bits of words behind the last: by `extend` of a `Vec` where the last bit ends a word, else up
/// to 64 words by one call. Costs by words.
///
/// Where the iterator panics, the bits are those of words that it gave before, at most 64 of these
/// left out.
impl<T: Register, O: Order> Extend<T> for BitVec<T, O> {
    fn extend<I: IntoIterator<Item = T>>(&mut self, words: I) {
        if self.len().is_multiple_of(T::BITS) {
            Full::of(self).words.extend(words);
            return;
        }
        let mut words = words.into_iter();
        loop {
            // (some at a time, since each call has a cost of its own)
            let (mut block, mut count) = ([T::ZERO; 64], 0);
            for (to, word) in block.iter_mut().zip(&mut words) {
                *to = word;
                count += 1;
            }
            self.extend_from_raw_slice(&block[..count]);
            if count < block.len() {
                return;
            }
        }
    }
}

/// The bits of slices behind the last.
impl<'a, T: Register, O: Order, T2: Register, O2: Order> Extend<BitSlice<'a, T2, O2>>
    for BitVec<T, O>
{
    fn extend<I: IntoIterator<Item = BitSlice<'a, T2, O2>>>(&mut self, slices: I) {
        for slice in slices {
            self.extend_from_bitslice(slice);
        }
    }
}

/// Makes a vector of what one can be extended by.
///
/// # Examples
///
/// ```
/// use worghulen::{BitVec, Lsb0};
///
/// let bits: BitVec<u8, Lsb0> = (0..10).map(|i| i % 3 == 0).collect();
/// assert_eq!(bits.to_string(), "1001001001");
/// ```
impl<T: Register, O: Order> FromIterator<bool> for BitVec<T, O> {
    fn from_iter<I: IntoIterator<Item = bool>>(bits: I) -> Self {
        let mut all = Self::new();
        all.extend(bits);
        all
    }
}

impl<'a, T: Register, O: Order> FromIterator<&'a bool> for BitVec<T, O> {
    fn from_iter<I: IntoIterator<Item = &'a bool>>(bits: I) -> Self {
        bits.into_iter().copied().collect()
    }
}

impl<'a, T, O, M, T2, O2> FromIterator<BitRef<'a, M, T2, O2>> for BitVec<T, O>
where
    T: Register,
    O: Order,
    M: Mutability,
    T2: Register,
    O2: Order,
{
    fn from_iter<I: IntoIterator<Item = BitRef<'a, M, T2, O2>>>(bits: I) -> Self {
        bits.into_iter().map(bool::from).collect()
    }
}

impl<T: Register, O: Order> FromIterator<T> for BitVec<T, O> {
    fn from_iter<I: IntoIterator<Item = T>>(words: I) -> Self {
        Self::from_vec(words.into_iter().collect())
    }
}

impl<'a, T: Register, O: Order, T2: Register, O2: Order> FromIterator<BitSlice<'a, T2, O2>>
    for BitVec<T, O>
{
    fn from_iter<I: IntoIterator<Item = BitSlice<'a, T2, O2>>>(slices: I) -> Self {
        let mut all = Self::new();
        all.extend(slices);
        all
    }
}

/// Reads what `Display` writes: a text of zeros and ones. Costs by characters.
///
/// # Examples
///
/// ```
/// use worghulen::{BitVec, Lsb0, Refusal};
///
/// let bits: BitVec<u8, Lsb0> = "0110".parse()?;
/// assert_eq!(bits.to_string(), "0110");
/// assert_eq!("01x".parse::<BitVec>().err(), Some(Refusal::NotADigit(2)));
/// # Ok::<(), Refusal>(())
/// ```
impl<T: Register, O: Order> FromStr for BitVec<T, O> {
    type Err = Refusal;

    /// # Errors
    ///
    /// [`Refusal::NotADigit`] where another character stands there, else [`Refusal::NoMemory`].
    fn from_str(text: &str) -> Result<Self, Refusal> {
        match Proved::<T, O>::from_text(Global, text) {
            Ok(bits) => Ok(Self(bits)),
            Err(vec::FromTextError::NotADigit(at)) => Err(Refusal::NotADigit(at)),
            Err(vec::FromTextError::NoMemory) => Err(Refusal::NoMemory),
        }
    }
}

impl<T: Register, O: Order, T2: Register, O2: Order> From<BitSlice<'_, T2, O2>> for BitVec<T, O> {
    fn from(bits: BitSlice<'_, T2, O2>) -> Self {
        Self::from_bitslice(bits)
    }
}

impl<T: Register, O: Order> From<BitVec<T, O>> for Vec<T> {
    fn from(bits: BitVec<T, O>) -> Self {
        bits.into_vec()
    }
}

impl<T: Register, O: Order> TryFrom<Vec<T>> for BitVec<T, O> {
    type Error = Vec<T>;

    fn try_from(words: Vec<T>) -> Result<Self, Vec<T>> {
        Self::try_from_vec(words)
    }
}

impl<T: Register, O: Order> BitSlice<'_, T, O> {
    /// A copy of the bits in memory of its own, of the same words and order. Costs by words.
    ///
    /// # Panics
    ///
    /// Panics where there is no memory for them.
    ///
    /// # Examples
    ///
    /// ```
    /// use worghulen::{BitView, Lsb0};
    ///
    /// let words = [0x0f_u8];
    /// let mut copy = words.view_bits::<Lsb0>().get(2..).unwrap().to_bitvec();
    /// copy.push(true);
    /// assert_eq!(copy.to_string(), "1100001");
    /// ```
    #[must_use]
    #[track_caller]
    pub fn to_bitvec(&self) -> BitVec<T, O> {
        BitVec::from_bitslice(self)
    }
}

/// The bits of a vector that is used up: what [`BitVec::drain`] and `into_iter` return.
///
/// # Examples
///
/// ```
/// use worghulen::bitvec;
///
/// let mut bits = bitvec![0, 1, 1].into_iter();
/// assert_eq!((bits.next_back(), bits.next(), bits.len()), (Some(true), Some(false), 1));
/// ```
#[derive(Clone, Debug)]
#[must_use = "iterators are lazy and do nothing unless consumed"]
pub struct IntoIter<T: Register = usize, O: Order = Lsb0> {
    bits: BitVec<T, O>,
    left: Range<usize>,
}

impl<T: Register, O: Order> IntoIterator for BitVec<T, O> {
    type Item = bool;
    type IntoIter = IntoIter<T, O>;

    fn into_iter(self) -> IntoIter<T, O> {
        let left = 0..self.len();
        IntoIter { bits: self, left }
    }
}

impl<T: Register, O: Order> Iterator for IntoIter<T, O> {
    type Item = bool;

    #[inline]
    fn next(&mut self) -> Option<bool> {
        self.bits.as_bitslice().bit(self.left.next()?)
    }

    fn size_hint(&self) -> (usize, Option<usize>) {
        self.left.size_hint()
    }

    fn nth(&mut self, n: usize) -> Option<bool> {
        self.bits.as_bitslice().bit(self.left.nth(n)?)
    }
}

impl<T: Register, O: Order> DoubleEndedIterator for IntoIter<T, O> {
    #[inline]
    fn next_back(&mut self) -> Option<bool> {
        self.bits.as_bitslice().bit(self.left.next_back()?)
    }
}

impl<T: Register, O: Order> ExactSizeIterator for IntoIter<T, O> {}

impl<T: Register, O: Order> FusedIterator for IntoIter<T, O> {}
