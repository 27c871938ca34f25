//! The bits of a slice in order, and the indices of those that are one or zero.

use crate::order::Order;
use crate::proxy::{BitRef, Const};
use crate::register::Register;
use crate::slice::{BitSlice, granted};
use crate::slice_mut::BitSliceMut;
use crate::sys::Exports;
use core::iter::{FusedIterator, Map};

/// Bits that were read and are still to be handed out: as digits, the first lowest.
#[derive(Clone, Copy, Debug, Default)]
struct Held {
    digits: u64,
    len: usize,
}

impl Held {
    #[inline]
    fn first(&mut self) -> Option<bool> {
        self.len = self.len.checked_sub(1)?;
        let bit = self.digits & 1 == 1;
        self.digits >>= 1;
        Some(bit)
    }

    #[inline]
    fn last(&mut self) -> Option<bool> {
        self.len = self.len.checked_sub(1)?;
        Some(self.digits >> self.len & 1 == 1)
    }

    /// Drops the first, at most as many as there are.
    #[inline]
    fn drop_first(&mut self, count: usize) {
        self.len -= count;
        self.digits = if self.len == 0 {
            0
        } else {
            self.digits >> count
        };
    }
}

/// The bits of a [`BitSlice`] in order, each lent to be read: what [`BitSlice::iter`] returns. It reads
/// up to 64 bits at a time, and up to 1024 where all that are left are asked for in one call, as by
/// `for_each`.
///
/// # Examples
///
/// ```
/// use worghulen::{BitView, Lsb0};
///
/// let words = [0b0000_1101_u8];
/// let bits = words.view_bits::<Lsb0>();
/// assert_eq!(bits.iter().map(|bit| *bit).take(3).collect::<Vec<_>>(), [true, false, true]);
/// assert_eq!(bits.iter().rev().position(|bit| *bit), Some(4));
/// ```
#[derive(Clone, Debug)]
#[must_use = "iterators are lazy and do nothing unless consumed"]
pub struct Iter<'a, T: Register, O: Order>(BitValIter<'a, T, O>);

impl<'a, T: Register, O: Order> Iter<'a, T, O> {
    /// The same bits, each a `bool`. As fast.
    ///
    /// # Examples
    ///
    /// ```
    /// use worghulen::bits;
    ///
    /// assert_eq!(bits![0, 1].iter().by_vals().collect::<Vec<_>>(), [false, true]);
    /// ```
    #[inline]
    pub fn by_vals(self) -> BitValIter<'a, T, O> {
        self.0
    }

    /// The same bits, each a `&bool`. Constant time.
    ///
    /// # Examples
    ///
    /// ```
    /// use worghulen::bits;
    ///
    /// assert_eq!(bits![0, 1].iter().by_refs().collect::<Vec<_>>(), [&false, &true]);
    /// ```
    #[inline]
    pub fn by_refs(self) -> BitRefIter<'a, T, O> {
        self.0.map(|bit| if bit { &true } else { &false })
    }
}

impl<'a, T: Register, O: Order> Iterator for Iter<'a, T, O> {
    type Item = BitRef<'a, Const, T, O>;

    #[inline]
    fn next(&mut self) -> Option<Self::Item> {
        self.0.next().map(BitRef::from)
    }

    #[inline]
    fn size_hint(&self) -> (usize, Option<usize>) {
        self.0.size_hint()
    }

    fn count(self) -> usize {
        self.len()
    }

    fn last(mut self) -> Option<Self::Item> {
        self.next_back()
    }

    fn nth(&mut self, n: usize) -> Option<Self::Item> {
        self.0.nth(n).map(BitRef::from)
    }

    #[inline]
    fn fold<B, F: FnMut(B, Self::Item) -> B>(self, init: B, mut f: F) -> B {
        self.0.fold(init, |acc, bit| f(acc, bit.into()))
    }
}

impl<T: Register, O: Order> DoubleEndedIterator for Iter<'_, T, O> {
    #[inline]
    fn next_back(&mut self) -> Option<Self::Item> {
        self.0.next_back().map(BitRef::from)
    }

    fn nth_back(&mut self, n: usize) -> Option<Self::Item> {
        self.0.nth_back(n).map(BitRef::from)
    }
}

impl<T: Register, O: Order> ExactSizeIterator for Iter<'_, T, O> {}

impl<T: Register, O: Order> FusedIterator for Iter<'_, T, O> {}

/// The bits of a [`BitSlice`] in order, each a `&bool`: what [`Iter::by_refs`] returns.
///
/// # Examples
///
/// ```
/// use worghulen::bits;
///
/// assert!(bits![1, 1].iter().by_refs().all(|bit| *bit));
/// ```
pub type BitRefIter<'a, T, O> = Map<BitValIter<'a, T, O>, fn(bool) -> &'a bool>;

/// The bits of a [`BitSlice`] in order, each a `bool`: what [`Iter::by_vals`] returns.
///
/// # Examples
///
/// ```
/// use worghulen::{BitView, Lsb0};
///
/// let words = [0b0000_1101_u8];
/// let bits = words.view_bits::<Lsb0>().iter().by_vals();
/// assert_eq!(bits.take(4).collect::<Vec<_>>(), [true, false, true, true]);
/// ```
#[derive(Clone, Debug)]
#[must_use = "iterators are lazy and do nothing unless consumed"]
pub struct BitValIter<'a, T: Register, O: Order> {
    front: Held,
    /// The bits that are not read yet.
    bits: BitSlice<'a, T, O>,
    back: Held,
}

impl<'a, T: Register, O: Order> BitValIter<'a, T, O> {
    fn new(bits: BitSlice<'a, T, O>) -> Self {
        Self {
            front: Held::default(),
            bits,
            back: Held::default(),
        }
    }
}

/// The first bits, which lie in one word of 64 bits, and those behind them; there are some. (What
/// an iterator holds is handed over by value, so that it can stay in registers.)
#[cold]
#[inline(never)]
fn read_first<T: Register, O: Order>(bits: BitSlice<'_, T, O>) -> (Held, BitSlice<'_, T, O>) {
    let len = bits.ahead(0);
    let digits = bits.window(0, len);
    (Held { digits, len }, bits.rest(len))
}

/// The last bits, which lie in one word of 64 bits, and those before them; there are some.
#[cold]
#[inline(never)]
fn read_last<T: Register, O: Order>(bits: BitSlice<'_, T, O>) -> (Held, BitSlice<'_, T, O>) {
    let from = before(&bits);
    let len = bits.len() - from;
    let digits = bits.window(from, len);
    (Held { digits, len }, bits.start(from))
}

/// From which index on the last bits lie in one word of 64 bits; there are some.
#[inline]
fn before<T: Register, O: Order>(bits: &BitSlice<'_, T, O>) -> usize {
    let (_, start) = bits.place();
    let last = start + bits.len() - 1;
    (last - last % 64).saturating_sub(start)
}

/// As many words as are read in one call where every bit is to be seen.
const BLOCK: usize = 16;

/// Bits that were read in one call, at most as many as `BLOCK` words of 64 have.
struct Block {
    /// As digits, the first bit lowest in the first word.
    digits: [u64; BLOCK],
    /// The index of the first, and how many they are.
    from: usize,
    len: usize,
}

impl Block {
    /// The bits with an index from `from` to before `to`, there are some, to where the word of 64
    /// bits ends in which the first lies and as many more words as make `BLOCK`.
    #[inline]
    fn read<T: Register, O: Order>(bits: BitSlice<'_, T, O>, from: usize, to: usize) -> Self {
        let len = (bits.ahead(from) + 64 * (BLOCK - 1)).min(to - from);
        let mut digits = [0; BLOCK];
        if len <= 64 {
            digits[0] = bits.window(from, len);
        } else {
            let (_, start) = bits.place();
            let target = (&mut digits[..], 0);
            granted(u64::convert(
                O::CODE,
                &bits.seen(),
                start + from,
                O::CODE,
                target,
                len,
            ));
            digits = digits.map(|word| O::turned(word, 64));
        }
        Self { digits, from, len }
    }

    /// The index behind them.
    #[inline]
    fn behind(&self) -> usize {
        self.from + self.len
    }

    /// The digits of each word, and the index of the first.
    #[inline]
    fn words(&self) -> impl Iterator<Item = (u64, usize)> {
        let starts = (self.from..self.behind()).step_by(64);
        self.digits.iter().copied().zip(starts)
    }
}

impl<T: Register, O: Order> Iterator for BitValIter<'_, T, O> {
    type Item = bool;

    #[inline]
    fn next(&mut self) -> Option<bool> {
        if self.front.len == 0 {
            if self.bits.is_empty() {
                return self.back.first();
            }
            (self.front, self.bits) = read_first(self.bits);
        }
        self.front.first()
    }

    #[inline]
    fn size_hint(&self) -> (usize, Option<usize>) {
        let left = self.front.len + self.bits.len() + self.back.len;
        (left, Some(left))
    }

    fn count(self) -> usize {
        self.len()
    }

    fn last(mut self) -> Option<bool> {
        self.next_back()
    }

    fn nth(&mut self, n: usize) -> Option<bool> {
        let here = n.min(self.front.len);
        self.front.drop_first(here);
        let ahead = (n - here).min(self.bits.len());
        self.bits = self.bits.rest(ahead);
        let behind = (n - here - ahead).min(self.back.len);
        self.back.drop_first(behind);
        self.next()
    }

    fn fold<B, F: FnMut(B, bool) -> B>(self, init: B, mut f: F) -> B {
        let mut held = |acc, mut held: Held| {
            let mut acc = acc;
            while let Some(bit) = held.first() {
                acc = f(acc, bit);
            }
            acc
        };
        let mut acc = held(init, self.front);
        let mut from = 0;
        while from < self.bits.len() {
            let block = Block::read(self.bits, from, self.bits.len());
            for (digits, at) in block.words() {
                let len = (block.behind() - at).min(64);
                acc = held(acc, Held { digits, len });
            }
            from = block.behind();
        }
        held(acc, self.back)
    }
}

impl<T: Register, O: Order> DoubleEndedIterator for BitValIter<'_, T, O> {
    #[inline]
    fn next_back(&mut self) -> Option<bool> {
        if self.back.len == 0 {
            if self.bits.is_empty() {
                return self.front.last();
            }
            (self.back, self.bits) = read_last(self.bits);
        }
        self.back.last()
    }

    fn nth_back(&mut self, n: usize) -> Option<bool> {
        let here = n.min(self.back.len);
        self.back.len -= here;
        let before = (n - here).min(self.bits.len());
        self.bits = self.bits.start(self.bits.len() - before);
        let behind = (n - here - before).min(self.front.len);
        self.front.len -= behind;
        self.next_back()
    }
}

impl<T: Register, O: Order> ExactSizeIterator for BitValIter<'_, T, O> {}

impl<T: Register, O: Order> FusedIterator for BitValIter<'_, T, O> {}

/// The indices of the bits that are one, or zero where `FLIP`.
#[derive(Clone, Debug)]
struct Indices<'a, T: Register, O: Order, const FLIP: bool> {
    bits: BitSlice<'a, T, O>,
    /// The indices of what is not read yet.
    from: usize,
    to: usize,
    /// What was read at either end and is not handed out yet, and the index of its first digit.
    front: (u64, usize),
    back: (u64, usize),
}

impl<'a, T: Register, O: Order, const FLIP: bool> Indices<'a, T, O, FLIP> {
    fn new(bits: BitSlice<'a, T, O>) -> Self {
        Self {
            bits,
            from: 0,
            to: bits.len(),
            front: (0, 0),
            back: (0, 0),
        }
    }

    #[inline]
    fn next(&mut self) -> Option<usize> {
        if self.front.0 == 0 {
            if self.from < self.to {
                (self.front, self.from) = ahead::<T, O, FLIP>(self.bits, self.from, self.to);
            }
            if self.front.0 == 0 {
                return take_first(&mut self.back);
            }
        }
        take_first(&mut self.front)
    }

    #[inline]
    fn next_back(&mut self) -> Option<usize> {
        if self.back.0 == 0 {
            if self.from < self.to {
                (self.back, self.to) = behind::<T, O, FLIP>(self.bits, self.from, self.to);
            }
            if self.back.0 == 0 {
                return take_last(&mut self.front);
            }
        }
        take_last(&mut self.back)
    }

    /// By words, of which the indices are counted.
    fn nth(&mut self, n: usize) -> Option<usize> {
        let mut left = drop_first(&mut self.front, n);
        while left > 0 && self.from < self.to {
            (self.front, self.from) = ahead::<T, O, FLIP>(self.bits, self.from, self.to);
            left = drop_first(&mut self.front, left);
        }
        drop_first(&mut self.back, left);
        self.next()
    }

    fn nth_back(&mut self, n: usize) -> Option<usize> {
        let mut left = drop_last(&mut self.back, n);
        while left > 0 && self.from < self.to {
            (self.back, self.to) = behind::<T, O, FLIP>(self.bits, self.from, self.to);
            left = drop_last(&mut self.back, left);
        }
        drop_last(&mut self.front, left);
        self.next_back()
    }

    fn fold<B, F: FnMut(B, usize) -> B>(self, init: B, mut f: F) -> B {
        let mut each = |acc, mut held: (u64, usize)| {
            let mut acc = acc;
            while let Some(index) = take_first(&mut held) {
                acc = f(acc, index);
            }
            acc
        };
        let mut acc = each(init, self.front);
        let (bits, mut at) = (self.bits.start(self.to), self.from);
        loop {
            // (64 bits at a time where these are whole words, else up to where one begins)
            let mut whole = bits.whole_from(at);
            while let Some((digits, behind)) = T::split_joined(whole, O::BIG) {
                let digits = looked_for::<FLIP>(digits, 64);
                if digits != 0 {
                    acc = each(acc, (O::turned(digits, 64), at));
                }
                (whole, at) = (behind, at + 64);
            }
            if at == self.to {
                return each(acc, self.back);
            }
            let count = bits.ahead(at);
            acc = each(acc, (sought::<T, O, FLIP>(&bits, at, count), at));
            at += count;
        }
    }

    fn size_hint(&self) -> (usize, Option<usize>) {
        let held = self.front.0.count_ones() as usize + self.back.0.count_ones() as usize;
        (held, Some(held + (self.to - self.from)))
    }

    /// How many are left.
    fn count(self) -> usize {
        let held = self.front.0.count_ones() as usize + self.back.0.count_ones() as usize;
        let (words, start) = self.bits.place();
        let unread = BitSlice::<T, O>::of(words, start + self.from, self.to - self.from);
        held + if FLIP {
            unread.count_zeros()
        } else {
            unread.count_ones()
        }
    }
}

/// The bits from an index on, as digits that are one where they are looked for.
#[inline]
fn sought<T: Register, O: Order, const FLIP: bool>(
    bits: &BitSlice<'_, T, O>,
    from: usize,
    count: usize,
) -> u64 {
    looked_for::<FLIP>(bits.window(from, count), count)
}

/// The lowest `count` digits, some and at most 64, or those that are zero where `FLIP`.
#[inline]
fn looked_for<const FLIP: bool>(digits: u64, count: usize) -> u64 {
    if FLIP {
        !digits & (!0 >> (64 - count))
    } else {
        digits
    }
}

/// The next digits with an index from `from` to before `to`, or the last, with the index of the
/// first of them, and the index behind them.
#[cold]
#[inline(never)]
fn ahead<T: Register, O: Order, const FLIP: bool>(
    bits: BitSlice<'_, T, O>,
    mut from: usize,
    to: usize,
) -> ((u64, usize), usize) {
    loop {
        let count = bits.ahead(from).min(to - from);
        let digits = sought::<T, O, FLIP>(&bits, from, count);
        let behind = from + count;
        if digits != 0 || behind == to {
            return ((digits, from), behind);
        }
        from = behind + passed::<T, O, FLIP>(&bits, behind, to - behind);
        if from == to {
            return ((0, from), from);
        }
    }
}

/// How many bits from an index on are none that is looked for, at most `count`.
#[inline]
fn passed<T: Register, O: Order, const FLIP: bool>(
    bits: &BitSlice<'_, T, O>,
    from: usize,
    count: usize,
) -> usize {
    let (words, start) = bits.place();
    granted(T::first(O::CODE, words, start + from, count, !FLIP))
}

/// The last digits with an index from `from` to before `to`, or the first, with the index of the
/// first of them, and that index.
#[cold]
#[inline(never)]
fn behind<T: Register, O: Order, const FLIP: bool>(
    bits: BitSlice<'_, T, O>,
    from: usize,
    mut to: usize,
) -> ((u64, usize), usize) {
    loop {
        let start = before(&bits.start(to)).max(from);
        let digits = sought::<T, O, FLIP>(&bits, start, to - start);
        if digits != 0 || start == from {
            return ((digits, start), start);
        }
        to = start;
    }
}

/// Takes the lowest digit that is one, and returns its index.
#[inline]
fn take_first((digits, at): &mut (u64, usize)) -> Option<usize> {
    if *digits == 0 {
        return None;
    }
    let digit = digits.trailing_zeros() as usize;
    *digits &= *digits - 1;
    Some(*at + digit)
}

/// Drops `count` of the lowest digits that are one, and returns how many of so many there are not.
fn drop_first((digits, _): &mut (u64, usize), count: usize) -> usize {
    let ones = digits.count_ones() as usize;
    (0..count.min(ones)).for_each(|_| *digits &= *digits - 1);
    count.saturating_sub(ones)
}

/// Drops the highest so.
fn drop_last((digits, _): &mut (u64, usize), count: usize) -> usize {
    let ones = digits.count_ones() as usize;
    (0..count.min(ones)).for_each(|_| *digits &= !(1 << digits.ilog2()));
    count.saturating_sub(ones)
}

/// Takes the highest digit that is one, and returns its index.
#[inline]
fn take_last((digits, at): &mut (u64, usize)) -> Option<usize> {
    if *digits == 0 {
        return None;
    }
    let digit = digits.ilog2() as usize;
    *digits &= !(1 << digit);
    Some(*at + digit)
}

macro_rules! indices {
    ($($(#[$doc:meta])* $name:ident $flip:literal;)*) => { $(
        $(#[$doc])*
        #[derive(Clone, Debug)]
        #[must_use = "iterators are lazy and do nothing unless consumed"]
        pub struct $name<'a, T: Register, O: Order>(Indices<'a, T, O, $flip>);

        impl<T: Register, O: Order> Iterator for $name<'_, T, O> {
            type Item = usize;

            #[inline]
            fn next(&mut self) -> Option<usize> {
                self.0.next()
            }

            fn size_hint(&self) -> (usize, Option<usize>) {
                self.0.size_hint()
            }

            fn nth(&mut self, n: usize) -> Option<usize> {
                self.0.nth(n)
            }

            fn count(self) -> usize {
                self.0.count()
            }

            fn fold<B, F: FnMut(B, usize) -> B>(self, init: B, f: F) -> B {
                self.0.fold(init, f)
            }

            fn last(mut self) -> Option<usize> {
                self.next_back()
            }
        }

        impl<T: Register, O: Order> DoubleEndedIterator for $name<'_, T, O> {
            #[inline]
            fn next_back(&mut self) -> Option<usize> {
                self.0.next_back()
            }

            fn nth_back(&mut self, n: usize) -> Option<usize> {
                self.0.nth_back(n)
            }
        }

        impl<T: Register, O: Order> FusedIterator for $name<'_, T, O> {}
    )* };
}

indices! {
    /// The indices of the ones of a [`BitSlice`], in order: what [`BitSlice::iter_ones`] returns.
    ///
    /// # Examples
    ///
    /// ```
    /// use worghulen::{BitView, Lsb0};
    ///
    /// let words = [0x90_u8];
    /// let mut ones = words.view_bits::<Lsb0>().iter_ones();
    /// assert_eq!((ones.next(), ones.next(), ones.next()), (Some(4), Some(7), None));
    /// ```
    Ones false;
    /// The indices of the zeros of a [`BitSlice`], in order: what [`BitSlice::iter_zeros`] returns.
    ///
    /// # Examples
    ///
    /// ```
    /// use worghulen::{BitView, Lsb0};
    ///
    /// let words = [0x6f_u8];
    /// let mut zeros = words.view_bits::<Lsb0>().iter_zeros();
    /// assert_eq!((zeros.next_back(), zeros.next(), zeros.next()), (Some(7), Some(4), None));
    /// ```
    Zeros true;
}

/// Parts of a slice, each of as many bits, but for the last: what [`BitSlice::chunks`] returns.
///
/// # Examples
///
/// ```
/// use worghulen::{BitView, Msb0};
///
/// let bytes = [0x12_u8, 0x34];
/// let digits = bytes.view_bits::<Msb0>().chunks(4).map(|it| it.load_be::<u8>());
/// assert_eq!(digits.collect::<Vec<_>>(), [1, 2, 3, 4]);
/// ```
#[derive(Clone, Debug)]
#[must_use = "iterators are lazy and do nothing unless consumed"]
pub struct Chunks<'a, T: Register, O: Order> {
    bits: BitSlice<'a, T, O>,
    size: usize,
}

impl<'a, T: Register, O: Order> Iterator for Chunks<'a, T, O> {
    type Item = BitSlice<'a, T, O>;

    #[inline]
    fn next(&mut self) -> Option<Self::Item> {
        if self.bits.is_empty() {
            return None;
        }
        let (chunk, rest) = self.bits.split_at(self.size.min(self.bits.len()));
        self.bits = rest;
        Some(chunk)
    }

    fn size_hint(&self) -> (usize, Option<usize>) {
        let left = self.bits.len().div_ceil(self.size);
        (left, Some(left))
    }

    fn count(self) -> usize {
        self.len()
    }

    fn nth(&mut self, n: usize) -> Option<Self::Item> {
        let passed = n.saturating_mul(self.size).min(self.bits.len());
        self.bits = self.bits.rest(passed);
        self.next()
    }

    fn last(mut self) -> Option<Self::Item> {
        self.next_back()
    }
}

impl<T: Register, O: Order> DoubleEndedIterator for Chunks<'_, T, O> {
    fn next_back(&mut self) -> Option<Self::Item> {
        let last = self.bits.len().checked_sub(1)?;
        let (rest, chunk) = self.bits.split_at(last - last % self.size);
        self.bits = rest;
        Some(chunk)
    }
}

impl<T: Register, O: Order> ExactSizeIterator for Chunks<'_, T, O> {}

impl<T: Register, O: Order> FusedIterator for Chunks<'_, T, O> {}

impl<'a, T: Register, O: Order> BitSlice<'a, T, O> {
    /// The bits in order, each lent to be read by a [`BitRef`]; [`by_vals`](Iter::by_vals) makes
    /// `bool`s of them. Constant time, and then by bits: it reads up to 64 of them by one call, and
    /// up to 1024 where all that are left are asked for at once.
    ///
    /// # Examples
    ///
    /// ```
    /// use worghulen::{BitView, Msb0};
    ///
    /// let words = [0b1101_0000_u8];
    /// let bits = words.view_bits::<Msb0>();
    /// let mut ones = 0;
    /// for bit in bits.iter() {
    ///     if *bit {
    ///         ones += 1;
    ///     }
    /// }
    /// assert_eq!((ones, bits.iter().by_vals().next_back()), (3, Some(false)));
    /// ```
    pub fn iter(&self) -> Iter<'a, T, O> {
        Iter(BitValIter::new(*self))
    }

    /// The indices of the bits that are one, counted from 0, in rising order. Costs by words, and
    /// by what it finds.
    ///
    /// # Examples
    ///
    /// ```
    /// use worghulen::{BitSlice, Lsb0};
    ///
    /// let bits = BitSlice::<_, Lsb0>::new(&[0b1010_0100_u8], 1..)?;
    /// assert_eq!(bits.iter_ones().collect::<Vec<_>>(), [1, 4, 6]);
    /// assert_eq!(bits.iter_ones().rev().next(), Some(6));
    /// # Ok::<(), worghulen::Refusal>(())
    /// ```
    pub fn iter_ones(&self) -> Ones<'a, T, O> {
        Ones(Indices::new(*self))
    }

    /// The indices of the bits that are zero, counted from 0, in rising order. Costs by words, and
    /// by what it finds.
    ///
    /// # Examples
    ///
    /// ```
    /// use worghulen::{BitSlice, Lsb0};
    ///
    /// let bits = BitSlice::<_, Lsb0>::new(&[0b1010_0111_u8], 1..)?;
    /// assert_eq!(bits.iter_zeros().collect::<Vec<_>>(), [2, 3, 5]);
    /// # Ok::<(), worghulen::Refusal>(())
    /// ```
    pub fn iter_zeros(&self) -> Zeros<'a, T, O> {
        Zeros(Indices::new(*self))
    }

    /// The bits in parts of `size` bits, the last of what is left. Constant time a part.
    ///
    /// # Panics
    ///
    /// Panics where `size` is 0.
    ///
    /// # Examples
    ///
    /// ```
    /// use worghulen::{BitView, Lsb0};
    ///
    /// let words = [0xf0_u8];
    /// let counts = words.view_bits::<Lsb0>().chunks(3).map(|chunk| chunk.count_ones());
    /// assert_eq!(counts.collect::<Vec<_>>(), [0, 2, 2]);
    /// ```
    #[track_caller]
    pub fn chunks(&self, size: usize) -> Chunks<'a, T, O> {
        assert!(size != 0, "a chunk has no bits");
        Chunks { bits: *self, size }
    }
}

/// As [`BitSlice::iter`].
///
/// # Examples
///
/// ```
/// use worghulen::{BitView, Lsb0};
///
/// let words = [0b0000_1101_u8];
/// let mut ones = 0;
/// for bit in words.view_bits::<Lsb0>() {
///     ones += u32::from(*bit);
/// }
/// assert_eq!(ones, 3);
/// ```
impl<'a, T: Register, O: Order> IntoIterator for BitSlice<'a, T, O> {
    type Item = BitRef<'a, Const, T, O>;
    type IntoIter = Iter<'a, T, O>;

    fn into_iter(self) -> Iter<'a, T, O> {
        self.iter()
    }
}

impl<'a, T: Register, O: Order> IntoIterator for &BitSlice<'a, T, O> {
    type Item = BitRef<'a, Const, T, O>;
    type IntoIter = Iter<'a, T, O>;

    fn into_iter(self) -> Iter<'a, T, O> {
        self.iter()
    }
}

impl<'a, T: Register, O: Order> IntoIterator for &'a BitSliceMut<'_, T, O> {
    type Item = BitRef<'a, Const, T, O>;
    type IntoIter = Iter<'a, T, O>;

    fn into_iter(self) -> Iter<'a, T, O> {
        self.iter()
    }
}
