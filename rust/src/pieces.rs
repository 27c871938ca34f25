//! Pieces of a slice, of equal lengths or between cuts, and where another stands in it.

use crate::order::Order;
use crate::own::AsBitSlice;
use crate::register::Register;
use crate::slice::BitSlice;
use core::iter::FusedIterator;
use core::ops::Range;

macro_rules! pieces {
    ($(
        $(#[$doc:meta])*
        $name:ident: $bits:ident, $size:ident, $i:ident => $count:expr, $range:expr;
    )*) => { $(
        $(#[$doc])*
        #[derive(Clone, Debug)]
        #[must_use = "iterators are lazy and do nothing unless consumed"]
        pub struct $name<'a, T: Register, O: Order> {
            bits: BitSlice<'a, T, O>,
            size: usize,
            left: Range<usize>,
        }

        impl<'a, T: Register, O: Order> $name<'a, T, O> {
            #[track_caller]
            fn new($bits: BitSlice<'a, T, O>, $size: usize) -> Self {
                assert!($size != 0, "a piece has no bits");
                Self { bits: $bits, size: $size, left: 0..$count }
            }

            #[inline]
            fn piece(&self, $i: usize) -> BitSlice<'a, T, O> {
                let ($bits, $size) = (self.bits, self.size);
                let range: Range<usize> = $range;
                $bits.start(range.end).rest(range.start)
            }
        }

        impl<'a, T: Register, O: Order> Iterator for $name<'a, T, O> {
            type Item = BitSlice<'a, T, O>;

            #[inline]
            fn next(&mut self) -> Option<Self::Item> {
                self.left.next().map(|i| self.piece(i))
            }

            #[inline]
            fn size_hint(&self) -> (usize, Option<usize>) {
                self.left.size_hint()
            }

            fn count(self) -> usize {
                self.left.len()
            }

            fn nth(&mut self, n: usize) -> Option<Self::Item> {
                self.left.nth(n).map(|i| self.piece(i))
            }

            fn last(mut self) -> Option<Self::Item> {
                self.next_back()
            }
        }

        impl<T: Register, O: Order> DoubleEndedIterator for $name<'_, T, O> {
            fn next_back(&mut self) -> Option<Self::Item> {
                self.left.next_back().map(|i| self.piece(i))
            }

            fn nth_back(&mut self, n: usize) -> Option<Self::Item> {
                self.left.nth_back(n).map(|i| self.piece(i))
            }
        }

        impl<T: Register, O: Order> ExactSizeIterator for $name<'_, T, O> {}

        impl<T: Register, O: Order> FusedIterator for $name<'_, T, O> {}
    )* };
}

pieces! {
    /// Every part of `size` bits in a row: what [`BitSlice::windows`] returns.
    ///
    /// # Examples
    ///
    /// ```
    /// use worghulen::bits;
    ///
    /// let mut windows = bits![0, 1, 1].windows(2);
    /// assert_eq!((windows.len(), windows.next_back()), (2, Some(bits![1, 1])));
    /// ```
    Windows: bits, size, i => (bits.len() + 1).saturating_sub(size), i..i + size;

    /// Parts of `size` bits each, without what is left behind: what [`BitSlice::chunks_exact`]
    /// returns.
    ///
    /// # Examples
    ///
    /// ```
    /// use worghulen::bits;
    ///
    /// assert_eq!(bits![0, 1, 1].chunks_exact(2).len(), 1);
    /// ```
    ChunksExact: bits, size, i => bits.len() / size, i * size..i * size + size;

    /// Parts of `size` bits each from the end on, the last of what is left: what
    /// [`BitSlice::rchunks`] returns.
    ///
    /// # Examples
    ///
    /// ```
    /// use worghulen::bits;
    ///
    /// assert_eq!(bits![0, 1, 1].rchunks(2).next(), Some(bits![1, 1]));
    /// ```
    RChunks: bits, size, i => bits.len().div_ceil(size), {
        let end = bits.len() - i * size;
        end.saturating_sub(size)..end
    };
}

impl<'a, T: Register, O: Order> ChunksExact<'a, T, O> {
    /// The bits behind the last part, fewer than one has. Constant time.
    ///
    /// # Examples
    ///
    /// ```
    /// use worghulen::bits;
    ///
    /// assert_eq!(bits![0, 0, 1].chunks_exact(2).remainder(), bits![1]);
    /// ```
    #[must_use]
    pub fn remainder(&self) -> BitSlice<'a, T, O> {
        let len = self.bits.len();
        self.bits.rest(len - len % self.size)
    }
}

impl<'a, T: Register, O: Order> BitSlice<'a, T, O> {
    /// Every part of `size` bits in a row, from the first index on. Constant time a part.
    ///
    /// # Panics
    ///
    /// Panics where `size` is 0.
    ///
    /// # Examples
    ///
    /// ```
    /// use worghulen::bits;
    ///
    /// let sums = bits![0, 1, 1, 0].windows(2).map(|it| it.count_ones());
    /// assert_eq!(sums.collect::<Vec<_>>(), [1, 2, 1]);
    /// ```
    #[track_caller]
    pub fn windows(&self, size: usize) -> Windows<'a, T, O> {
        Windows::new(*self, size)
    }

    /// The bits in parts of `size` bits, and [`remainder`](ChunksExact::remainder) for what is left.
    /// Constant time a part.
    ///
    /// # Panics
    ///
    /// Panics where `size` is 0.
    ///
    /// # Examples
    ///
    /// ```
    /// use worghulen::bits;
    ///
    /// let parts = bits![0, 1, 1, 0, 1].chunks_exact(2).map(|it| it.to_string());
    /// assert_eq!(parts.collect::<Vec<_>>(), ["01", "10"]);
    /// ```
    #[track_caller]
    pub fn chunks_exact(&self, size: usize) -> ChunksExact<'a, T, O> {
        ChunksExact::new(*self, size)
    }

    /// The bits in parts of `size` bits from the end on, the last of what is left. Constant time a
    /// part.
    ///
    /// # Panics
    ///
    /// Panics where `size` is 0.
    ///
    /// # Examples
    ///
    /// ```
    /// use worghulen::bits;
    ///
    /// let parts = bits![0, 1, 1, 0, 1].rchunks(2).map(|it| it.to_string());
    /// assert_eq!(parts.collect::<Vec<_>>(), ["01", "11", "0"]);
    /// ```
    #[track_caller]
    pub fn rchunks(&self, size: usize) -> RChunks<'a, T, O> {
        RChunks::new(*self, size)
    }

    /// The parts between those bits of which a function of index and bit says that they are cuts,
    /// one more than there are cuts. Costs by bits.
    ///
    /// # Examples
    ///
    /// ```
    /// use worghulen::bits;
    ///
    /// let runs = bits![0, 0, 1, 0, 1].split(|_, bit| *bit).map(|it| it.len());
    /// assert_eq!(runs.collect::<Vec<_>>(), [2, 1, 0]);
    /// ```
    pub fn split<F: FnMut(usize, &bool) -> bool>(
        &self,
        is_cut: F,
    ) -> impl Iterator<Item = Self> + use<'a, T, O, F> {
        let (bits, mut is_cut, mut from) = (*self, is_cut, Some(0));
        core::iter::from_fn(move || {
            let start = from?;
            let cut = (start..bits.len()).find(|i| is_cut(*i, &bits[*i]));
            from = cut.map(|cut| cut + 1);
            bits.get(start..cut.unwrap_or(bits.len()))
        })
    }

    /// The first index at which another slice's bits stand, of any words and order, and `None` where
    /// they do not. No bits stand at 0. Costs by the product of both lengths.
    ///
    /// # Examples
    ///
    /// ```
    /// use worghulen::bits;
    ///
    /// assert_eq!(bits![0, 1, 0, 1, 1].find(bits![1, 1]), Some(3));
    /// assert_eq!(bits![0, 1].find(bits![1, 1]), None);
    /// ```
    #[must_use]
    pub fn find(&self, pattern: impl AsBitSlice) -> Option<usize> {
        self.proved().find(&pattern.as_bitslice().proved())
    }

    /// Whether another slice's bits stand somewhere, of any words and order. Costs by the product of
    /// both lengths.
    ///
    /// # Examples
    ///
    /// ```
    /// use worghulen::bits;
    ///
    /// assert!(bits![0, 1, 1].contains(bits![1, 1]) && !bits![0, 1, 1].contains(bits![1, 0]));
    /// ```
    #[must_use]
    pub fn contains(&self, pattern: impl AsBitSlice) -> bool {
        self.find(pattern).is_some()
    }

    /// Whether some bits are one and some are zero. Costs by words.
    ///
    /// # Examples
    ///
    /// ```
    /// use worghulen::bits;
    ///
    /// assert!(bits![0, 1].some() && !bits![1, 1].some() && !bits![0, 0].some());
    /// ```
    #[must_use]
    pub fn some(&self) -> bool {
        self.any() && self.not_all()
    }
}
