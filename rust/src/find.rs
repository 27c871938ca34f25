//! What is counted and found among bits.

use crate::order::Order;
use crate::register::Register;
use crate::slice::{BitSlice, granted};

impl<T: Register, O: Order> BitSlice<'_, T, O> {
    /// How many bits are one. Costs by words.
    ///
    /// # Examples
    ///
    /// ```
    /// use worghulen::{BitSlice, Lsb0};
    ///
    /// assert_eq!(BitSlice::<_, Lsb0>::new(&[0xff_u8; 2], 3..12)?.count_ones(), 9);
    /// # Ok::<(), worghulen::Refusal>(())
    /// ```
    #[must_use]
    pub fn count_ones(&self) -> usize {
        let (words, start) = self.place();
        granted(T::count_ones(O::CODE, words, start, self.len()))
    }

    /// How many bits are zero. Costs by words.
    ///
    /// # Examples
    ///
    /// ```
    /// use worghulen::{BitView, Lsb0};
    ///
    /// assert_eq!([0x0e_u8].view_bits::<Lsb0>().count_zeros(), 5);
    /// ```
    #[must_use]
    pub fn count_zeros(&self) -> usize {
        self.len() - self.count_ones()
    }

    /// The index of the first bit that is one, counted from 0, and `None` where none is. Costs by
    /// words, up to that bit.
    ///
    /// # Examples
    ///
    /// ```
    /// use worghulen::{BitSlice, Msb0};
    ///
    /// let words = [0x00_u8, 0x10];
    /// assert_eq!(BitSlice::<_, Msb0>::new(&words, 2..)?.first_one(), Some(9));
    /// assert_eq!(BitSlice::<_, Msb0>::new(&words, 2..11)?.first_one(), None);
    /// # Ok::<(), worghulen::Refusal>(())
    /// ```
    #[must_use]
    pub fn first_one(&self) -> Option<usize> {
        let (words, start) = self.place();
        self.found(granted(T::first_one(O::CODE, words, start, self.len())))
    }

    /// The index of the first bit that is zero, counted from 0, and `None` where none is. Costs by
    /// words, up to that bit.
    ///
    /// # Examples
    ///
    /// ```
    /// use worghulen::{BitView, Lsb0};
    ///
    /// assert_eq!([0x07_u8].view_bits::<Lsb0>().first_zero(), Some(3));
    /// assert_eq!([0xff_u8].view_bits::<Lsb0>().first_zero(), None);
    /// ```
    #[must_use]
    pub fn first_zero(&self) -> Option<usize> {
        self.first_of(false)
    }

    /// The index of the last bit that is one, counted from 0, and `None` where none is. Costs by
    /// words, down to that bit.
    ///
    /// # Examples
    ///
    /// ```
    /// use worghulen::{BitView, Lsb0};
    ///
    /// assert_eq!([0x17_u8].view_bits::<Lsb0>().last_one(), Some(4));
    /// assert_eq!([0x00_u8].view_bits::<Lsb0>().last_one(), None);
    /// ```
    #[must_use]
    pub fn last_one(&self) -> Option<usize> {
        self.last_of(true)
    }

    /// The index of the last bit that is zero, counted from 0, and `None` where none is. Costs by
    /// words, down to that bit.
    ///
    /// # Examples
    ///
    /// ```
    /// use worghulen::{BitView, Lsb0};
    ///
    /// assert_eq!([0xe7_u8].view_bits::<Lsb0>().last_zero(), Some(4));
    /// assert_eq!([0xff_u8].view_bits::<Lsb0>().last_zero(), None);
    /// ```
    #[must_use]
    pub fn last_zero(&self) -> Option<usize> {
        self.last_of(false)
    }

    /// The index where that is one of the bits.
    #[inline]
    fn found(&self, index: usize) -> Option<usize> {
        (index < self.len()).then_some(index)
    }

    /// The index of the first bit that is `bit`.
    #[inline]
    fn first_of(&self, bit: bool) -> Option<usize> {
        let (words, start) = self.place();
        self.found(granted(T::first(O::CODE, words, start, self.len(), bit)))
    }

    /// The index of the last bit that is `bit`.
    #[inline]
    fn last_of(&self, bit: bool) -> Option<usize> {
        let (words, start) = self.place();
        self.found(granted(T::last(O::CODE, words, start, self.len(), bit)))
    }

    /// The index of the first bit that is `bit` from an index on.
    #[inline]
    fn next_of(&self, from: usize, bit: bool) -> Option<usize> {
        let (words, start) = self.place();
        self.found(granted(T::next(
            O::CODE,
            words,
            start,
            self.len(),
            from,
            bit,
        )))
    }

    /// The index of the last bit that is `bit` before an index.
    #[inline]
    fn previous_of(&self, before: usize, bit: bool) -> Option<usize> {
        let (words, start) = self.place();
        self.found(granted(T::previous(
            O::CODE,
            words,
            start,
            self.len(),
            before,
            bit,
        )))
    }

    /// The index of the first bit that is one, from index `from` on, and `None` where none is: also
    /// where there are no bits from `from` on. Costs by words, up to that bit.
    ///
    /// # Examples
    ///
    /// ```
    /// use worghulen::{BitView, Lsb0};
    ///
    /// let words = [0x28_u8];
    /// let bits = words.view_bits::<Lsb0>();
    /// assert_eq!((bits.next_one(3), bits.next_one(4)), (Some(3), Some(5)));
    /// assert_eq!(bits.next_one(6), None);
    /// ```
    #[must_use]
    pub fn next_one(&self, from: usize) -> Option<usize> {
        self.next_of(from, true)
    }

    /// The index of the first bit that is zero, from index `from` on, and `None` where none is:
    /// also where there are no bits from `from` on. Costs by words, up to that bit.
    ///
    /// # Examples
    ///
    /// ```
    /// use worghulen::{BitView, Lsb0};
    ///
    /// assert_eq!([0x0e_u8].view_bits::<Lsb0>().next_zero(1), Some(4));
    /// ```
    #[must_use]
    pub fn next_zero(&self, from: usize) -> Option<usize> {
        self.next_of(from, false)
    }

    /// The index of the last bit that is one, of those before index `before`, and `None` where none
    /// is. A `before` past the length is taken as the length. Costs by words, down to that bit.
    ///
    /// # Examples
    ///
    /// ```
    /// use worghulen::{BitView, Lsb0};
    ///
    /// assert_eq!([0x28_u8].view_bits::<Lsb0>().previous_one(5), Some(3));
    /// ```
    #[must_use]
    pub fn previous_one(&self, before: usize) -> Option<usize> {
        self.previous_of(before, true)
    }

    /// The index of the last bit that is zero, of those before index `before`, and `None` where
    /// none is. A `before` past the length is taken as the length. Costs by words, down to that bit.
    ///
    /// # Examples
    ///
    /// ```
    /// use worghulen::{BitView, Lsb0};
    ///
    /// assert_eq!([0xe7_u8].view_bits::<Lsb0>().previous_zero(8), Some(4));
    /// ```
    #[must_use]
    pub fn previous_zero(&self, before: usize) -> Option<usize> {
        self.previous_of(before, false)
    }

    /// The first index from which on `count` bits are there and zero, and `None` where there is no
    /// such index. Costs by words where the run is no longer than a word.
    ///
    /// # Examples
    ///
    /// ```
    /// use worghulen::{BitView, Lsb0};
    ///
    /// let words = [0x4b_u8];
    /// let bits = words.view_bits::<Lsb0>();
    /// assert_eq!((bits.find_zeros(1), bits.find_zeros(2)), (Some(2), Some(4)));
    /// assert_eq!(bits.find_zeros(3), None);
    /// ```
    #[must_use]
    pub fn find_zeros(&self, count: usize) -> Option<usize> {
        let (words, start) = self.place();
        let found = granted(T::find_zeros(O::CODE, words, start, self.len(), count));
        // (a run of no bits may start behind the last)
        (count == 0 || found < self.len()).then_some(found)
    }

    /// The first index, not before `from` and a multiple of `multiple_of`, from which on `count` bits
    /// are zero, and `None` where there is none. A `multiple_of` of 0 is taken as 1. Costs as
    /// [`find_zeros`](Self::find_zeros), and once more for each run that is long enough, but not from
    /// a multiple on.
    ///
    /// # Examples
    ///
    /// ```
    /// use worghulen::{BitView, Lsb0};
    ///
    /// let words = [0x03_u8, 0x10];
    /// let bits = words.view_bits::<Lsb0>();
    /// assert_eq!(bits.find_zeros_from(0, 3, 1), Some(2));
    /// assert_eq!(bits.find_zeros_from(0, 3, 4), Some(4));
    /// assert_eq!(bits.find_zeros_from(10, 3, 4), None);
    /// ```
    #[must_use]
    pub fn find_zeros_from(&self, from: usize, count: usize, multiple_of: usize) -> Option<usize> {
        let (words, start) = self.place();
        let len = self.len();
        let range = (start, len);
        let found = T::find_zeros_from(O::CODE, words, range, from, count, multiple_of);
        let found = granted(found);
        // (a run of no bits may start behind the last)
        let ends = count == 0 && from <= len && len.is_multiple_of(multiple_of.max(1));
        (found < len || ends).then_some(found)
    }

    /// How many bits are zero before the first that is one; all, where none is. Costs by words, up
    /// to that bit.
    ///
    /// # Examples
    ///
    /// ```
    /// use worghulen::{BitView, Lsb0};
    ///
    /// assert_eq!([0x08_u8].view_bits::<Lsb0>().leading_zeros(), 3);
    /// ```
    #[must_use]
    pub fn leading_zeros(&self) -> usize {
        self.first_one().unwrap_or(self.len())
    }

    /// How many bits are one before the first that is zero; all, where none is. Costs by words, up
    /// to that bit.
    ///
    /// # Examples
    ///
    /// ```
    /// use worghulen::{BitView, Lsb0};
    ///
    /// assert_eq!([0x07_u8].view_bits::<Lsb0>().leading_ones(), 3);
    /// ```
    #[must_use]
    pub fn leading_ones(&self) -> usize {
        self.first_zero().unwrap_or(self.len())
    }

    /// How many bits are zero behind the last that is one; all, where none is. Costs by words, down
    /// to that bit.
    ///
    /// # Examples
    ///
    /// ```
    /// use worghulen::{BitView, Lsb0};
    ///
    /// assert_eq!([0x08_u8].view_bits::<Lsb0>().trailing_zeros(), 4);
    /// ```
    #[must_use]
    pub fn trailing_zeros(&self) -> usize {
        self.last_one()
            .map_or(self.len(), |last| self.len() - 1 - last)
    }

    /// How many bits are one behind the last that is zero; all, where none is. Costs by words, down
    /// to that bit.
    ///
    /// # Examples
    ///
    /// ```
    /// use worghulen::{BitView, Lsb0};
    ///
    /// assert_eq!([0xe8_u8].view_bits::<Lsb0>().trailing_ones(), 3);
    /// ```
    #[must_use]
    pub fn trailing_ones(&self) -> usize {
        self.last_zero()
            .map_or(self.len(), |last| self.len() - 1 - last)
    }

    /// Whether some bit is one. Costs by words, up to that bit.
    ///
    /// # Examples
    ///
    /// ```
    /// use worghulen::{BitView, Lsb0};
    ///
    /// assert!([0x08_u8].view_bits::<Lsb0>().any());
    /// assert!(![0x00_u8].view_bits::<Lsb0>().any());
    /// ```
    #[must_use]
    pub fn any(&self) -> bool {
        self.first_one().is_some()
    }

    /// Whether no bit is one. Costs by words, up to the first one.
    ///
    /// # Examples
    ///
    /// ```
    /// use worghulen::{BitView, Lsb0};
    ///
    /// assert!([0x08_u8].view_bits::<Lsb0>().get(4..).unwrap().not_any());
    /// ```
    #[must_use]
    pub fn not_any(&self) -> bool {
        !self.any()
    }

    /// Whether every bit is one, as of no bits. Costs by words, up to the first zero.
    ///
    /// # Examples
    ///
    /// ```
    /// use worghulen::{BitView, Lsb0};
    ///
    /// assert!([0xff_u8].view_bits::<Lsb0>().all());
    /// assert!(![0x7f_u8].view_bits::<Lsb0>().all());
    /// ```
    #[must_use]
    pub fn all(&self) -> bool {
        self.first_zero().is_none()
    }

    /// Whether some bit is zero. Costs by words, up to that bit.
    ///
    /// # Examples
    ///
    /// ```
    /// use worghulen::{BitView, Lsb0};
    ///
    /// assert!([0x7f_u8].view_bits::<Lsb0>().not_all());
    /// ```
    #[must_use]
    pub fn not_all(&self) -> bool {
        !self.all()
    }
}
