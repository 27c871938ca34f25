//! The words and parts of words that a slice has.

use crate::order::Order;
use crate::register::Register;
use crate::slice::{BitSlice, granted};
use crate::slice_mut::BitSliceMut;
use core::slice;

/// The words that a slice has whole, and its parts of others: what [`BitSlice::domain`] returns.
///
/// As an iterator it hands out the words in order, where bits that the slice has not are zero.
///
/// # Examples
///
/// ```
/// use worghulen::{BitView, Lsb0};
///
/// let words = [0xff_u8; 3];
/// let bits = words.view_bits::<Lsb0>();
/// assert_eq!(bits.get(4..18).unwrap().domain().collect::<Vec<_>>(), [0xf0, 0xff, 0x03]);
/// ```
#[derive(Clone, Debug)]
pub enum Domain<'a, T: Register, O: Order> {
    /// A part of one word that has neither its first nor its last bit.
    Enclave(BitSlice<'a, T, O>),
    /// Whole words, the bits before them and those behind them.
    Region {
        /// The last bits of a word, where the slice starts in one.
        head: Option<BitSlice<'a, T, O>>,
        /// The words of which the slice has every bit.
        body: &'a [T],
        /// The first bits of a word, where the slice ends in one.
        tail: Option<BitSlice<'a, T, O>>,
    },
}

/// The word of a part of one, with zeros for what the part has not.
fn word<T: Register, O: Order>(part: BitSlice<'_, T, O>) -> T {
    let ((_, start), mut word) = (part.place(), T::ZERO);
    let place = start % T::BITS;
    let mut bits = BitSliceMut::<T, O>::of(slice::from_mut(&mut word), place, part.len());
    granted(bits.copy_from(part));
    word
}

impl<T: Register, O: Order> Iterator for Domain<'_, T, O> {
    type Item = T;

    fn next(&mut self) -> Option<T> {
        let (head, body, tail) = match self {
            Self::Enclave(part) => {
                let part = *part;
                *self = BitSlice::default().domain();
                return Some(word(part));
            }
            Self::Region { head, body, tail } => (head, body, tail),
        };
        if let Some(part) = head.take() {
            return Some(word(part));
        }
        if let Some((first, rest)) = body.split_first() {
            *body = rest;
            return Some(*first);
        }
        tail.take().map(word)
    }
}

impl<'a, T: Register, O: Order> BitSlice<'a, T, O> {
    /// The whole words and the parts of words. Constant time.
    ///
    /// # Examples
    ///
    /// ```
    /// use worghulen::{BitView, Domain, Lsb0};
    ///
    /// let words = [0xf0_u8, 0x12, 0x34, 0x05];
    /// let Domain::Region { head, body, tail } =
    ///     words.view_bits::<Lsb0>().get(4..27).unwrap().domain()
    /// else {
    ///     unreachable!("it has bits of four words");
    /// };
    /// assert_eq!((head.unwrap().len(), body, tail.unwrap().load_le::<u8>()), (4, &[0x12, 0x34][..], 5));
    /// ```
    #[must_use]
    pub fn domain(&self) -> Domain<'a, T, O> {
        let (words, start) = self.place();
        let end = start + self.len();
        let (first, last) = (start.next_multiple_of(T::BITS), end - end % T::BITS);
        if first > end {
            return Domain::Enclave(*self);
        }
        let some = |part: Self| (!part.is_empty()).then_some(part);
        Domain::Region {
            head: some(self.start(first - start)),
            body: words.get(first / T::BITS..last / T::BITS).unwrap_or(&[]),
            tail: some(self.rest(last.max(first) - start)),
        }
    }
}
