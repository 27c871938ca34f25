//! Bits that are written down in a program.

/// What the macros call.
#[doc(hidden)]
pub mod parts {
    use crate::order::Order;

    /// At which digit of a word an index lies.
    #[doc(hidden)]
    #[must_use]
    pub const fn digit<O: Order>(index: usize, width: usize) -> usize {
        if O::BIG { width - 1 - index } else { index }
    }
}

/// The words of bits that are known where the program is compiled, and how many bits they are.
#[doc(hidden)]
#[macro_export]
macro_rules! __words {
    ($store:ty, $order:ty; $with:path; [$($bit:expr),*]) => {{
        const WORGHULEN_BITS: &[bool] = &[$(!::core::matches!($bit, 0)),*];
        const WORGHULEN_WIDTH: usize = <$store>::BITS as usize;
        const WORGHULEN_WORDS: [$store; WORGHULEN_BITS.len().div_ceil(WORGHULEN_WIDTH)] = {
            let mut words = [0; WORGHULEN_BITS.len().div_ceil(WORGHULEN_WIDTH)];
            let mut i = 0;
            while i < WORGHULEN_BITS.len() {
                let digit = $crate::__macros::digit::<$order>(i % WORGHULEN_WIDTH, WORGHULEN_WIDTH);
                words[i / WORGHULEN_WIDTH] |= (WORGHULEN_BITS[i] as $store) << digit;
                i += 1;
            }
            words
        };
        $with!($store, $order; WORGHULEN_WORDS, WORGHULEN_BITS.len())
    }};
    ($store:ty, $order:ty; $with:path; $bit:expr; $len:expr) => {{
        const WORGHULEN_LEN: usize = $len;
        const WORGHULEN_WORD: $store = if ::core::matches!($bit, 0) { 0 } else { !0 };
        const WORGHULEN_WORDS: [$store; WORGHULEN_LEN.div_ceil(<$store>::BITS as usize)] =
            [WORGHULEN_WORD; WORGHULEN_LEN.div_ceil(<$store>::BITS as usize)];
        $with!($store, $order; WORGHULEN_WORDS, WORGHULEN_LEN)
    }};
}

#[doc(hidden)]
#[macro_export]
macro_rules! __slice {
    ($store:ty, $order:ty; $words:expr, $len:expr) => {
        $crate::BitSlice::<'static, $store, $order>::of_first(&$words, $len)
    };
}

#[doc(hidden)]
#[macro_export]
macro_rules! __array {
    ($store:ty, $order:ty; $words:expr, $len:expr) => {
        $crate::BitArray::<_, $order>::new($words)
    };
}

/// A [`BitSlice`](crate::BitSlice) of bits that are known where the program is compiled, in words
/// that last as long as it runs: a list of zeros and ones, or one of them and how many. Words and
/// order stand before, and are `usize` and `Lsb0` where none do. It can be a constant's value.
///
/// # Examples
///
/// ```
/// use worghulen::{BitSlice, Lsb0, Msb0, bits};
///
/// const LEN: usize = 10;
/// const MASK: BitSlice<'static, u8, Msb0> = bits![u8, Msb0; 1; LEN];
/// assert_eq!(MASK.count_ones(), 10);
/// assert_eq!(bits![0, 1, 1].to_string(), "011");
/// assert_eq!(bits![u16, Lsb0; 1, 0].iter_ones().next(), Some(0));
/// assert!(bits![].is_empty());
/// ```
#[macro_export]
macro_rules! bits {
    (mut $($rest:tt)*) => {
        ::core::compile_error!(
            "`bits!` lends no words for writing: take `bitarr![..]` or `bitvec![..]`, and `as_mut_bitslice`"
        )
    };
    (static $($rest:tt)*) => {
        ::core::compile_error!("`bits![..]` lasts as long as the program: leave `static` out")
    };
    ($store:ident, $order:ident; $bit:expr; $len:expr) => {
        $crate::__words!($store, $order; $crate::__slice; $bit; $len)
    };
    ($store:ident, $order:ident; $($bit:expr),* $(,)?) => {
        $crate::__words!($store, $order; $crate::__slice; [$($bit),*])
    };
    ($bit:expr; $len:expr) => {
        $crate::__words!(usize, $crate::Lsb0; $crate::__slice; $bit; $len)
    };
    ($($bit:expr),* $(,)?) => {
        $crate::__words!(usize, $crate::Lsb0; $crate::__slice; [$($bit),*])
    };
}

/// A [`BitArray`](crate::BitArray) of bits that are known where the program is compiled, written as
/// those of [`bits!`](crate::bits), in as few words as have them. It can be a constant's value.
///
/// # Examples
///
/// ```
/// use worghulen::{BitArray, Lsb0, Msb0, bitarr};
///
/// const FLAGS: BitArray<[u8; 1], Msb0> = bitarr![u8, Msb0; 1, 0, 1];
/// assert_eq!(FLAGS.into_inner(), [0b1010_0000]);
/// assert_eq!(bitarr![0; 100].len(), 128);
/// assert_eq!(bitarr![u8, Lsb0; 0, 1, 1].into_inner(), [6]);
/// ```
#[macro_export]
macro_rules! bitarr {
    (const $($bits:tt)*) => {
        $crate::bitarr![$($bits)*]
    };
    ($store:ident, $order:ident; $bit:expr; $len:expr) => {
        $crate::__words!($store, $order; $crate::__array; $bit; $len)
    };
    ($store:ident, $order:ident; $($bit:expr),* $(,)?) => {
        $crate::__words!($store, $order; $crate::__array; [$($bit),*])
    };
    ($bit:expr; $len:expr) => {
        $crate::__words!(usize, $crate::Lsb0; $crate::__array; $bit; $len)
    };
    ($($bit:expr),* $(,)?) => {
        $crate::__words!(usize, $crate::Lsb0; $crate::__array; [$($bit),*])
    };
}

/// The type of a [`BitArray`](crate::BitArray) of as many words as a number of bits takes.
///
/// # Examples
///
/// ```
/// use worghulen::{BitArr, Msb0};
///
/// let bits: BitArr!(for 20, in u8, Msb0) = Default::default();
/// assert_eq!(bits.into_inner(), [0_u8; 3]);
/// let bits = <BitArr!(for 65)>::ZERO;
/// assert_eq!(bits.len(), 128);
/// ```
#[macro_export]
macro_rules! BitArr {
    (for $len:expr, in $store:ty, $order:ty) => {
        $crate::BitArray<[$store; ($len as usize).div_ceil(<$store>::BITS as usize)], $order>
    };
    (for $len:expr, in $store:ty) => {
        $crate::BitArr!(for $len, in $store, $crate::Lsb0)
    };
    (for $len:expr) => {
        $crate::BitArr!(for $len, in usize, $crate::Lsb0)
    };
}

/// A [`BitVec`](crate::BitVec) of a list of zeros and ones, or of one of them and how many. Words
/// and order stand before, and are `usize` and `Lsb0` where none do.
///
/// # Panics
///
/// Panics where there is no memory for the bits.
///
/// # Examples
///
/// ```
/// use worghulen::{Msb0, bitvec};
///
/// let len = 3;
/// assert_eq!(bitvec![0, 1, 1].to_string(), "011");
/// assert_eq!(bitvec![1; len].to_string(), "111");
/// assert_eq!(bitvec![u8, Msb0; 0, 1].into_vec(), [0b0100_0000]);
/// assert_eq!(bitvec![u8, Msb0; 1; 10].len(), 10);
/// ```
#[cfg(feature = "alloc")]
#[macro_export]
macro_rules! bitvec {
    ($store:ident, $order:ident; $bit:expr; $len:expr) => {
        $crate::BitVec::<$store, $order>::repeat(!::core::matches!($bit, 0), $len)
    };
    ($store:ident, $order:ident; $($bit:expr),* $(,)?) => {
        <$crate::BitVec<$store, $order> as ::core::iter::FromIterator<bool>>::from_iter(
            [$(!::core::matches!($bit, 0)),*],
        )
    };
    ($bit:expr; $len:expr) => {
        $crate::BitVec::<usize, $crate::Lsb0>::repeat(!::core::matches!($bit, 0), $len)
    };
    ($($bit:expr),* $(,)?) => {
        <$crate::BitVec<usize, $crate::Lsb0> as ::core::iter::FromIterator<bool>>::from_iter(
            [$(!::core::matches!($bit, 0)),*],
        )
    };
}

/// A [`BitBox`](crate::BitBox) of what [`bitvec!`](crate::bitvec) takes.
///
/// # Panics
///
/// Panics where there is no memory for the bits.
///
/// # Examples
///
/// ```
/// use worghulen::bitbox;
///
/// assert_eq!(bitbox![0, 1, 1].to_string(), "011");
/// ```
#[cfg(feature = "alloc")]
#[macro_export]
macro_rules! bitbox {
    ($($bits:tt)*) => {
        $crate::bitvec![$($bits)*].into_boxed_bitslice()
    };
}
