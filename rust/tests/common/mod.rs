//! What the tests share: a plain model of a memory as a list of bits, and random cases.

#![allow(dead_code, unused_imports, unused_macros)]
// (the model's words are numbers of 64 bits, whose digits past a word's width are dropped)
#![allow(clippy::cast_possible_truncation, clippy::cast_lossless)]

use std::env;
use std::fmt::Debug;
use std::ops::Range;
use worghulen::{Lsb0, Msb0, Order, Refusal, Register};

/// How many random cases each test asks of each word and order: over the ten, 100,000.
pub const CASES: usize = 10_000;

/// How many bits a range has at most.
pub const MAX_BITS: usize = usize::MAX >> 3;

/// A word whose digits the model can read and write.
pub trait Word: Register + Eq + Debug {
    /// The word of these digits, of which those that are past its width are dropped.
    fn of(number: u64) -> Self;
    /// The word as a number.
    fn number(self) -> u64;
}

macro_rules! words {
    ($($t:ident)*) => {
        $(impl Word for $t {
            fn of(number: u64) -> Self {
                number as Self
            }

            fn number(self) -> u64 {
                self as u64
            }
        })*
    };
}

words!(u8 u16 u32 u64 usize);

/// An order whose digits the model knows.
pub trait Layout: Order + Eq + Debug {
    /// The digit at which an index lies, in a word of `width` bits.
    fn digit(index: usize, width: usize) -> usize;
}

impl Layout for Lsb0 {
    fn digit(index: usize, _: usize) -> usize {
        index
    }
}

impl Layout for Msb0 {
    fn digit(index: usize, width: usize) -> usize {
        width - 1 - index
    }
}

/// The word and the digit of a place.
pub fn word_and_digit<T: Word, O: Layout>(place: usize) -> (usize, usize) {
    (place / T::BITS, O::digit(place % T::BITS, T::BITS))
}

/// The bits of words, in the order of their places.
pub fn bits_of<T: Word, O: Layout>(words: &[T]) -> Vec<bool> {
    let bit = |place| {
        let (word, digit) = word_and_digit::<T, O>(place);
        words[word].number() >> digit & 1 == 1
    };
    (0..words.len() * T::BITS).map(bit).collect()
}

/// A range where it lies among `len` bits, and otherwise why it is refused.
pub fn checked(range: &Range<usize>, len: usize) -> Result<Range<usize>, Refusal> {
    if range.start > range.end {
        Err(Refusal::Reversed)
    } else if range.end - range.start > MAX_BITS {
        Err(Refusal::TooLong)
    } else if range.end > len {
        let index = range.end;
        Err(Refusal::Outside { index, len })
    } else {
        Ok(range.clone())
    }
}

/// The range of as many places as another from a place on, where it lies among `len` bits.
pub fn moved(range: &Range<usize>, start: usize, len: usize) -> Result<Range<usize>, Refusal> {
    let index = usize::MAX;
    let end = start.checked_add(range.len());
    checked(&(start..end.ok_or(Refusal::Outside { index, len })?), len)
}

/// Numbers without a pattern, from a seed.
pub struct Random(u64);

impl Random {
    /// Those of a test's number, and of the seed that `BITVEC_C_SEED` names, or else 1.
    pub fn new(test: u64) -> Self {
        let seed = env::var("BITVEC_C_SEED").map_or(1, |seed| seed.parse().unwrap());
        let mut random = Self(test << 40 ^ seed.max(1));
        for _ in 0..8 {
            random.number();
        }
        random
    }

    /// The next number.
    pub fn number(&mut self) -> u64 {
        self.0 ^= self.0 << 13;
        self.0 ^= self.0 >> 7;
        self.0 ^= self.0 << 17;
        self.0.wrapping_mul(0x2545_f491_4f6c_dd1d)
    }

    /// A number from 0 to before a bound that is not 0.
    pub fn below(&mut self, bound: usize) -> usize {
        (self.number() >> 16) as usize % bound
    }

    /// True once in `of` times.
    pub fn one_in(&mut self, of: usize) -> bool {
        self.below(of) == 0
    }

    /// A bit.
    pub fn bit(&mut self) -> bool {
        self.one_in(2)
    }

    /// Mostly few words and sometimes many: of any bits, of equal bits, or with few ones.
    pub fn words<T: Word>(&mut self) -> Vec<T> {
        let most = if self.one_in(8) { 40 } else { 6 };
        let len = self.below(most);
        let kind = self.below(4);
        let mut word = || match kind {
            0 => 0,
            1 => u64::MAX,
            2 if !self.one_in(4) => 0,
            2 => 1 << self.below(64),
            _ => self.number(),
        };
        (0..len).map(|_| T::of(word())).collect()
    }

    /// A range of places, which mostly lies among `len` bits.
    pub fn range(&mut self, len: usize) -> Range<usize> {
        let (one, other) = (self.below(len + 1), self.below(len + 1));
        let (start, end) = (one.min(other), one.max(other));
        match self.below(32) {
            0 => end..start,
            1 => start..len + 1 + self.below(9),
            2 => len + self.below(99)..len + 99,
            3 => self.far()..self.far(),
            4 => start..start,
            5 => 0..len,
            _ => start..end,
        }
    }

    /// A range of places, which is mostly short enough for a number.
    pub fn short_range(&mut self, len: usize) -> Range<usize> {
        let range = self.range(len);
        if range.len() < 65 || self.one_in(16) {
            return range;
        }
        range.start..range.start + self.below(65)
    }

    /// A number near one at which sums or products pass the greatest.
    fn far(&mut self) -> usize {
        let (shift, near) = (self.below(8), self.below(3));
        (usize::MAX >> shift).wrapping_add(near).wrapping_sub(1)
    }

    /// A place, which mostly is one of `len` bits.
    pub fn place(&mut self, len: usize) -> usize {
        match self.below(16) {
            0 => self.far(),
            1 => len.wrapping_add(self.below(9)),
            _ => self.below(len.saturating_add(1)),
        }
    }

    /// A place, from which `count` bits on mostly lie among `len` bits.
    pub fn start(&mut self, count: usize, len: usize) -> usize {
        if self.one_in(4) {
            return self.place(len);
        }
        self.below(len.saturating_sub(count) + 1)
    }
}

/// Asks the random cases, from a seed, of a function that is generic over the word and the order.
macro_rules! for_all_memories {
    ($test:ident, $seed:literal) => {
        #[test]
        fn $test() {
            let mut random = Random::new($seed);
            for _ in 0..CASES {
                cases::$test::<u8, Lsb0>(&mut random);
                cases::$test::<u8, Msb0>(&mut random);
                cases::$test::<u16, Lsb0>(&mut random);
                cases::$test::<u16, Msb0>(&mut random);
                cases::$test::<u32, Lsb0>(&mut random);
                cases::$test::<u32, Msb0>(&mut random);
                cases::$test::<u64, Lsb0>(&mut random);
                cases::$test::<u64, Msb0>(&mut random);
                cases::$test::<usize, Lsb0>(&mut random);
                cases::$test::<usize, Msb0>(&mut random);
            }
        }
    };
}

/// A test that asks a case of each word and order, from each bit of a word on and of each length of at
/// most 200 bits.
macro_rules! for_all_edges {
    ($test:ident, $seed:literal) => {
        #[test]
        fn $test() {
            let mut random = Random::new($seed);
            for_all_edges!($test, random: u8 u16 u32 u64 usize);
        }
    };
    ($test:ident, $random:ident: $($t:ident)*) => { $(
        for start in 0..$t::BITS as usize {
            for len in 0..=200 {
                cases::$test::<$t, Lsb0>(&mut $random, start..start + len);
                cases::$test::<$t, Msb0>(&mut $random, start..start + len);
            }
        }
    )* };
}

/// Calls a function that is generic over two words and two orders, of which the second two are any of
/// seven pairs: the first two themselves, which have calls of their own, and others.
macro_rules! with_any_other {
    ($random:ident, $call:ident::<$t:ident, $o:ident>) => {
        match $random.below(7) {
            0 => $call::<$t, $o, u8, Msb0>($random),
            1 => $call::<$t, $o, u16, Lsb0>($random),
            2 => $call::<$t, $o, u32, Msb0>($random),
            3 => $call::<$t, $o, u64, Lsb0>($random),
            4 => $call::<$t, $o, usize, Lsb0>($random),
            5 => $call::<$t, $o, usize, Msb0>($random),
            _ => $call::<$t, $o, $t, $o>($random),
        }
    };
}

pub(crate) use {for_all_edges, for_all_memories, with_any_other};
