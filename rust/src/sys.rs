//! The proved library's total calls, by words of each width: those of `bitvec_call`, of which its
//! exports for C are made.
//!
//! Each is proved for all arguments, with no condition on their values: it tests them, and answers a
//! status. The calls that this crate makes besides, of vectors (`vec`), free maps (`freemap`), the
//! search for a pattern and the numbers of slices (`own`, `pieces`, `number`), have no condition
//! either, or it is tested before. So a call of the library that has one is reached by calls of the
//! library, which a proof says meet it.

use crate::proved::bitvec::mem::BitRegister;
use crate::proved::bitvec::ptr::combine::{And, AndNot, Or, Xor};
use crate::proved::bitvec_call::edit::{self, Edit};
use crate::proved::bitvec_call::{
    bit, combine, convert, copy, exchange, fill, find, next, number, question, read, read_code,
    run, run_in, seek, signed, sorted, write, write_code,
};
use crate::refusal::Refusal;
use crate::words::Words;

mod plain;
#[cfg(test)]
mod tests;

pub use plain::{Reply, Request, Span};

/// What a call answers in a variable of its own, where it is not refused.
#[inline]
fn asked<A: Default>(call: impl FnOnce(&mut A) -> u8) -> Result<A, Refusal> {
    let mut answer = A::default();
    Refusal::check(call(&mut answer)).map(|()| answer)
}

/// What a call makes of words, by their type.
macro_rules! of_words {
    ($seen:expr, $words:ident: $t:ident => $call:expr) => {
        of_words!($seen, $words: $t => $call, U8 u8, U16 u16, U32 u32, U64 u64, Usize usize)
    };
    ($seen:expr, $words:ident: $t:ident => $call:expr, $($width:ident $word:ident),*) => {
        match $seen {
            $(Words::$width($words) => {
                type $t = $word;
                $call
            })*
        }
    };
}

/// The calls that make of two bits one.
macro_rules! combines {
    ($($(#[$doc:meta])* $name:ident by $by:ident;)*) => { $(
        $(#[$doc])*
        #[inline]
        fn $name(
            source_order: u8,
            source: (&[Self], usize),
            order: u8,
            target: (&mut [Self], usize),
            count: usize,
        ) -> Result<(), Refusal> {
            let (source, from) = (Self::words(source.0), source.1);
            let (target, to) = (Self::words_mut(target.0), target.1);
            Refusal::check(combine::combine::<$by, Self::Word, Self::Word>(
                source_order, source, from, order, target, to, count,
            ))
        }
    )* };
}

/// The calls that ask of two ranges.
macro_rules! asks {
    ($($(#[$doc:meta])* $name:ident by $call:ident, $by:ident;)*) => { $(
        $(#[$doc])*
        #[inline]
        fn $name(
            order: u8,
            one: (&[Self], usize),
            other_order: u8,
            other: (&[Self], usize),
            count: usize,
        ) -> Result<usize, Refusal> {
            let (one, here) = (Self::words(one.0), one.1);
            let (other, there) = (Self::words(other.0), other.1);
            asked(|answer| {
                question::$call::<$by, Self::Word, Self::Word>(
                    order, one, here, other_order, other, there, count, answer,
                )
            })
        }
    )* };
}

/// The calls for words of one type. Each is refused as the library's is.
pub trait Exports: Copy {
    /// The words as the library has them: this very type, whose names are not those of the library's.
    type Word: BitRegister;

    /// The words as the library has them.
    fn words(words: &[Self]) -> &[Self::Word];

    /// The words as the library has them, to be written.
    fn words_mut(words: &mut [Self]) -> &mut [Self::Word];

    /// The words by their width.
    fn seen(words: &[Self]) -> Words<'_>;

    /// The words where their width is this one's.
    fn same<'a>(words: &Words<'a>) -> Option<&'a [Self]>;

    /// Copies `count` bits from a place of one memory to a place of another.
    #[inline]
    fn copy(
        order: u8,
        source: (&[Self], usize),
        target: (&mut [Self], usize),
        count: usize,
    ) -> Result<(), Refusal> {
        Refusal::check(copy::copy(
            order,
            Self::words(source.0),
            source.1,
            Self::words_mut(target.0),
            target.1,
            count,
        ))
    }

    /// Copies `count` bits from one place to another of one memory.
    #[inline]
    fn copy_within(
        order: u8,
        memory: &mut [Self],
        from: usize,
        to: usize,
        count: usize,
    ) -> Result<(), Refusal> {
        Refusal::check(copy::copy_within(
            order,
            Self::words_mut(memory),
            from,
            to,
            count,
        ))
    }

    /// Makes `count` bits from a place on the same.
    #[inline]
    fn fill(
        order: u8,
        memory: &mut [Self],
        start: usize,
        count: usize,
        bit: bool,
    ) -> Result<(), Refusal> {
        Refusal::check(fill::fill(
            order,
            Self::words_mut(memory),
            start,
            count,
            bit,
        ))
    }

    /// Reads the bit at a place.
    #[inline]
    fn get(order: u8, memory: &[Self], place: usize) -> Result<bool, Refusal> {
        asked(|answer| bit::get(order, Self::words(memory), place, answer))
    }

    /// Writes the bit at a place.
    #[inline]
    fn set(order: u8, memory: &mut [Self], place: usize, bit: bool) -> Result<(), Refusal> {
        Refusal::check(bit::set(order, Self::words_mut(memory), place, bit))
    }

    /// Reads `count` bits from a place on as a number.
    #[inline]
    fn load(
        order: u8,
        big_endian: bool,
        memory: &[Self],
        start: usize,
        count: usize,
    ) -> Result<u64, Refusal> {
        asked(|answer| number::load(order, big_endian, Self::words(memory), start, count, answer))
    }

    /// Writes a number to `count` bits from a place on.
    #[inline]
    fn store(
        order: u8,
        big_endian: bool,
        memory: &mut [Self],
        start: usize,
        count: usize,
        number: u64,
    ) -> Result<(), Refusal> {
        Refusal::check(number::store(
            order,
            big_endian,
            Self::words_mut(memory),
            start,
            count,
            number,
        ))
    }

    /// Counts the ones among `count` bits from a place on.
    #[inline]
    fn count_ones(
        order: u8,
        memory: &[Self],
        start: usize,
        count: usize,
    ) -> Result<usize, Refusal> {
        asked(|answer| find::count_ones(order, Self::words(memory), start, count, answer))
    }

    /// Finds the first one among `count` bits from a place on, and answers `count` where there is
    /// none.
    #[inline]
    fn first_one(order: u8, memory: &[Self], start: usize, count: usize) -> Result<usize, Refusal> {
        asked(|answer| find::first_one(order, Self::words(memory), start, count, answer))
    }

    /// Compares `count` bits from a place of one memory on with those from one of another.
    #[inline]
    fn equal(
        order: u8,
        one: (&[Self], usize),
        other: (&[Self], usize),
        count: usize,
    ) -> Result<bool, Refusal> {
        asked(|answer| {
            find::equal(
                order,
                Self::words(one.0),
                one.1,
                Self::words(other.0),
                other.1,
                count,
                answer,
            )
        })
    }

    /// Finds the first bit that is `bit` among `count` bits from a place on, and answers `count`
    /// where there is none.
    #[inline]
    fn first(
        order: u8,
        memory: &[Self],
        start: usize,
        count: usize,
        bit: bool,
    ) -> Result<usize, Refusal> {
        asked(|answer| seek::first(order, Self::words(memory), start, count, bit, answer))
    }

    /// Finds the last bit that is `bit`, and answers `count` where there is none.
    #[inline]
    fn last(
        order: u8,
        memory: &[Self],
        start: usize,
        count: usize,
        bit: bool,
    ) -> Result<usize, Refusal> {
        asked(|answer| seek::last(order, Self::words(memory), start, count, bit, answer))
    }

    /// Finds the first run of `zeros` zeros, and answers `count` where there is none.
    #[inline]
    fn find_zeros(
        order: u8,
        memory: &[Self],
        start: usize,
        count: usize,
        zeros: usize,
    ) -> Result<usize, Refusal> {
        asked(|answer| seek::find_zeros(order, Self::words(memory), start, count, zeros, answer))
    }

    /// Turns over `count` bits from a place on.
    #[inline]
    fn invert(order: u8, memory: &mut [Self], start: usize, count: usize) -> Result<(), Refusal> {
        Refusal::check(edit::edit_all(
            order,
            Self::words_mut(memory),
            start,
            count,
            Edit::Invert,
        ))
    }

    /// Puts `count` bits from a place on in the opposite order.
    #[inline]
    fn reverse(order: u8, memory: &mut [Self], start: usize, count: usize) -> Result<(), Refusal> {
        Refusal::check(edit::edit_all(
            order,
            Self::words_mut(memory),
            start,
            count,
            Edit::Reverse,
        ))
    }

    /// Moves `count` bits from a place on towards the first, and zeros in.
    #[inline]
    fn shift_left(
        order: u8,
        memory: &mut [Self],
        start: usize,
        count: usize,
        by: usize,
    ) -> Result<(), Refusal> {
        Refusal::check(edit::try_edit(
            order,
            Self::words_mut(memory),
            start,
            count,
            Edit::ShiftLeft(by),
        ))
    }

    /// Moves `count` bits from a place on towards the last, and zeros in.
    #[inline]
    fn shift_right(
        order: u8,
        memory: &mut [Self],
        start: usize,
        count: usize,
        by: usize,
    ) -> Result<(), Refusal> {
        Refusal::check(edit::try_edit(
            order,
            Self::words_mut(memory),
            start,
            count,
            Edit::ShiftRight(by),
        ))
    }

    /// Puts the first of `count` bits from a place on behind the others.
    #[inline]
    fn rotate_left(
        order: u8,
        memory: &mut [Self],
        start: usize,
        count: usize,
        by: usize,
    ) -> Result<(), Refusal> {
        Refusal::check(edit::try_edit(
            order,
            Self::words_mut(memory),
            start,
            count,
            Edit::RotateLeft(by),
        ))
    }

    combines! {
        /// Leaves one those of `count` bits whose bit in the source is one.
        and by And;

        /// Makes one those of `count` bits whose bit in the source is one.
        or by Or;

        /// Turns over those of `count` bits whose bit in the source is one.
        xor by Xor;

        /// Makes zero those of `count` bits whose bit in the source is one.
        and_not by AndNot;
    }

    asks! {
        /// Counts the bits that are one in two ranges.
        count_and by count_with, And;

        /// Counts the bits that are one in either of two ranges.
        count_or by count_with, Or;

        /// Finds the first bit that is one in two ranges, and answers `count` where there is none.
        first_and by first_with, And;

        /// Finds the first bit that is one in one range and zero in the other, and answers `count`
        /// where there is none.
        first_and_not by first_with, AndNot;

        /// Finds the first bit that is not the same in two ranges, and answers `count` where there is
        /// none.
        first_difference by first_with, Xor;
    }

    /// Copies `count` bits from a place of one memory, of words of any width, to a place of
    /// another,
    /// each under an order of its own.
    #[inline]
    fn convert(
        source_order: u8,
        source: &Words<'_>,
        from: usize,
        order: u8,
        target: (&mut [Self], usize),
        count: usize,
    ) -> Result<(), Refusal> {
        Refusal::check(of_words!(source, words: W => {
            let (target, to) = (Self::words_mut(target.0), target.1);
            convert::convert::<W, Self::Word>(source_order, words, from, order, target, to, count)
        }))
    }

    /// Writes the bit at a place, and answers it as it was.
    #[inline]
    fn replace(order: u8, memory: &mut [Self], place: usize, bit: bool) -> Result<bool, Refusal> {
        asked(|answer| exchange::replace(order, Self::words_mut(memory), place, bit, answer))
    }

    /// Exchanges the bits at two places.
    #[inline]
    fn swap(order: u8, memory: &mut [Self], place: usize, other: usize) -> Result<(), Refusal> {
        Refusal::check(exchange::swap(order, Self::words_mut(memory), place, other))
    }

    /// Writes a signed number to `count` bits from a place on.
    #[inline]
    fn store_signed(
        order: u8,
        big_endian: bool,
        memory: &mut [Self],
        start: usize,
        count: usize,
        number: i64,
    ) -> Result<(), Refusal> {
        Refusal::check(signed::store_signed(
            order,
            big_endian,
            Self::words_mut(memory),
            start,
            count,
            number,
        ))
    }

    /// Finds the first bit from an index on that is `bit`, and answers `count` where there is none.
    #[inline]
    fn next(
        order: u8,
        memory: &[Self],
        start: usize,
        count: usize,
        from: usize,
        bit: bool,
    ) -> Result<usize, Refusal> {
        asked(|answer| next::next(order, Self::words(memory), start, count, from, bit, answer))
    }

    /// Finds the last bit before an index that is `bit`, and answers `count` where there is none.
    #[inline]
    fn previous(
        order: u8,
        memory: &[Self],
        start: usize,
        count: usize,
        before: usize,
        bit: bool,
    ) -> Result<usize, Refusal> {
        asked(|answer| {
            next::previous(
                order,
                Self::words(memory),
                start,
                count,
                before,
                bit,
                answer,
            )
        })
    }

    /// Finds the first run of `zeros` zeros from an index on that starts at a multiple.
    #[inline]
    fn find_zeros_from(
        order: u8,
        memory: &[Self],
        range: (usize, usize),
        from: usize,
        zeros: usize,
        multiple_of: usize,
    ) -> Result<usize, Refusal> {
        asked(|answer| {
            next::find_zeros_from(
                order,
                Self::words(memory),
                range.0,
                range.1,
                from,
                zeros,
                multiple_of,
                answer,
            )
        })
    }

    /// Tests any number of spans, with room for the number of each.
    #[inline]
    fn can_run_in(
        order: u8,
        spans: &[Span],
        words: usize,
        room: &mut [usize],
    ) -> Result<(), Refusal> {
        Refusal::check(sorted::test_spans_in::<Self::Word>(
            order, spans, words, room,
        ))
    }

    /// Serves requests through any number of spans, with room for the number of each.
    #[inline]
    fn run_in(
        order: u8,
        spans: &[Span],
        memory: &mut [Self],
        requests: &[Request],
        replies: &mut [Reply],
        room: &mut [usize],
    ) -> Result<(), Refusal> {
        Refusal::check(run_in::run_plain_in(
            order,
            spans,
            Self::words_mut(memory),
            requests,
            replies,
            room,
        ))
    }

    /// Finds the first bit that is not the same in two ranges, of words of any width each, and
    /// answers `count` where there is none.
    #[inline]
    fn difference(
        order: u8,
        one: (&Words<'_>, usize),
        other_order: u8,
        other: (&[Self], usize),
        count: usize,
    ) -> Result<usize, Refusal> {
        let (other, there) = (Self::words(other.0), other.1);
        asked(|answer| {
            of_words!(one.0, words: W => question::first_with::<Xor, W, Self::Word>(
                order, words, one.1, other_order, other, there, count, answer,
            ))
        })
    }

    /// Reads the number of the next `count` bits before an end, and moves the place behind them.
    #[inline]
    fn read(
        order: u8,
        big_endian: bool,
        memory: &[Self],
        place: &mut usize,
        end: usize,
        count: usize,
    ) -> Result<u64, Refusal> {
        asked(|answer| {
            read::read(
                order,
                big_endian,
                Self::words(memory),
                place,
                end,
                count,
                answer,
            )
        })
    }

    /// Reads the signed number of the next `count` bits.
    #[inline]
    fn read_signed(
        order: u8,
        big_endian: bool,
        memory: &[Self],
        place: &mut usize,
        end: usize,
        count: usize,
    ) -> Result<i64, Refusal> {
        asked(|answer| {
            read::read_signed(
                order,
                big_endian,
                Self::words(memory),
                place,
                end,
                count,
                answer,
            )
        })
    }

    /// Counts the next bits that are `bit`, and passes the first that is not.
    #[inline]
    fn read_unary(
        order: u8,
        memory: &[Self],
        place: &mut usize,
        end: usize,
        bit: bool,
    ) -> Result<usize, Refusal> {
        asked(|answer| read_code::read_unary(order, Self::words(memory), place, end, bit, answer))
    }

    /// Reads a number's Exp-Golomb code.
    #[inline]
    fn read_exp_golomb(
        order: u8,
        memory: &[Self],
        place: &mut usize,
        end: usize,
    ) -> Result<u64, Refusal> {
        asked(|answer| read_code::read_exp_golomb(order, Self::words(memory), place, end, answer))
    }

    /// Reads a signed number's Exp-Golomb code.
    #[inline]
    fn read_signed_exp_golomb(
        order: u8,
        memory: &[Self],
        place: &mut usize,
        end: usize,
    ) -> Result<i64, Refusal> {
        asked(|answer| {
            read_code::read_signed_exp_golomb(order, Self::words(memory), place, end, answer)
        })
    }

    /// Writes a number in the next `count` bits before an end, and moves the place behind them.
    #[inline]
    fn write(
        order: u8,
        big_endian: bool,
        memory: &mut [Self],
        place: &mut usize,
        end: usize,
        count: usize,
        number: u64,
    ) -> Result<(), Refusal> {
        Refusal::check(write::write(
            order,
            big_endian,
            Self::words_mut(memory),
            place,
            end,
            count,
            number,
        ))
    }

    /// Writes a signed number in the next `count` bits.
    #[inline]
    fn write_signed(
        order: u8,
        big_endian: bool,
        memory: &mut [Self],
        place: &mut usize,
        end: usize,
        count: usize,
        number: i64,
    ) -> Result<(), Refusal> {
        Refusal::check(write::write_signed(
            order,
            big_endian,
            Self::words_mut(memory),
            place,
            end,
            count,
            number,
        ))
    }

    /// Writes `count` bits that are `bit`, and one that is not.
    #[inline]
    fn write_unary(
        order: u8,
        memory: &mut [Self],
        place: &mut usize,
        end: usize,
        bit: bool,
        count: usize,
    ) -> Result<(), Refusal> {
        Refusal::check(write_code::write_unary(
            order,
            Self::words_mut(memory),
            place,
            end,
            bit,
            count,
        ))
    }

    /// Writes a number's Exp-Golomb code.
    #[inline]
    fn write_exp_golomb(
        order: u8,
        memory: &mut [Self],
        place: &mut usize,
        end: usize,
        number: u64,
    ) -> Result<(), Refusal> {
        Refusal::check(write_code::write_exp_golomb(
            order,
            Self::words_mut(memory),
            place,
            end,
            number,
        ))
    }

    /// Writes a signed number's Exp-Golomb code.
    #[inline]
    fn write_signed_exp_golomb(
        order: u8,
        memory: &mut [Self],
        place: &mut usize,
        end: usize,
        number: i64,
    ) -> Result<(), Refusal> {
        Refusal::check(write_code::write_signed_exp_golomb(
            order,
            Self::words_mut(memory),
            place,
            end,
            number,
        ))
    }

    /// Tests the spans of a run over a number of words.
    #[inline]
    fn can_run(order: u8, spans: &[Span], words: usize) -> Result<(), Refusal> {
        Refusal::check(run::test_spans::<Self::Word>(order, spans, words))
    }

    /// Serves requests through spans.
    #[inline]
    fn run(
        order: u8,
        spans: &[Span],
        memory: &mut [Self],
        requests: &[Request],
        replies: &mut [Reply],
    ) -> Result<(), Refusal> {
        Refusal::check(run::run_plain(
            order,
            spans,
            Self::words_mut(memory),
            requests,
            replies,
        ))
    }
}

macro_rules! exports {
    ($($t:ident by $seen:ident, $same:ident;)*) => {
        $(impl Exports for $t {
            type Word = Self;

            #[inline]
            fn words(words: &[Self]) -> &[Self] {
                words
            }

            #[inline]
            fn words_mut(words: &mut [Self]) -> &mut [Self] {
                words
            }

            #[inline]
            fn seen(words: &[Self]) -> Words<'_> {
                Words::$seen(words)
            }

            #[inline]
            fn same<'a>(words: &Words<'a>) -> Option<&'a [Self]> {
                words.$same()
            }
        })*
    };
}

exports! {
    u8 by U8, u8s;
    u16 by U16, u16s;
    u32 by U32, u32s;
    u64 by U64, u64s;
    usize by Usize, usizes;
}
