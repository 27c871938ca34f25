//! What the safe functions above rule out: the statuses of the exports for arguments of any kind.
//! The first condition that does not hold is answered, and nothing is changed.

use super::{Exports, Reply, Request, Span};
use crate::refusal::Refusal;
use std::fmt::Debug;
use std::vec;

/// Of words of equal bits, so that the numbers of all widths are alike.
trait Word: Exports + Eq + Debug {
    const WIDTH: usize;
    const ZERO: Self;
}

macro_rules! words {
    ($($t:ident)*) => {
        $(impl Word for $t {
            const WIDTH: usize = $t::BITS as usize;
            const ZERO: Self = 0;
        })*
    };
}

words!(u8 u16 u32 u64);

/// Asks the same of all widths.
macro_rules! for_all_widths {
    ($($test:ident)*) => { $(
        #[test]
        fn $test() {
            cases::$test::<u8>();
            cases::$test::<u16>();
            cases::$test::<u32>();
            cases::$test::<u64>();
        }
    )* };
}

for_all_widths!(
    an_order_is_0_or_1 ranges_are_short_enough ranges_lie_in_their_memory numbers_are_narrow_enough
    conditions_come_in_order streams_are_ranges streams_have_bits_and_digits
    written_streams_are_ranges written_streams_have_bits_and_digits
    runs_have_lawful_spans runs_have_room_and_commands
);

mod cases {
    use super::*;

    /// How many bits a range has at most.
    const MOST: usize = usize::MAX / 8;

    /// What every call on one range answers for it, which has to be the same of all.
    fn of_range<T: Word>(order: u8, start: usize, count: usize) -> Result<(), Refusal> {
        let mut memory = [T::ZERO; 3];
        let answers = [
            T::fill(order, &mut memory, start, count, true),
            T::copy_within(order, &mut memory, start, 0, count),
            T::copy_within(order, &mut memory, 0, start, count),
            T::copy(order, (&[T::ZERO; 3], start), (&mut memory, 0), count),
            T::copy(order, (&[T::ZERO; 3], 0), (&mut memory, start), count),
            T::count_ones(order, &memory, start, count).map(|_| ()),
            T::first_one(order, &memory, start, count).map(|_| ()),
            T::equal(order, (&memory, start), (&memory, 0), count).map(|_| ()),
            T::equal(order, (&memory, 0), (&memory, start), count).map(|_| ()),
            T::first(order, &memory, start, count, true).map(|_| ()),
            T::last(order, &memory, start, count, true).map(|_| ()),
            T::next(order, &memory, start, count, 0, true).map(|_| ()),
            T::previous(order, &memory, start, count, 9, true).map(|_| ()),
            T::find_zeros(order, &memory, start, count, 1).map(|_| ()),
            T::find_zeros_from(order, &memory, (start, count), 0, 1, 0).map(|_| ()),
            T::invert(order, &mut memory, start, count),
            T::reverse(order, &mut memory, start, count),
            T::shift_left(order, &mut memory, start, count, 0),
            T::shift_right(order, &mut memory, start, count, 0),
            T::rotate_left(order, &mut memory, start, count, 0),
            T::and(
                order,
                (&[T::ZERO; 3], start),
                order,
                (&mut memory, 0),
                count,
            ),
            T::or(
                order,
                (&[T::ZERO; 3], 0),
                order,
                (&mut memory, start),
                count,
            ),
            T::xor(
                order,
                (&[T::ZERO; 3], start),
                order,
                (&mut memory, 0),
                count,
            ),
            T::and_not(
                order,
                (&[T::ZERO; 3], 0),
                order,
                (&mut memory, start),
                count,
            ),
            T::convert(
                order,
                &T::seen(&[T::ZERO; 3]),
                start,
                order,
                (&mut memory, 0),
                count,
            ),
            T::count_and(order, (&memory, start), order, (&memory, 0), count).map(|_| ()),
            T::count_or(order, (&memory, 0), order, (&memory, start), count).map(|_| ()),
            T::first_and(order, (&memory, 0), order, (&memory, start), count).map(|_| ()),
            T::first_and_not(order, (&memory, start), order, (&memory, 0), count).map(|_| ()),
            T::first_difference(order, (&memory, 0), order, (&memory, start), count).map(|_| ()),
            T::difference(
                order,
                (&T::seen(&memory), start),
                order,
                (&memory, 0),
                count,
            )
            .map(|_| ()),
            T::can_run_in(order, &[Span { start, count }], 3, &mut [0]),
            T::can_run(order, &[Span { start, count }], 3),
            T::run(order, &[Span { start, count }], &mut memory, &[], &mut []),
            T::run_in(
                order,
                &[Span { start, count }],
                &mut memory,
                &[],
                &mut [],
                &mut [0],
            ),
        ];
        assert!(answers.iter().all(|it| *it == answers[0]), "{answers:?}");
        if answers[0].is_err() {
            assert_eq!(memory, [T::ZERO; 3]);
        }
        answers[0]
    }

    /// What the calls on one bit answer.
    fn of_bit<T: Word>(order: u8, place: usize) -> Result<(), Refusal> {
        let mut memory = [T::ZERO; 3];
        let answer = T::set(order, &mut memory, place, true);
        assert_eq!(T::get(order, &memory, place).map(|_| ()), answer);
        assert_eq!(
            T::replace(order, &mut memory, place, true),
            answer.map(|()| true)
        );
        assert_eq!(T::swap(order, &mut memory, place, place), answer);
        assert_eq!(memory == [T::ZERO; 3], answer.is_err());
        answer
    }

    /// What the calls on one number answer.
    fn of_number<T: Word>(order: u8, start: usize, count: usize) -> Result<(), Refusal> {
        let mut memory = [T::ZERO; 9];
        let answer = T::store(order, false, &mut memory, start, count, u64::MAX);
        assert_eq!(memory == [T::ZERO; 9], answer.is_err());
        let others = [
            T::store(order, true, &mut memory, start, count, u64::MAX),
            T::load(order, false, &memory, start, count).map(|_| ()),
            T::load(order, true, &memory, start, count).map(|_| ()),
            T::store_signed(order, true, &mut memory, start, count, -1),
        ];
        assert_eq!(others, [answer; 4]);
        answer
    }

    pub fn an_order_is_0_or_1<T: Word>() {
        for (order, expected) in [
            (0, Ok(())),
            (1, Ok(())),
            (2, Err(Refusal::NoOrder)),
            (u8::MAX, Err(Refusal::NoOrder)),
        ] {
            assert_eq!(of_range::<T>(order, 3, 4), expected);
            assert_eq!(of_bit::<T>(order, 3), expected);
            assert_eq!(of_number::<T>(order, 3, 4), expected);
        }
    }

    pub fn ranges_are_short_enough<T: Word>() {
        for start in [0, 7, 3 * T::WIDTH, MOST, usize::MAX] {
            assert_eq!(of_range::<T>(0, start, MOST), Err(Refusal::OUTSIDE));
            assert_eq!(of_range::<T>(1, start, MOST + 1), Err(Refusal::TooLong));
            assert_eq!(of_range::<T>(0, start, usize::MAX), Err(Refusal::TooLong));
            assert_eq!(of_number::<T>(0, start, usize::MAX), Err(Refusal::TooLong));
        }
    }

    pub fn ranges_lie_in_their_memory<T: Word>() {
        let bits = 3 * T::WIDTH;
        for start in 0..bits {
            assert_eq!(of_range::<T>(1, start, bits - start), Ok(()));
            assert_eq!(
                of_range::<T>(1, start, bits - start + 1),
                Err(Refusal::OUTSIDE)
            );
            assert_eq!(of_bit::<T>(0, start), Ok(()));
        }
        for far in [
            bits,
            bits + 1,
            MOST,
            usize::MAX / 2,
            usize::MAX - 1,
            usize::MAX,
        ] {
            assert_eq!(of_range::<T>(0, far, 1), Err(Refusal::OUTSIDE));
            assert_eq!(of_range::<T>(0, far, 2), Err(Refusal::OUTSIDE));
            assert_eq!(of_bit::<T>(1, far), Err(Refusal::OUTSIDE));
        }
        assert_eq!(of_range::<T>(0, bits, 0), Ok(()));
        assert_eq!(of_range::<T>(0, bits + 1, 0), Err(Refusal::OUTSIDE));
    }

    pub fn numbers_are_narrow_enough<T: Word>() {
        for start in 0..8 {
            assert_eq!(of_number::<T>(1, start, 64), Ok(()));
            assert_eq!(of_number::<T>(1, start, 65), Err(Refusal::TooWide));
            let past = if start == 0 {
                Refusal::TooWide
            } else {
                Refusal::OUTSIDE
            };
            assert_eq!(of_number::<T>(0, start, 9 * T::WIDTH), Err(past));
        }
    }

    pub fn conditions_come_in_order<T: Word>() {
        assert_eq!(of_range::<T>(2, 0, usize::MAX), Err(Refusal::NoOrder));
        assert_eq!(
            of_range::<T>(0, usize::MAX, usize::MAX),
            Err(Refusal::TooLong)
        );
        assert_eq!(of_number::<T>(0, usize::MAX, 65), Err(Refusal::OUTSIDE));
        assert_eq!(of_bit::<T>(2, usize::MAX), Err(Refusal::NoOrder));
    }

    /// What the calls on a stream answer, each before no bits, and that none moves where it refuses.
    fn of_stream<T: Word>(order: u8, place: usize, end: usize) -> Result<(), Refusal> {
        let (memory, mut to) = ([T::ZERO; 3], place);
        let answer = T::read(order, false, &memory, &mut to, end, 0).map(|_| ());
        let others = [
            T::read(order, true, &memory, &mut to, end, 0).map(|_| ()),
            T::read_signed(order, true, &memory, &mut to, end, 0).map(|_| ()),
        ];
        assert_eq!(others, [answer; 2]);
        let some = if answer.is_ok() && place == end {
            Err(Refusal::TooFew)
        } else {
            answer
        };
        if some.is_err() {
            let others = [
                T::read_unary(order, &memory, &mut to, end, true).map(|_| ()),
                T::read_exp_golomb(order, &memory, &mut to, end).map(|_| ()),
                T::read_signed_exp_golomb(order, &memory, &mut to, end).map(|_| ()),
            ];
            assert_eq!(others, [some; 3]);
        }
        assert_eq!(to, place);
        answer
    }

    pub fn streams_are_ranges<T: Word>() {
        let bits = 3 * T::WIDTH;
        for place in 0..=bits {
            assert_eq!(of_stream::<T>(1, place, bits), Ok(()));
            assert_eq!(of_stream::<T>(0, place, place), Ok(()));
            assert_eq!(of_stream::<T>(2, place, bits), Err(Refusal::NoOrder));
            assert_eq!(of_stream::<T>(0, place, bits + 1), Err(Refusal::OUTSIDE));
            assert_eq!(of_stream::<T>(1, place + 1, place), Err(Refusal::OUTSIDE));
        }
        for far in [bits + 1, MOST, usize::MAX - 1, usize::MAX] {
            assert_eq!(of_stream::<T>(0, far, far), Err(Refusal::OUTSIDE));
            assert_eq!(of_stream::<T>(1, far, 0), Err(Refusal::OUTSIDE));
            assert_eq!(of_stream::<T>(1, far, bits), Err(Refusal::OUTSIDE));
        }
        assert_eq!(of_stream::<T>(0, 0, MOST), Err(Refusal::OUTSIDE));
        assert_eq!(of_stream::<T>(0, 0, MOST + 1), Err(Refusal::TooLong));
        assert_eq!(of_stream::<T>(2, 0, usize::MAX), Err(Refusal::NoOrder));
    }

    pub fn streams_have_bits_and_digits<T: Word>() {
        let (memory, bits) = ([T::ZERO; 9], 9 * T::WIDTH);
        let (few, wide) = (Err(Refusal::TooFew), Err(Refusal::TooWide));
        for (place, count) in [(5, 65), (bits, usize::MAX)] {
            let mut to = place;
            assert_eq!(T::read(0, true, &memory, &mut to, bits, count), wide);
            let signed = T::read_signed(1, false, &memory, &mut to, bits, count);
            assert_eq!(signed, Err(Refusal::TooWide));
            assert_eq!(to, place);
        }
        let mut to = 7;
        assert_eq!(T::read(1, true, &memory, &mut to, 10, 4), few);
        assert_eq!(T::read_exp_golomb(0, &memory, &mut to, 11), few);
        let run = T::read_unary(1, &memory, &mut to, 11, false);
        assert_eq!(run, Err(Refusal::TooFew));
        assert_eq!(to, 7);
        assert_eq!(T::read(1, true, &memory, &mut to, 11, 4), Ok(0));
        assert_eq!(to, 11);
        assert_eq!(T::read_unary(1, &memory, &mut to, 12, true), Ok(0));
        assert_eq!(to, 12);
    }

    /// What the calls that write to a stream answer, each no bits, and that none moves or writes
    /// where it refuses.
    fn of_target<T: Word>(order: u8, place: usize, end: usize) -> Result<(), Refusal> {
        let (mut memory, mut to) = ([T::ZERO; 3], place);
        let answer = T::write(order, false, &mut memory, &mut to, end, 0, 0);
        let others = [
            T::write(order, true, &mut memory, &mut to, end, 0, 0),
            T::write_signed(order, true, &mut memory, &mut to, end, 0, 0),
        ];
        assert_eq!(others, [answer; 2]);
        let some = if answer.is_ok() && place == end {
            Err(Refusal::TooFew)
        } else {
            answer
        };
        if some.is_err() {
            let others = [
                T::write(order, false, &mut memory, &mut to, end, 1, 1),
                T::write_signed(order, false, &mut memory, &mut to, end, 1, -1),
                T::write_unary(order, &mut memory, &mut to, end, true, 0),
                T::write_unary(order, &mut memory, &mut to, end, false, usize::MAX),
                T::write_exp_golomb(order, &mut memory, &mut to, end, 0),
                T::write_signed_exp_golomb(order, &mut memory, &mut to, end, 0),
            ];
            assert_eq!(others, [some; 6]);
        }
        assert_eq!((to, memory), (place, [T::ZERO; 3]));
        answer
    }

    pub fn written_streams_are_ranges<T: Word>() {
        let bits = 3 * T::WIDTH;
        for place in 0..=bits {
            assert_eq!(of_target::<T>(1, place, bits), Ok(()));
            assert_eq!(of_target::<T>(0, place, place), Ok(()));
            assert_eq!(of_target::<T>(2, place, bits), Err(Refusal::NoOrder));
            assert_eq!(of_target::<T>(0, place, bits + 1), Err(Refusal::OUTSIDE));
            assert_eq!(of_target::<T>(1, place + 1, place), Err(Refusal::OUTSIDE));
        }
        for far in [bits + 1, MOST, usize::MAX - 1, usize::MAX] {
            assert_eq!(of_target::<T>(0, far, far), Err(Refusal::OUTSIDE));
            assert_eq!(of_target::<T>(1, far, 0), Err(Refusal::OUTSIDE));
            assert_eq!(of_target::<T>(1, far, bits), Err(Refusal::OUTSIDE));
        }
        assert_eq!(of_target::<T>(0, 0, MOST), Err(Refusal::OUTSIDE));
        assert_eq!(of_target::<T>(0, 0, MOST + 1), Err(Refusal::TooLong));
        assert_eq!(of_target::<T>(2, 0, usize::MAX), Err(Refusal::NoOrder));
    }

    pub fn written_streams_have_bits_and_digits<T: Word>() {
        let (mut memory, bits) = ([T::ZERO; 9], 9 * T::WIDTH);
        let (few, wide, large) = (
            Err(Refusal::TooFew),
            Err(Refusal::TooWide),
            Err(Refusal::TooLarge),
        );
        for (place, count) in [(5, 65), (bits, usize::MAX)] {
            let (to, number) = (&mut { place }, i64::MAX);
            let unsigned = T::write(0, true, &mut memory, to, bits, count, u64::MAX);
            assert_eq!(unsigned, wide);
            let signed = T::write_signed(1, false, &mut memory, to, bits, count, number);
            assert_eq!(signed, wide);
            assert_eq!(*to, place);
        }
        let to = &mut 7;
        assert_eq!(T::write(1, true, &mut memory, to, 10, 4, 16), few);
        assert_eq!(T::write(1, true, &mut memory, to, 11, 4, 16), large);
        assert_eq!(T::write(0, false, &mut memory, to, 11, 0, 1), large);
        for number in [8, -9, i64::MIN] {
            assert_eq!(
                T::write_signed(0, true, &mut memory, to, 10, 4, number),
                few
            );
            assert_eq!(
                T::write_signed(0, true, &mut memory, to, 11, 4, number),
                large
            );
        }
        assert_eq!(T::write_unary(1, &mut memory, to, 11, true, 4), few);
        assert_eq!(T::write_exp_golomb(0, &mut memory, to, 11, 3), few);
        let most = T::write_exp_golomb(1, &mut memory, to, 8, u64::MAX);
        assert_eq!(most, few);
        let least = T::write_signed_exp_golomb(1, &mut memory, to, 8, i64::MIN);
        assert_eq!(least, few);
        assert_eq!((*to, memory), (7, [T::ZERO; 9]));

        assert_eq!(T::write(1, true, &mut memory, to, 11, 4, 11), Ok(()));
        assert_eq!(*to, 11);
        let signed = T::write_signed(1, true, &mut memory, to, 15, 4, -8);
        assert_eq!((*to, signed), (15, Ok(())));
        assert_eq!(T::write_unary(1, &mut memory, to, 18, true, 2), Ok(()));
        assert_eq!(*to, 18);
        assert_eq!(T::write_exp_golomb(1, &mut memory, to, 23, 3), Ok(()));
        assert_eq!(*to, 23);
        let code = T::write_signed_exp_golomb(1, &mut memory, to, 26, -1);
        assert_eq!((*to, code), (26, Ok(())));
        let written = concat!("1011", "1000", "110", "00100", "011", "0000");
        let expected = u64::from_str_radix(written, 2).unwrap();
        let answer = T::read(1, true, &memory, &mut 0, bits, 30);
        assert_eq!(answer, Ok(expected));
    }

    pub fn runs_have_lawful_spans<T: Word>() {
        let span = |start, count| Span { start, count };
        let (few, far, long) = (span(0, 9), span(9 * T::WIDTH, 1), span(0, MOST + 1));
        for (spans, expected) in [
            (vec![span(0, 0); 65], Refusal::TooManySpans),
            (vec![long; 65], Refusal::TooManySpans),
            (vec![far, few, few, long], Refusal::TooLong),
            (vec![few, few, far], Refusal::OUTSIDE),
            (vec![few, span(9, 9), span(8, 1)], Refusal::Overlap),
        ] {
            let mut memory = [T::ZERO; 9];
            assert_eq!(T::can_run(2, &spans, 9), Err(Refusal::NoOrder));
            assert_eq!(T::can_run(0, &spans, 9), Err(expected));
            assert_eq!(T::run(1, &spans, &mut memory, &[], &mut []), Err(expected));
            let replies = &mut [Reply::default()];
            assert_eq!(T::run(1, &spans, &mut memory, &[], replies), Err(expected));
        }
        assert_eq!(T::can_run(1, &[few, span(9, 9), span(3, 0)], 9), Ok(()));
        assert_eq!(T::can_run(1, &[span(3, 0); 64], 9), Ok(()));
    }

    pub fn runs_have_room_and_commands<T: Word>() {
        let spans = [Span { start: 1, count: 5 }];
        let request = |command| Request {
            span: 0,
            a: 0,
            b: 0,
            count: 0,
            number: 0,
            command,
        };
        let (set, wrong) = (request(2), request(10));
        let before = Reply {
            number: 7,
            kind: 77,
        };
        for (requests, room, expected) in [
            (vec![set; 2], 1, Refusal::NoRoom),
            (vec![set, wrong], 3, Refusal::NoRoom),
            (vec![set, wrong], 2, Refusal::NoCommand),
            (vec![Request { span: 9, ..wrong }], 1, Refusal::NoCommand),
            (vec![request(u8::MAX)], 1, Refusal::NoCommand),
        ] {
            let (mut memory, mut replies) = ([T::ZERO; 3], vec![before; room]);
            let answer = T::run(0, &spans, &mut memory, &requests, &mut replies);
            assert_eq!(answer, Err(expected));
            assert_eq!(memory, [T::ZERO; 3]);
            assert_eq!(replies, vec![before; room]);
        }
        let (mut memory, mut replies) = ([T::ZERO; 3], [before; 2]);
        let requests = [set, Request { span: 1, ..set }];
        assert_eq!(
            T::run(0, &spans, &mut memory, &requests, &mut replies),
            Ok(())
        );
        let expected = [Reply { number: 0, kind: 0 }, Reply { number: 0, kind: 4 }];
        assert_eq!(replies, expected);
    }
}
