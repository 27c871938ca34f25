//! Readers and writers of numbers against the model: each answer or refusal, the place after it,
//! and the bits that a writer leaves, in the slice and outside it.

mod common;

use common::{CASES, Random, for_all_edges, for_all_memories};
use worghulen::{BitReader, BitView, BitWriter, Lsb0, Msb0, Refusal};

for_all_memories!(numbers_are_read, 41);
for_all_memories!(runs_and_codes_are_read, 42);
for_all_memories!(bits_and_slices_are_read, 43);
for_all_memories!(numbers_are_written, 44);
for_all_memories!(runs_and_codes_are_written, 45);
for_all_memories!(bits_and_slices_are_written, 46);
for_all_memories!(reads_take_turns, 47);
for_all_memories!(writes_take_turns, 48);
for_all_edges!(rows_are_read, 49);
for_all_edges!(rows_are_written, 50);
for_all_edges!(rows_of_codes_are_read, 52);
for_all_edges!(rows_of_codes_are_written, 53);

mod cases {
    use crate::common::{Layout, Random, Word, bits_of, checked, with_any_other};
    use std::fmt::Debug;
    use std::ops::Range;
    use worghulen::{BitReader, BitSlice, BitSliceMut, BitWriter, Number, Refusal};
    use worghulen::{Lsb0, Msb0};

    /// A number that the model knows as one of 128 bits.
    trait Plain: Number + Eq + Debug + TryFrom<i128> + Into<i128> {
        const DIGITS: usize;
        const IS_SIGNED: bool;
    }

    macro_rules! plain {
        ($($t:ident)*) => {
            $(impl Plain for $t {
                const DIGITS: usize = $t::BITS as usize;
                const IS_SIGNED: bool = $t::MIN != 0;
            })*
        };
    }

    plain!(u8 u16 u32 u64 i8 i16 i32 i64);

    /// Words, a range among their bits, and all bits.
    fn case<T: Word, O: Layout>(random: &mut Random) -> (Vec<T>, Range<usize>, Vec<bool>) {
        let words = random.words::<T>();
        let bits = bits_of::<T, O>(&words);
        let range = random.range(bits.len());
        let range = checked(&range, bits.len()).unwrap_or(0..bits.len());
        (words, range, bits)
    }

    /// The digits of a list of bits, the first highest or lowest, as a number of that type.
    fn number_of<N: Plain>(bits: &[bool], big: bool) -> N {
        let digit = |number: i128, bit: &bool| number << 1 | i128::from(*bit);
        let plain = if big {
            bits.iter().fold(0, digit)
        } else {
            bits.iter().rev().fold(0, digit)
        };
        let negative = N::IS_SIGNED && !bits.is_empty() && plain >> (bits.len() - 1) == 1;
        N::try_from(if negative {
            plain - (1 << bits.len())
        } else {
            plain
        })
        .unwrap_or_else(|_| panic!("{plain} is no number of the type"))
    }

    /// The number of the code that a list begins with, and how long that is.
    fn code_in<N: Plain>(bits: &[bool]) -> Result<(N, usize), Refusal> {
        let zeros = bits.iter().position(|bit| *bit).ok_or(Refusal::TooFew)?;
        let digits = bits.get(zeros..2 * zeros + 1).ok_or(Refusal::TooFew)?;
        if zeros > 100 {
            return Err(Refusal::TooLarge);
        }
        let above = digits
            .iter()
            .fold(0_i128, |n, bit| n << 1 | i128::from(*bit));
        let plain = if !N::IS_SIGNED {
            above - 1
        } else if above % 2 == 0 {
            above / 2
        } else {
            -(above / 2)
        };
        let number = N::try_from(plain).map_err(|_| Refusal::TooLarge)?;
        Ok((number, 2 * zeros + 1))
    }

    /// Asks the same of each type of numbers.
    macro_rules! of_all_types {
        ($random:ident, $call:ident::<$t:ident, $o:ident>) => {
            match $random.below(8) {
                0 => $call::<$t, $o, u8>($random),
                1 => $call::<$t, $o, u16>($random),
                2 => $call::<$t, $o, u32>($random),
                3 => $call::<$t, $o, u64>($random),
                4 => $call::<$t, $o, i8>($random),
                5 => $call::<$t, $o, i16>($random),
                6 => $call::<$t, $o, i32>($random),
                _ => $call::<$t, $o, i64>($random),
            }
        };
    }

    fn reads_numbers<T: Word, O: Layout, N: Plain>(random: &mut Random) {
        let (words, range, bits) = case::<T, O>(random);
        let model = &bits[range.clone()];
        let mut reader = BitReader::new(BitSlice::<T, O>::new(&words, range).unwrap());
        let mut place = 0;
        for _ in 0..8 {
            let (count, big) = (random.below(N::DIGITS + 2), random.bit());
            let expected = if count > N::DIGITS {
                Err(Refusal::TooWide)
            } else if count > model.len() - place {
                Err(Refusal::TooFew)
            } else {
                place += count;
                Ok(number_of::<N>(&model[place - count..place], big))
            };
            let answer = if big {
                reader.read_be::<N>(count)
            } else {
                reader.read_le::<N>(count)
            };
            assert_eq!(answer, expected);
            assert_eq!(reader.position(), place);
            assert_eq!(reader.remaining(), model.len() - place);
        }
    }

    pub fn numbers_are_read<T: Word, O: Layout>(random: &mut Random) {
        of_all_types!(random, reads_numbers::<T, O>);
    }

    fn reads_codes<T: Word, O: Layout, N: Plain>(random: &mut Random) {
        let (words, range, bits) = case::<T, O>(random);
        let model = &bits[range.clone()];
        let mut reader = BitReader::new(BitSlice::<T, O>::new(&words, range).unwrap());
        let mut place = 0;
        for _ in 0..8 {
            let left = &model[place..];
            if random.one_in(4) {
                let bit = random.bit();
                let expected = left.iter().position(|it| *it != bit);
                place += expected.map_or(0, |count| count + 1);
                let expected = expected.ok_or(Refusal::TooFew);
                assert_eq!(reader.read_unary(bit), expected);
            } else {
                let expected = code_in::<N>(left).map(|(number, len)| {
                    place += len;
                    number
                });
                assert_eq!(reader.read_exp_golomb::<N>(), expected);
            }
            assert_eq!(reader.position(), place);
        }
    }

    pub fn runs_and_codes_are_read<T: Word, O: Layout>(random: &mut Random) {
        of_all_types!(random, reads_codes::<T, O>);
    }

    pub fn bits_and_slices_are_read<T: Word, O: Layout>(random: &mut Random) {
        let (words, range, bits) = case::<T, O>(random);
        let model = &bits[range.clone()];
        let mut reader = BitReader::new(BitSlice::<T, O>::new(&words, range).unwrap());
        let mut place = 0;
        for _ in 0..6 {
            let count = random.below(20);
            let expected = model[place..].get(..count).ok_or(Refusal::TooFew);
            match random.below(3) {
                0 => {
                    let bit = model.get(place).copied().ok_or(Refusal::TooFew);
                    assert_eq!(reader.read_bit(), bit);
                    place += usize::from(bit.is_ok());
                }
                1 => {
                    assert_eq!(reader.skip(count), expected.map(|_| ()));
                    place += expected.map_or(0, <[_]>::len);
                }
                _ => {
                    let slice = reader.read_slice(count);
                    let list = slice.map(|slice| slice.iter().by_vals().collect::<Vec<_>>());
                    assert_eq!(list.as_deref(), expected.as_ref().copied());
                    place += expected.map_or(0, <[_]>::len);
                }
            }
            assert_eq!(reader.position(), place);
            assert_eq!(reader.rest().iter().collect::<Vec<_>>(), model[place..]);
        }
    }

    /// The lowest digits of a number, the first highest or lowest.
    fn digits_of(number: i128, count: usize, big: bool) -> Vec<bool> {
        let digit = |at: usize| number >> if big { count - 1 - at } else { at } & 1 == 1;
        (0..count).map(digit).collect()
    }

    /// The code of a number.
    fn code_of<N: Plain>(number: N) -> Vec<bool> {
        let plain: i128 = number.into();
        let above = if !N::IS_SIGNED {
            plain + 1
        } else if plain > 0 {
            2 * plain
        } else {
            1 - 2 * plain
        };
        let zeros = above.ilog2() as usize;
        let mut code = vec![false; zeros];
        code.extend(digits_of(above, zeros + 1, true));
        code
    }

    /// A read of a number, or a look at it.
    fn takes<T: Word, O: Layout, N: Plain>(
        random: &mut Random,
        reader: &mut BitReader<'_, T, O>,
        left: &[bool],
    ) -> usize {
        let (count, big) = (random.below(N::DIGITS + 2), random.bit());
        let number = |big| {
            if count > N::DIGITS {
                return Err(Refusal::TooWide);
            }
            let bits = left.get(..count).ok_or(Refusal::TooFew)?;
            Ok(number_of::<N>(bits, big))
        };
        let (is_msb0, looks) = (O::digit(0, 8) == 7, random.bit());
        let (answer, expected) = match (looks, big) {
            (true, _) => (reader.peek::<N>(count), number(is_msb0)),
            (_, true) => (reader.read_be::<N>(count), number(true)),
            (_, false) => (reader.read_le::<N>(count), number(false)),
        };
        assert_eq!(answer, expected);
        if looks || answer.is_err() { 0 } else { count }
    }

    pub fn reads_take_turns<T: Word, O: Layout>(random: &mut Random) {
        let words: Vec<T> = (0..random.below(14))
            .map(|_| T::of(random.number()))
            .collect();
        let bits = bits_of::<T, O>(&words);
        let from = random.below(bits.len() + 1);
        let model = &bits[from..];
        let mut reader = BitReader::new(BitSlice::<T, O>::new(&words, from..).unwrap());
        let mut place = 0;
        for _ in 0..random.below(24) {
            let left = &model[place..];
            place += match random.below(8) {
                0 => takes::<T, O, u8>(random, &mut reader, left),
                1 => takes::<T, O, i16>(random, &mut reader, left),
                2 => takes::<T, O, u32>(random, &mut reader, left),
                3 => takes::<T, O, i64>(random, &mut reader, left),
                4 | 5 => takes::<T, O, u64>(random, &mut reader, left),
                6 => {
                    let bit = left.first().copied().ok_or(Refusal::TooFew);
                    assert_eq!(reader.read_bit(), bit);
                    usize::from(bit.is_ok())
                }
                _ => {
                    let count = random.below(90);
                    let is_there = count <= left.len();
                    assert_eq!(reader.skip(count).is_ok(), is_there);
                    if is_there { count } else { 0 }
                }
            };
            assert_eq!(
                (reader.position(), reader.remaining()),
                (place, model.len() - place)
            );
        }
        assert_eq!(reader.rest().iter().collect::<Vec<_>>(), model[place..]);
    }

    /// Words that have a range, and at most two that have none of it behind them; and all bits.
    fn words_around<T: Word, O: Layout>(
        random: &mut Random,
        range: &Range<usize>,
    ) -> (Vec<T>, Vec<bool>) {
        let count = range.end.div_ceil(T::BITS) + random.below(3);
        let words: Vec<T> = (0..count).map(|_| T::of(random.number())).collect();
        let bits = bits_of::<T, O>(&words);
        (words, bits)
    }

    /// How many bits the numbers of a row have: most of them as many.
    fn widths(random: &mut Random) -> impl FnMut(&mut Random) -> usize + use<> {
        let width = 1 + random.below(64);
        move |random| {
            if random.one_in(8) {
                random.below(65)
            } else {
                width
            }
        }
    }

    pub fn rows_are_read<T: Word, O: Layout>(random: &mut Random, range: Range<usize>) {
        let (words, bits) = words_around::<T, O>(random, &range);
        let model = &bits[range.clone()];
        let mut reader = BitReader::new(BitSlice::<T, O>::new(&words, range).unwrap());
        let (mut width, is_msb0, mut place) = (widths(random), O::digit(0, 8) == 7, 0);
        loop {
            let (count, big) = (width(random), random.bit());
            let list = model.get(place..place + count).ok_or(Refusal::TooFew);
            if random.one_in(4) {
                let expected = list.map(|list| number_of::<u64>(list, is_msb0));
                assert_eq!(reader.peek::<u64>(count), expected);
            }
            let expected = list.map(|list| number_of::<u64>(list, big));
            let answer = if big {
                reader.read_be::<u64>(count)
            } else {
                reader.read_le::<u64>(count)
            };
            assert_eq!(answer, expected);
            if answer.is_err() {
                break;
            }
            place += count;
            assert_eq!(reader.position(), place);
        }
        assert_eq!(reader.rest().iter().collect::<Vec<_>>(), model[place..]);
    }

    /// A read of a code: how many bits are passed over.
    fn takes_code<T: Word, O: Layout, N: Plain>(
        reader: &mut BitReader<'_, T, O>,
        left: &[bool],
    ) -> usize {
        let expected = code_in::<N>(left);
        let number = expected.map(|(number, _)| number);
        assert_eq!(reader.read_exp_golomb::<N>(), number);
        expected.map_or(0, |(_, len)| len)
    }

    pub fn rows_of_codes_are_read<T: Word, O: Layout>(random: &mut Random, range: Range<usize>) {
        // (with more zeros than ones, mostly)
        let (mut words, _) = words_around::<T, O>(random, &range);
        for _ in 0..random.below(4) {
            let mask = random.number();
            let thin = |word: &mut T| *word = T::of(word.number() & mask);
            words.iter_mut().for_each(thin);
        }
        let bits = bits_of::<T, O>(&words);
        let model = &bits[range.clone()];
        let mut reader = BitReader::new(BitSlice::<T, O>::new(&words, range).unwrap());
        let mut place = 0;
        for _ in 0..5 {
            let count = random.below(40).min(model.len() - place);
            assert_eq!(reader.skip(count), Ok(()));
            place += count;
            let left = &model[place..];
            place += match random.below(8) {
                0 => takes_code::<T, O, u8>(&mut reader, left),
                1 => takes_code::<T, O, i16>(&mut reader, left),
                2 => takes_code::<T, O, i64>(&mut reader, left),
                _ => takes_code::<T, O, u64>(&mut reader, left),
            };
            assert_eq!(reader.position(), place);
        }
    }

    /// A number of any count of digits.
    fn any_number<N: Plain>(random: &mut Random) -> N {
        let digits = random.below(N::DIGITS + 1);
        let bits: Vec<_> = match random.below(4) {
            0 => vec![random.bit(); digits],
            1 => (0..digits).map(|at| at == 0).collect(),
            _ => (0..digits).map(|_| random.bit()).collect(),
        };
        number_of(&bits, true)
    }

    /// What a writer leaves: all bits of the words, the range that is written to, and how many bits
    /// of it were written.
    struct Target {
        bits: Vec<bool>,
        range: Range<usize>,
        len: usize,
    }

    impl Target {
        /// Writes a list of bits, or refuses it where fewer are left.
        fn put(&mut self, list: &[bool]) -> Result<(), Refusal> {
            let place = self.range.start + self.len;
            if list.len() > self.range.end - place {
                return Err(Refusal::TooFew);
            }
            self.bits[place..place + list.len()].copy_from_slice(list);
            self.len += list.len();
            Ok(())
        }

        /// The bits that are left.
        fn left(&self) -> &[bool] {
            &self.bits[self.range.clone()][self.len..]
        }

        /// Whether the writer is where the model is; and now and then, since a writer that is asked
        /// that holds nothing back, whether it wrote the same.
        fn check<T: Word, O: Layout>(&self, random: &mut Random, writer: &mut BitWriter<'_, T, O>) {
            assert_eq!(writer.position(), self.len);
            assert_eq!(writer.remaining(), self.left().len());
            if random.below(4) == 0 {
                let written: Vec<_> = writer.written().iter().collect();
                assert_eq!(written, self.bits[self.range.clone()][..self.len]);
            }
        }
    }

    /// Has a function write some times to words, and tests what it leaves in the slice and outside.
    /// Answers the words, and the range.
    fn writes<T: Word, O: Layout>(
        random: &mut Random,
        mut write: impl FnMut(&mut Random, &mut BitWriter<'_, T, O>, &mut Target),
    ) -> (Vec<T>, Range<usize>) {
        let (mut words, range, bits) = case::<T, O>(random);
        let mut target = Target {
            bits,
            range: range.clone(),
            len: 0,
        };
        let slice = BitSliceMut::<T, O>::new(&mut words, range.clone()).unwrap();
        let mut writer = BitWriter::new(slice);
        // (not always as many: what the last call leaves is not written over)
        for _ in 0..=random.below(8) {
            write(random, &mut writer, &mut target);
            target.check(random, &mut writer);
        }
        let whole: Vec<_> = writer.finish().iter().by_vals().collect();
        assert_eq!(whole, target.bits[range.clone()]);
        assert_eq!(bits_of::<T, O>(&words), target.bits);
        (words, range)
    }

    fn writes_numbers<T: Word, O: Layout, N: Plain>(random: &mut Random) {
        let mut calls = vec![];
        let (words, range) = writes::<T, O>(random, |random, writer, target| {
            let (count, big) = (random.below(N::DIGITS + 2), random.bit());
            let number = any_number::<N>(random);
            let digits = digits_of(number.into(), count, big);
            let expected = if count > N::DIGITS {
                Err(Refusal::TooWide)
            } else if count > target.left().len() {
                Err(Refusal::TooFew)
            } else if number_of::<N>(&digits, big) != number {
                Err(Refusal::TooLarge)
            } else {
                calls.push((count, big, number));
                target.put(&digits)
            };
            let answer = if big {
                writer.write_be(count, number)
            } else {
                writer.write_le(count, number)
            };
            assert_eq!(answer, expected);
        });
        let mut reader = BitReader::new(BitSlice::<T, O>::new(&words, range).unwrap());
        for (count, big, number) in calls {
            let answer = if big {
                reader.read_be::<N>(count)
            } else {
                reader.read_le::<N>(count)
            };
            assert_eq!(answer, Ok(number));
        }
    }

    pub fn numbers_are_written<T: Word, O: Layout>(random: &mut Random) {
        of_all_types!(random, writes_numbers::<T, O>);
    }

    /// What is written behind each other: a run, or a code.
    enum Item<N> {
        Run(bool, usize),
        Code(N),
    }

    fn writes_codes<T: Word, O: Layout, N: Plain>(random: &mut Random) {
        let mut items = vec![];
        let (words, range) = writes::<T, O>(random, |random, writer, target| {
            let (item, list, answer) = if random.one_in(4) {
                let (bit, count) = (random.bit(), random.below(target.left().len() + 2));
                let mut list = vec![bit; count];
                list.push(!bit);
                let answer = writer.write_unary(bit, count);
                (Item::Run(bit, count), list, answer)
            } else {
                let number = any_number::<N>(random);
                let answer = writer.write_exp_golomb(number);
                (Item::Code(number), code_of(number), answer)
            };
            assert_eq!(answer, target.put(&list));
            if answer.is_ok() {
                items.push(item);
            }
        });
        let mut reader = BitReader::new(BitSlice::<T, O>::new(&words, range).unwrap());
        for item in items {
            match item {
                Item::Run(bit, count) => assert_eq!(reader.read_unary(bit), Ok(count)),
                Item::Code(number) => assert_eq!(reader.read_exp_golomb::<N>(), Ok(number)),
            }
        }
    }

    pub fn runs_and_codes_are_written<T: Word, O: Layout>(random: &mut Random) {
        of_all_types!(random, writes_codes::<T, O>);
    }

    fn writes_slices<T: Word, O: Layout, T2: Word, O2: Layout>(random: &mut Random) {
        let (source, part, list) = case::<T2, O2>(random);
        let list = &list[part.clone()];
        let source = BitSlice::<T2, O2>::new(&source, part).unwrap();
        writes::<T, O>(random, |random, writer, target| match random.below(3) {
            0 => {
                let bit = random.bit();
                assert_eq!(writer.write_bit(bit), target.put(&[bit]));
            }
            1 => {
                let count = random.below(20);
                let left = target.left().get(..count).map(<[_]>::to_vec);
                let expected = left.map_or(Err(Refusal::TooFew), |left| target.put(&left));
                assert_eq!(writer.skip(count), expected);
            }
            _ => {
                let from = random.below(list.len() + 1);
                let end = from + random.below(list.len() - from + 1);
                let slice = source.get(from..end).unwrap();
                assert_eq!(writer.write_slice(&slice), target.put(&list[from..end]));
            }
        });
    }

    /// A write of a number.
    fn puts<T: Word, O: Layout, N: Plain>(
        random: &mut Random,
        writer: &mut BitWriter<'_, T, O>,
        target: &mut Target,
    ) {
        let (count, big) = (random.below(N::DIGITS + 1), random.bit());
        let number = any_number::<N>(random);
        let digits = digits_of(number.into(), count, big);
        let expected = if count > target.left().len() {
            Err(Refusal::TooFew)
        } else if number_of::<N>(&digits, big) == number {
            target.put(&digits)
        } else {
            Err(Refusal::TooLarge)
        };
        let answer = if big {
            writer.write_be(count, number)
        } else {
            writer.write_le(count, number)
        };
        assert_eq!(answer, expected);
    }

    /// A write of a number of so many digits; whether there was room for it.
    fn puts_any<T: Word, O: Layout>(
        random: &mut Random,
        writer: &mut BitWriter<'_, T, O>,
        target: &mut Target,
        count: usize,
    ) -> bool {
        let (list, big): (Vec<_>, _) = ((0..count).map(|_| random.bit()).collect(), random.bit());
        let number: u64 = number_of(&list, big);
        let answer = if big {
            writer.write_be(count, number)
        } else {
            writer.write_le(count, number)
        };
        assert_eq!(answer, target.put(&list));
        answer.is_ok()
    }

    pub fn rows_are_written<T: Word, O: Layout>(random: &mut Random, range: Range<usize>) {
        let (mut words, bits) = words_around::<T, O>(random, &range);
        let slice = BitSliceMut::<T, O>::new(&mut words, range.clone()).unwrap();
        let (mut writer, len) = (BitWriter::new(slice), 0);
        let mut target = Target { bits, range, len };
        let mut width = widths(random);
        loop {
            let count = width(random);
            let is_written = puts_any(random, &mut writer, &mut target, count);
            target.check(random, &mut writer);
            if !is_written {
                break;
            }
        }
        writer.finish();
        assert_eq!(bits_of::<T, O>(&words), target.bits);
    }

    /// A write of a code; whether there was room for it.
    fn puts_code<T: Word, O: Layout, N: Plain>(
        random: &mut Random,
        writer: &mut BitWriter<'_, T, O>,
        target: &mut Target,
    ) -> bool {
        let number = any_number::<N>(random);
        let answer = writer.write_exp_golomb(number);
        assert_eq!(answer, target.put(&code_of(number)));
        answer.is_ok()
    }

    pub fn rows_of_codes_are_written<T: Word, O: Layout>(random: &mut Random, range: Range<usize>) {
        let (mut words, bits) = words_around::<T, O>(random, &range);
        let slice = BitSliceMut::<T, O>::new(&mut words, range.clone()).unwrap();
        let (mut writer, len) = (BitWriter::new(slice), 0);
        let mut target = Target { bits, range, len };
        let mut is_written = true;
        while is_written {
            is_written = match random.below(6) {
                0 => puts_code::<T, O, u8>(random, &mut writer, &mut target),
                1 => puts_code::<T, O, i8>(random, &mut writer, &mut target),
                2 => puts_code::<T, O, i32>(random, &mut writer, &mut target),
                3 => puts_code::<T, O, i64>(random, &mut writer, &mut target),
                _ => puts_code::<T, O, u64>(random, &mut writer, &mut target),
            };
            target.check(random, &mut writer);
        }
        writer.finish();
        assert_eq!(bits_of::<T, O>(&words), target.bits);
    }

    pub fn writes_take_turns<T: Word, O: Layout>(random: &mut Random) {
        let mut words: Vec<T> = (0..random.below(24))
            .map(|_| T::of(random.number()))
            .collect();
        let bits = bits_of::<T, O>(&words);
        let range = random.below(bits.len() + 1)..bits.len() - random.below(bits.len().min(9) + 1);
        let range = range.start.min(range.end)..range.end;
        let mut target = Target {
            bits,
            range: range.clone(),
            len: 0,
        };
        let slice = BitSliceMut::<T, O>::new(&mut words, range).unwrap();
        let mut writer = BitWriter::new(slice);
        let bytes: Vec<u8> = (0..random.below(11))
            .map(|_| u8::of(random.number()))
            .collect();
        for _ in 0..random.below(12) {
            match random.below(16) {
                0 | 1 => puts::<T, O, u8>(random, &mut writer, &mut target),
                2 => puts::<T, O, i16>(random, &mut writer, &mut target),
                3 | 4 => puts::<T, O, u32>(random, &mut writer, &mut target),
                5 => puts::<T, O, i64>(random, &mut writer, &mut target),
                6 | 7 => puts::<T, O, u64>(random, &mut writer, &mut target),
                8 => {
                    let count = 9 + random.below(99);
                    assert_eq!(writer.write(count, 1_u8), Err(Refusal::TooWide));
                }
                9..12 => {
                    let bit = random.bit();
                    assert_eq!(writer.write_bit(bit), target.put(&[bit]));
                }
                12 => {
                    let (bit, count) = (random.bit(), random.below(12));
                    let mut list = vec![bit; count];
                    list.push(!bit);
                    assert_eq!(writer.write_unary(bit, count), target.put(&list));
                }
                13 => {
                    let list = bits_of::<u8, O>(&bytes);
                    assert_eq!(writer.write_bytes(&bytes), target.put(&list));
                }
                _ => {
                    let count = random.below(90);
                    let left = target.left().get(..count).map(<[_]>::to_vec);
                    let expected = left.map_or(Err(Refusal::TooFew), |left| target.put(&left));
                    assert_eq!(writer.skip(count), expected);
                }
            }
            target.check(random, &mut writer);
        }
        writer.finish();
        assert_eq!(bits_of::<T, O>(&words), target.bits);
    }

    pub fn bits_and_slices_are_written<T: Word, O: Layout>(random: &mut Random) {
        with_any_other!(random, writes_slices::<T, O>);
    }
}

/// The words of 20 numbers of 12 bits that are 1, behind three bits that are one, as all are behind them.
fn words_of_ones() -> [u8; 34] {
    let mut bytes = [0xff_u8; 34];
    let mut bits = bytes.view_bits_mut::<Msb0>().into_part(3..243).unwrap();
    bits.iter_mut()
        .enumerate()
        .for_each(|(k, mut bit)| *bit = k % 12 == 11);
    bytes
}

#[test]
fn of_a_forgotten_writer_the_last_bits_are_as_they_were() {
    let mut bytes = [0xff_u8; 34];
    let mut writer = BitWriter::new(bytes.view_bits_mut::<Msb0>().into_part(3..270).unwrap());
    (0..20).for_each(|_| writer.write(12, 1_u16).unwrap());
    assert_eq!(writer.position(), 240);
    std::mem::forget(writer);
    let (bits, whole) = (bytes.view_bits::<Msb0>(), words_of_ones());
    let as_they_were = bits.trailing_ones() - 29;
    assert!(as_they_were < 64);
    let (written, behind) = bits.split_at(243 - as_they_were);
    assert_eq!(
        written,
        whole.view_bits::<Msb0>().get(..written.len()).unwrap()
    );
    assert!(behind.all());
}

#[test]
fn what_is_held_is_written_where_a_writer_ends() {
    for how in 0..4 {
        let mut bytes = [0xff_u8; 34];
        let mut writer = BitWriter::new(bytes.view_bits_mut::<Msb0>().into_part(3..270).unwrap());
        (0..20).for_each(|_| writer.write(12, 1_u16).unwrap());
        match how {
            0 => drop(writer),
            1 => assert_eq!(writer.finish().len(), 267),
            2 => {
                assert_eq!(writer.written().len(), 240);
                std::mem::forget(writer);
            }
            _ => {
                let said = std::panic::catch_unwind(std::panic::AssertUnwindSafe(|| {
                    let mut writer = writer;
                    writer.write(3, 8_u8).unwrap();
                }));
                assert!(said.is_err());
            }
        }
        assert_eq!(bytes, words_of_ones());
    }
}

#[test]
fn numbers_of_usize() {
    const WIDTH: usize = usize::BITS as usize;
    let words = [usize::MAX - 1, 1 << (WIDTH - 1), 7 << (WIDTH - 5)];
    let mut reader = BitReader::new(words.view_bits::<Msb0>());
    assert_eq!(reader.read_be::<usize>(WIDTH), Ok(usize::MAX - 1));
    assert_eq!(reader.read_be::<isize>(WIDTH), Ok(isize::MIN));
    assert_eq!(reader.read_exp_golomb::<usize>(), Ok(6));
}

#[test]
fn codes_at_the_ends_of_types() {
    let mut words = [0_u8; 17];
    words.view_bits_mut::<Msb0>().set(64, true);
    let mut reader = BitReader::new(words.view_bits::<Msb0>());
    assert_eq!(reader.read_exp_golomb::<u32>(), Err(Refusal::TooLarge));
    assert_eq!(reader.read_exp_golomb::<i64>(), Err(Refusal::TooLarge));
    assert_eq!(reader.position(), 0);
    assert_eq!(reader.read_exp_golomb::<u64>(), Ok(u64::MAX));
    assert_eq!(reader.position(), 129);

    words.view_bits_mut::<Msb0>().set(128, true);
    let mut reader = BitReader::new(words.view_bits::<Msb0>());
    assert_eq!(reader.read_exp_golomb::<u64>(), Err(Refusal::TooLarge));
    assert_eq!(reader.position(), 0);
    assert_eq!(reader.read_exp_golomb::<i64>(), Ok(i64::MIN));
    assert_eq!(reader.position(), 129);
}

#[test]
fn codes_past_a_narrow_type() {
    let words = [0b0000_0000_u8, 0b1000_0000, 0b1000_0000];
    let mut reader = BitReader::new(words.view_bits::<Msb0>());
    assert_eq!(reader.read_exp_golomb::<u8>(), Err(Refusal::TooLarge));
    assert_eq!(reader.position(), 0);
    assert_eq!(reader.read_exp_golomb::<u16>(), Ok(256));
    assert_eq!(reader.position(), 17);
}

#[test]
fn numbers_of_usize_are_written() {
    const WIDTH: usize = usize::BITS as usize;
    let mut words = [0_usize; 3];
    let mut writer = BitWriter::new(words.view_bits_mut::<Msb0>());
    assert_eq!(writer.write_be(WIDTH, usize::MAX - 1), Ok(()));
    assert_eq!(
        writer.write_be(WIDTH - 1, isize::MIN),
        Err(Refusal::TooLarge)
    );
    assert_eq!(writer.write_be(WIDTH, isize::MIN), Ok(()));
    assert_eq!(writer.write_exp_golomb(6_usize), Ok(()));
    drop(writer);
    assert_eq!(words, [usize::MAX - 1, 1 << (WIDTH - 1), 7 << (WIDTH - 5)]);
}

#[test]
fn numbers_of_no_bits_are_0() {
    let mut words = [0xa5_u8];
    let mut writer = BitWriter::new(words.view_bits_mut::<Lsb0>());
    assert_eq!(writer.write_be(0, 0_u64), Ok(()));
    assert_eq!(writer.write_le(0, 0_i64), Ok(()));
    assert_eq!(writer.write_be(0, 1_u64), Err(Refusal::TooLarge));
    assert_eq!(writer.write_le(0, -1_i64), Err(Refusal::TooLarge));
    assert_eq!(writer.skip(8), Ok(()));
    assert_eq!(writer.write_be(0, 0_u8), Ok(()));
    assert_eq!(writer.write_be(0, 1_u8), Err(Refusal::TooLarge));
    assert_eq!(writer.write_be(1, 2_u8), Err(Refusal::TooFew));
    drop(writer);
    assert_eq!(words, [0xa5]);
}

#[test]
fn signed_numbers_at_the_ends_of_their_digits() {
    let mut words = [0_u64; 4];
    let mut writer = BitWriter::new(words.view_bits_mut::<Msb0>());
    for count in 1..=16 {
        let end = 1_i32 << (count - 1);
        for number in [-end - 1, end] {
            assert_eq!(writer.write_be(count, number), Err(Refusal::TooLarge));
            assert_eq!(writer.write_le(count, number), Err(Refusal::TooLarge));
        }
        assert_eq!(writer.write_be(count, -end), Ok(()));
        assert!(writer.written().last().unwrap() == (count == 1));
    }
    assert_eq!(writer.position(), 136);
}

#[test]
fn codes_at_the_ends_of_types_are_written() {
    let mut words = [0xff_u8; 17];
    let mut writer = BitWriter::new(words.view_bits_mut::<Msb0>().into_part(..128).unwrap());
    assert_eq!(writer.write_exp_golomb(u64::MAX), Err(Refusal::TooFew));
    assert_eq!(writer.write_exp_golomb(i64::MIN), Err(Refusal::TooFew));
    assert_eq!(writer.position(), 0);
    drop(writer);
    assert_eq!(words, [0xff; 17]);

    let mut writer = BitWriter::new(words.view_bits_mut::<Msb0>());
    assert_eq!(writer.write_exp_golomb(u64::MAX), Ok(()));
    assert_eq!(writer.position(), 129);
    drop(writer);
    assert_eq!(words[..8], [0; 8]);
    assert_eq!(words[8..], [0x80, 0, 0, 0, 0, 0, 0, 0, 0x7f]);

    let mut writer = BitWriter::new(words.view_bits_mut::<Msb0>());
    assert_eq!(writer.write_exp_golomb(i64::MIN), Ok(()));
    assert_eq!(writer.position(), 129);
    drop(writer);
    assert_eq!(words[..8], [0; 8]);
    assert_eq!(words[8..], [0x80, 0, 0, 0, 0, 0, 0, 0, 0xff]);

    let mut writer = BitWriter::new(words.view_bits_mut::<Msb0>());
    assert_eq!(writer.write_exp_golomb(i64::MAX), Ok(()));
    assert_eq!(writer.position(), 127);
}
