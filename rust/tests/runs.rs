//! Runs of commands against the model: each reply, or the refusal, and every bit of the memory
//! after them.

mod common;

use common::{CASES, Random, for_all_memories};
use worghulen::{Command, Lsb0, ManySpans, Msb0, Refusal, Reply, Request, Span, Spans};

for_all_memories!(a_run_serves_each_request, 16);
for_all_memories!(can_run_tests_the_spans, 17);
for_all_memories!(many_spans_run_as_few, 18);

mod cases {
    use crate::common::{Layout, MAX_BITS, Random, Word, bits_of, checked, word_and_digit};
    use std::ops::Range;
    use worghulen::{Command, ManySpans, Refusal, Reply, Request, Span, Spans};

    /// Mostly ranges that lie among `len` bits and have none in common, in any order.
    fn ranges(random: &mut Random, len: usize) -> Vec<Range<usize>> {
        let mut cuts: Vec<_> = (0..random.below(9))
            .map(|_| random.below(len + 1))
            .collect();
        cuts.sort_unstable();
        let mut ranges: Vec<_> = cuts.windows(2).map(|two| two[0]..two[1]).collect();
        for last in (1..ranges.len()).rev() {
            ranges.swap(last, random.below(last + 1));
        }
        if random.one_in(8) {
            ranges.push(random.range(len));
        }
        if random.one_in(64) {
            ranges.resize(60 + random.below(8), 0..0);
        }
        ranges
    }

    /// Why spans of these ranges are refused, if they are.
    fn refusal(ranges: &[Range<usize>], len: usize) -> Result<(), Refusal> {
        if ranges.len() > 64 {
            return Err(Refusal::TooManySpans);
        }
        many_refusal(ranges, len)
    }

    /// The same of any number of spans.
    fn many_refusal(ranges: &[Range<usize>], len: usize) -> Result<(), Refusal> {
        for range in ranges {
            // (what a range of its own is refused for comes before what the memory is asked for)
            checked(range, usize::MAX)?;
        }
        for range in ranges {
            checked(range, len)?;
        }
        let meets = |one: &Range<usize>, other: &Range<usize>| {
            one.start.max(other.start) < one.end.min(other.end)
        };
        let is_apart = |i: usize| !ranges[..i].iter().any(|before| meets(before, &ranges[i]));
        if (0..ranges.len()).all(is_apart) {
            Ok(())
        } else {
            Err(Refusal::Overlap)
        }
    }

    /// A command, mostly one that a span of that length does not refuse.
    fn command<T: Word>(random: &mut Random, len: usize) -> Command {
        let (k, words) = (random.place(len / T::BITS), random.place(len / T::BITS + 1));
        let (i, j) = (random.place(len), random.place(len));
        match random.below(10) {
            0 => Command::Load(k),
            1 => Command::Store(words, random.number()),
            2 => Command::Set(k),
            3 => Command::Clear(words),
            4 => Command::Invert(k),
            5 => Command::Read(i),
            6 => Command::Replace(i, random.bit()),
            7 => Command::Swap(i, j),
            8 => {
                let room = len.saturating_sub(i.max(j));
                let count = random.place(room);
                Command::Copy {
                    from: i,
                    to: j,
                    count,
                }
            }
            _ => {
                let (from, to) = if random.one_in(8) {
                    (i, j)
                } else {
                    (i.min(j), i.max(j))
                };
                let value = random.bit();
                Command::Fill { from, to, value }
            }
        }
    }

    /// Edits the span's bits in its word `k` by their digits, and replies with them.
    fn edit<T: Word, O: Layout>(
        bits: &mut [bool],
        start: usize,
        k: usize,
        new: impl Fn(usize, bool) -> bool,
    ) -> Reply {
        let (mut number, mut met) = (0, false);
        for (i, bit) in bits.iter_mut().enumerate() {
            let (word, digit) = word_and_digit::<T, O>(start + i);
            if word - start / T::BITS == k {
                met = true;
                number |= u64::from(*bit) << digit;
                *bit = new(digit, *bit);
            }
        }
        if met {
            Reply::Word(number)
        } else {
            Reply::PastEnd
        }
    }

    /// Writes a bit, and replies with it as it was.
    fn replace(bits: &mut [bool], i: usize, new: impl Fn(bool) -> bool) -> Reply {
        let Some(bit) = bits.get_mut(i) else {
            return Reply::PastEnd;
        };
        let old = *bit;
        *bit = new(old);
        Reply::Bit(old)
    }

    /// The reply to a command that names stretches of bits, or two bits.
    fn stretch(bits: &mut [bool], command: Command) -> Option<Reply> {
        match command {
            Command::Swap(i, j) => {
                let both = (*bits.get(i)?, *bits.get(j)?);
                (bits[j], bits[i]) = both;
            }
            Command::Copy { from, to, count } => {
                let source = bits.get(from..from.checked_add(count)?)?.to_vec();
                let target = bits.get_mut(to..to.checked_add(count)?)?;
                target.copy_from_slice(&source);
            }
            Command::Fill { from, to, value } => bits.get_mut(from..to)?.fill(value),
            _ => return None,
        }
        Some(Reply::Done)
    }

    /// Gives a span its command.
    fn serve<T: Word, O: Layout>(bits: &mut [bool], start: usize, command: Command) -> Reply {
        match command {
            Command::Load(k) => edit::<T, O>(bits, start, k, |_, bit| bit),
            Command::Store(k, number) => {
                edit::<T, O>(bits, start, k, |digit, _| number >> digit & 1 == 1)
            }
            Command::Set(k) => edit::<T, O>(bits, start, k, |_, _| true),
            Command::Clear(k) => edit::<T, O>(bits, start, k, |_, _| false),
            Command::Invert(k) => edit::<T, O>(bits, start, k, |_, bit| !bit),
            Command::Read(i) => replace(bits, i, |bit| bit),
            Command::Replace(i, new) => replace(bits, i, |_| new),
            _ => stretch(bits, command).unwrap_or(Reply::PastEnd),
        }
    }

    pub fn a_run_serves_each_request<T: Word, O: Layout>(random: &mut Random) {
        let mut words = random.words::<T>();
        let mut model = bits_of::<T, O>(&words);
        let ranges = ranges(random, model.len());
        let request = |random: &mut Random| {
            let span = random.below(ranges.len() + 1);
            let len = ranges
                .get(span)
                .map_or(9, |range| range.len().min(MAX_BITS));
            let command = command::<T>(random, len);
            Request { span, command }
        };
        let most = if random.one_in(64) { 200 } else { 12 };
        let requests: Vec<_> = (0..random.below(most)).map(|_| request(random)).collect();
        let serve = |Request { span, command }: &Request| match ranges.get(*span) {
            Some(range) => serve::<T, O>(&mut model[range.clone()], range.start, *command),
            None => Reply::NoSpan,
        };
        let expected = refusal(&ranges, words.len() * T::BITS)
            .map(|()| requests.iter().map(serve).collect::<Vec<_>>());
        let mut replies = vec![Reply::Done; requests.len()];
        let answer = Spans::<O>::new(&ranges)
            .and_then(|spans| spans.run(&mut words, &requests, &mut replies))
            .map(|()| replies);
        assert_eq!(answer, expected, "{ranges:?} {requests:?}");
        assert_eq!(bits_of::<T, O>(&words), model, "{ranges:?} {requests:?}");
    }

    pub fn can_run_tests_the_spans<T: Word, O: Layout>(random: &mut Random) {
        let words = random.words::<T>();
        let len = words.len() * T::BITS;
        let ranges = ranges(random, len);
        let answer = Spans::<O>::new(&ranges).and_then(|spans| spans.can_run(&words));
        assert_eq!(answer, refusal(&ranges, len), "{ranges:?}");
    }

    /// What spans with room answer, and that the room has their numbers in the order of their
    /// starts where each lies in the memory.
    pub fn many_spans_run_as_few<T: Word, O: Layout>(random: &mut Random) {
        let mut words = random.words::<T>();
        let len = words.len() * T::BITS;
        let ranges = ranges(random, len);
        let request = |random: &mut Random| Request {
            span: random.below(ranges.len() + 1),
            command: command::<T>(random, 9),
        };
        let most = if random.one_in(16) { 300 } else { 12 };
        let requests: Vec<_> = (0..random.below(most)).map(|_| request(random)).collect();
        let expected = many_refusal(&ranges, len);
        let list = ranges
            .iter()
            .cloned()
            .map(Span::new)
            .collect::<Result<Vec<_>, _>>();
        let Ok(list) = list else {
            assert_eq!(list.map(|_| ()), expected);
            return;
        };
        let mut room = vec![usize::MAX; list.len()];
        let mut many = ManySpans::<O>::new(&list, &mut room).unwrap();
        assert_eq!(many.can_run(&words), expected, "{ranges:?}");
        let mut numbers = many.in_order().to_vec();
        if matches!(expected, Ok(()) | Err(Refusal::Overlap)) {
            assert!(numbers.is_sorted_by_key(|i| list[*i].start));
            numbers.sort_unstable();
            assert!(numbers.into_iter().eq(0..list.len()));
        } else {
            assert!(numbers.iter().all(|i| *i == usize::MAX));
        }
        let (mut replies, mut other) = (vec![Reply::Done; requests.len()], words.clone());
        let answer = many.run(&mut words, &requests, &mut replies);
        assert_eq!(answer, expected);
        if list.len() <= 64 {
            let mut same = vec![Reply::Done; requests.len()];
            let few = Spans::<O>::new(&ranges).unwrap();
            assert_eq!(few.run(&mut other, &requests, &mut same), expected);
            assert_eq!((replies, words), (same, other));
        }
    }
}

#[test]
fn many_spans_want_as_much_room() {
    let list = [Span { start: 0, count: 3 }; 3];
    assert!(ManySpans::<Lsb0>::new(&list, &mut [0; 3]).is_ok());
    let refused = ManySpans::<Msb0>::new(&list, &mut [0; 4]).err();
    assert_eq!(refused, Some(Refusal::NoRoom));
}

/// Spans of which each bit is one, in no order: each is turned over as often as it is named.
#[test]
fn many_spans_serve_many_requests() {
    const SPANS: usize = 1000;
    let of = |i: usize| i * 377 % SPANS;
    let list: Vec<_> = (0..SPANS)
        .map(|i| Span {
            start: of(i) * 4,
            count: 3,
        })
        .collect();
    let mut room = vec![0; SPANS];
    let mut words = vec![!0_u8; SPANS / 2];
    let numbers: Vec<_> = (0..10_007).map(|n| n * n / 3 % (SPANS + 1)).collect();
    let command = Command::Replace(1, false);
    let requests: Vec<_> = numbers
        .iter()
        .map(|&span| Request { span, command })
        .collect();
    let mut replies = vec![Reply::Done; requests.len()];
    let mut many = ManySpans::<Lsb0>::new(&list, &mut room).unwrap();
    many.run(&mut words, &requests, &mut replies).unwrap();
    assert!(many.in_order().iter().map(|i| of(*i)).eq(0..SPANS));
    let mut seen = [false; SPANS];
    for (number, reply) in numbers.into_iter().zip(replies) {
        let expected = match seen.get_mut(number) {
            Some(seen) => Reply::Bit(!std::mem::replace(seen, true)),
            None => Reply::NoSpan,
        };
        assert_eq!(reply, expected);
    }
    for (i, seen) in seen.into_iter().enumerate() {
        let digits = words[of(i) / 2] >> (of(i) % 2 * 4) & 15;
        assert_eq!(digits, if seen { 0b1101 } else { 0b1111 });
    }
}

#[test]
fn a_run_has_at_most_64_spans() {
    let ranges: Vec<_> = (0..65).map(|i| i..i + 1).collect();
    let spans = Spans::<Lsb0>::new(&ranges[..64]).unwrap();
    assert_eq!(spans.run(&mut [0_u64], &[], &mut []), Ok(()));
    assert_eq!(Spans::<Lsb0>::new(&ranges), Err(Refusal::TooManySpans));
}

#[test]
fn a_run_has_any_number_of_requests() {
    let spans = Spans::<Lsb0>::new(&[0..3, 3..8]).unwrap();
    let command = Command::Invert(0);
    let requests: Vec<_> = (0..1_000_001)
        .map(|i| Request {
            span: i % 3,
            command,
        })
        .collect();
    let mut replies = vec![Reply::Done; requests.len()];
    let mut words = [0_u8];
    spans.run(&mut words, &requests, &mut replies).unwrap();
    // (333,334 times the first, as often the second)
    assert_eq!(words, [0]);
    assert_eq!(
        replies[999_996..],
        [
            Reply::Word(0),
            Reply::Word(0),
            Reply::NoSpan,
            Reply::Word(7),
            Reply::Word(0xf8)
        ]
    );
    assert_eq!(
        spans.run(&mut words, &requests, &mut replies[1..]),
        Err(Refusal::NoRoom)
    );
}
