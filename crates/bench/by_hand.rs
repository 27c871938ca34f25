//! The same jobs as those of this program's `time`, each by the best loop that a person would write in
//! plain Rust, for `rustc -O -C target-cpu=x86-64-v2`. It prints a name and nanoseconds for each. Where it is compiled with
//! BENCH_WORDS in the environment, memories have so many words, and all else grows with them, as under `grow`.

use std::cmp::Ordering;
use std::hint::black_box;
use std::time::{Duration, Instant};

/// The number that digits say.
const fn number(digits: &str) -> usize {
    let (mut number, mut i) = (0, 0);
    while i < digits.len() {
        number = number * 10 + (digits.as_bytes()[i] - b'0') as usize;
        i += 1;
    }
    number
}

const GROWN: Option<&str> = option_env!("BENCH_WORDS");

/// A number of its own, or one that grows with the words.
const fn either(own: usize, grown: usize) -> usize {
    if GROWN.is_some() { grown } else { own }
}

const WORDS: usize = match GROWN {
    Some(digits) => number(digits),
    None => 65536,
};
const COPIED: usize = (WORDS - 4) * 64;
const SPANS: usize = either(2000, WORDS);
const SORTED: usize = either(16000, WORDS);
const REQUESTS: usize = either(1_000_000, WORDS);

/// The nanoseconds of one of the units of a job: the best of nine rounds.
fn time(name: &str, units: usize, mut job: impl FnMut()) {
    let mut round = |repeats: usize| {
        let start = Instant::now();
        for _ in 0..repeats {
            job();
        }
        start.elapsed()
    };
    let mut repeats = 1;
    while repeats < 1 << 20 && round(repeats) < Duration::from_millis(2) {
        repeats *= 2;
    }
    let best = (0..9).map(|_| round(repeats)).min().unwrap_or_default();
    println!("{name} {:.3}", best.as_nanos() as f64 / (repeats * units) as f64);
}

fn words() -> Vec<u64> {
    let mut word = 1u64;
    (0..WORDS)
        .map(|_| {
            word = word.wrapping_mul(6364136223846793005).wrapping_add(1442695040888963407);
            word
        })
        .collect()
}

// ---- copies

/// Bits of a word from `bit` on, `count` of them, as a mask: by rising or by falling positions.
fn mask<const RISING: bool>(bit: usize, count: usize) -> u64 {
    let ones = if count == 64 { !0 } else { !(!0 << count) };
    if RISING { ones << bit } else { ones << (64 - bit - count) }
}

/// Two neighbouring words as one, from the bit `shift` of the first on.
#[inline(always)]
fn merged<const RISING: bool>(first: u64, second: u64, shift: usize) -> u64 {
    match (shift, RISING) {
        (0, _) => first,
        (_, true) => first >> shift | second << (64 - shift),
        (_, false) => first << shift | second >> (64 - shift),
    }
}

/// The word that holds `count` bits from a place on, its first bit at `bit`.
#[inline(always)]
fn word_at<const RISING: bool>(source: &[u64], from: usize, bit: usize, count: usize) -> u64 {
    let (k, shift) = (from / 64, from % 64);
    let second = if shift + count > 64 { source[k + 1] } else { 0 };
    let word = merged::<RISING>(source[k], second, shift);
    if RISING { word << bit } else { word >> bit }
}

/// The two shifts that join neighbouring words, of which the first loses its first `shift` bits.
#[inline(always)]
fn shifts<const RISING: bool>(shift: usize) -> (u32, u32) {
    let shift = shift as u32;
    if RISING { (shift, 64 - shift) } else { (64 - shift, shift) }
}

/// Two neighbouring words as one, by these shifts; none is 0.
#[inline(always)]
fn joined<const RISING: bool>(first: u64, second: u64, down: u32, up: u32) -> u64 {
    if RISING { first >> down | second << up } else { second >> down | first << up }
}

/// Four words made of five neighbours, all read before any is written.
#[inline(always)]
fn joined_block<const RISING: bool>(read: &[u64], down: u32, up: u32) -> [u64; 4] {
    let first: [u64; 4] = read[..4].try_into().unwrap();
    let second: [u64; 4] = read[1..5].try_into().unwrap();
    std::array::from_fn(|j| joined::<RISING>(first[j], second[j], down, up))
}

#[inline(always)]
fn put<const RISING: bool>(word: &mut u64, with: u64, bit: usize, count: usize) {
    let mask = mask::<RISING>(bit, count);
    *word = *word & !mask | with & mask;
}

/// A plain loop over the target's words, each shifted, merged and masked.
#[inline(never)]
fn copy_plain<const RISING: bool>(source: &[u64], from: usize, target: &mut [u64], to: usize, count: usize) {
    let mut done = 0;
    while done < count {
        let bit = (to + done) % 64;
        let part = (64 - bit).min(count - done);
        let with = word_at::<RISING>(source, from + done, bit, part);
        put::<RISING>(&mut target[(to + done) / 64], with, bit, part);
        done += part;
    }
}

/// Edges by themselves, and between them a loop over whole words that the compiler vectorises.
#[inline(never)]
fn copy_shifted<const RISING: bool>(source: &[u64], from: usize, target: &mut [u64], to: usize, count: usize) {
    let head = ((64 - to % 64) % 64).min(count);
    copy_plain::<RISING>(source, from, target, to, head);
    let (first, shift) = ((from + head) / 64, (from + head) % 64);
    let whole = (count - head) / 64;
    let start = (to + head) / 64;
    let words = &mut target[start..start + whole];
    let (a, b) = (&source[first..first + whole], &source[first + 1..first + 1 + whole]);
    let (down, up) = shifts::<RISING>(shift);
    for i in 0..whole {
        words[i] = joined::<RISING>(a[i], b[i], down, up);
    }
    let done = head + whole * 64;
    copy_plain::<RISING>(source, from + done, target, to + done, count - done);
}

/// Inside one memory to a lower place: blocks of four words from the front, each read before it is
/// written, so that they vectorise whatever the distance.
#[inline(never)]
fn copy_down<const RISING: bool>(memory: &mut [u64], from: usize, to: usize, count: usize) {
    let head = ((64 - to % 64) % 64).min(count);
    if head > 0 {
        let with = word_at::<RISING>(memory, from, to % 64, head);
        put::<RISING>(&mut memory[to / 64], with, to % 64, head);
    }
    let (first, shift) = ((from + head) / 64, (from + head) % 64);
    let start = (to + head) / 64;
    let whole = (count - head) / 64;
    let (down, up) = shifts::<RISING>(shift);
    let mut k = 0;
    while k + 4 <= whole {
        let block = joined_block::<RISING>(&memory[first + k..first + k + 5], down, up);
        memory[start + k..start + k + 4].copy_from_slice(&block);
        k += 4;
    }
    while k < whole {
        memory[start + k] = joined::<RISING>(memory[first + k], memory[first + k + 1], down, up);
        k += 1;
    }
    let done = head + whole * 64;
    if done < count {
        let with = word_at::<RISING>(memory, from + done, 0, count - done);
        put::<RISING>(&mut memory[(to + done) / 64], with, 0, count - done);
    }
}

/// The same to a higher place, from the back.
#[inline(never)]
fn copy_up<const RISING: bool>(memory: &mut [u64], from: usize, to: usize, count: usize) {
    let head = ((64 - to % 64) % 64).min(count);
    let (first, shift) = ((from + head) / 64, (from + head) % 64);
    let start = (to + head) / 64;
    let whole = (count - head) / 64;
    let done = head + whole * 64;
    if done < count {
        let with = word_at::<RISING>(memory, from + done, 0, count - done);
        put::<RISING>(&mut memory[(to + done) / 64], with, 0, count - done);
    }
    let (down, up) = shifts::<RISING>(shift);
    let mut k = whole;
    while k >= 4 {
        k -= 4;
        let block = joined_block::<RISING>(&memory[first + k..first + k + 5], down, up);
        memory[start + k..start + k + 4].copy_from_slice(&block);
    }
    while k > 0 {
        k -= 1;
        memory[start + k] = joined::<RISING>(memory[first + k], memory[first + k + 1], down, up);
    }
    if head > 0 {
        let with = word_at::<RISING>(memory, from, to % 64, head);
        put::<RISING>(&mut memory[to / 64], with, to % 64, head);
    }
}

/// Bit by bit into a word, which is written once: from words of any width by any positions to those of
/// `u64`.
#[inline(always)]
fn copy_bits<R: Copy + Into<u64>>(source: &[R], width: usize, from: usize, target: &mut [u64], to: usize, count: usize, at: impl Fn(usize) -> usize, put_at: impl Fn(usize) -> usize) {
    let mut done = 0;
    while done < count {
        let first = (to + done) % 64;
        let part = (64 - first).min(count - done);
        let mut word = target[(to + done) / 64];
        for j in 0..part {
            let place = from + done + j;
            let bit = source[place / width].into() >> at(place % width) & 1;
            let position = put_at(first + j);
            word = word & !(1 << position) | bit << position;
        }
        target[(to + done) / 64] = word;
        done += part;
    }
}

#[inline(never)]
fn copy_bytes(source: &[u8], from: usize, target: &mut [u64], to: usize, count: usize) {
    copy_bits(source, 8, from, target, to, count, |i| i, |i| i);
}

#[inline(never)]
fn copy_turned(source: &[u64], from: usize, target: &mut [u64], to: usize, count: usize) {
    copy_bits(source, 64, from, target, to, count, |i| i, |i| 63 - i);
}

#[inline(never)]
fn copy_hilo(source: &[u64], from: usize, target: &mut [u64], to: usize, count: usize) {
    copy_bits(source, 64, from, target, to, count, |i| i ^ 4, |i| i ^ 4);
}

fn time_copies<const RISING: bool>(order: &str, source: &[u64], target: &mut [u64]) {
    let words = COPIED / 64;
    time(&format!("copy-{order}-aligned"), words, || {
        black_box(&mut *target)[1..1 + words].copy_from_slice(&black_box(source)[1..1 + words]);
    });
    time(&format!("copy-{order}-shifted"), words, || {
        copy_shifted::<RISING>(black_box(source), 64 + 3, black_box(target), 64 + 14, COPIED);
    });
    time(&format!("copy-{order}-down"), words, || {
        copy_down::<RISING>(black_box(target), 3 * 64 + 14, 64 + 3, COPIED);
    });
    time(&format!("copy-{order}-up"), words, || {
        copy_up::<RISING>(black_box(target), 64 + 3, 3 * 64 + 14, COPIED);
    });
}

fn time_other_copies(source: &[u64], target: &mut [u64]) {
    let words = COPIED / 64;
    let bytes: Vec<u8> = source.iter().map(|word| (*word >> 56) as u8).collect();
    let few = (bytes.len() - 4) * 8;
    time("copy-lsb0-shifted-200-bits", 1, || {
        copy_plain::<true>(black_box(source), 64 + 3, black_box(target), 64 + 14, black_box(200));
    });
    time("copy-u8-u64", few / 64, || copy_bytes(black_box(&bytes), 8 + 3, black_box(target), 64 + 14, few));
    time("copy-lsb0-msb0", words, || copy_turned(black_box(source), 64 + 3, black_box(target), 64 + 14, COPIED));
    time("copy-hilo-shifted", words, || copy_hilo(black_box(source), 64 + 3, black_box(target), 64 + 14, COPIED));
    time_wide_copies(source, target);
}

/// Words of 128 bits, shifted and merged.
#[inline(never)]
fn copy_wide(source: &[u128], from: usize, target: &mut [u128], to: usize, count: usize) {
    let mut done = 0;
    while done < count {
        let bit = (to + done) % 128;
        let part = (128 - bit).min(count - done);
        let (k, shift) = ((from + done) / 128, (from + done) % 128);
        let low = source[k] >> shift;
        let word = if shift + part > 128 { low | source[k + 1] << (128 - shift) } else { low };
        let ones = if part == 128 { !0 } else { !(!0u128 << part) };
        let place = &mut target[(to + done) / 128];
        *place = *place & !(ones << bit) | (word & ones) << bit;
        done += part;
    }
}

/// From words of 128 bits and to them, bit by bit.
#[inline(never)]
fn copy_from_wide(source: &[u128], from: usize, target: &mut [u64], to: usize, count: usize) {
    for i in 0..count {
        let (place, end) = (from + i, to + i);
        let bit = (source[place / 128] >> (place % 128) & 1) as u64;
        let word = &mut target[end / 64];
        *word = *word & !(1 << (end % 64)) | bit << (end % 64);
    }
}

#[inline(never)]
fn copy_to_wide(source: &[u64], from: usize, target: &mut [u128], to: usize, count: usize) {
    for i in 0..count {
        let (place, end) = (from + i, to + i);
        let bit = (source[place / 64] >> (place % 64) & 1) as u128;
        let word = &mut target[end / 128];
        *word = *word & !(1 << (end % 128)) | bit << (end % 128);
    }
}

fn time_wide_copies(source: &[u64], target: &mut [u64]) {
    let words = COPIED / 64;
    let wide: Vec<u128> = source.iter().map(|word| (*word as u128) << 64 | !*word as u128).collect();
    let mut made = wide.clone();
    time("copy-u128-shifted", words, || copy_wide(black_box(&wide), 128 + 3, black_box(&mut made), 128 + 14, COPIED));
    time("copy-u128-u64", words, || copy_from_wide(black_box(&wide), 128 + 3, black_box(target), 64 + 14, COPIED));
    time("copy-u64-u128", words, || copy_to_wide(black_box(source), 64 + 3, black_box(&mut made), 128 + 14, COPIED));
}

// ---- set operators

/// A plain loop over the target's words, each with the source's shifted, merged and masked.
#[inline(never)]
fn or_plain<const RISING: bool>(source: &[u64], from: usize, target: &mut [u64], to: usize, count: usize) {
    let mut done = 0;
    while done < count {
        let bit = (to + done) % 64;
        let part = (64 - bit).min(count - done);
        let with = word_at::<RISING>(source, from + done, bit, part);
        target[(to + done) / 64] |= with & mask::<RISING>(bit, part);
        done += part;
    }
}

/// Edges by themselves, and between them a loop over whole words that the compiler vectorises.
#[inline(never)]
fn or_shifted<const RISING: bool>(source: &[u64], from: usize, target: &mut [u64], to: usize, count: usize) {
    let head = ((64 - to % 64) % 64).min(count);
    or_plain::<RISING>(source, from, target, to, head);
    let (first, shift) = ((from + head) / 64, (from + head) % 64);
    let whole = (count - head) / 64;
    let start = (to + head) / 64;
    let words = &mut target[start..start + whole];
    if shift == 0 {
        for (word, with) in words.iter_mut().zip(&source[first..first + whole]) {
            *word |= with;
        }
    } else {
        let (a, b) = (&source[first..first + whole], &source[first + 1..first + 1 + whole]);
        let (down, up) = shifts::<RISING>(shift);
        for i in 0..whole {
            words[i] |= joined::<RISING>(a[i], b[i], down, up);
        }
    }
    let done = head + whole * 64;
    or_plain::<RISING>(source, from + done, target, to + done, count - done);
}

/// Inside one memory, each bit with that `by` places before it, from the back: 0 < `by` < 64.
#[inline(never)]
fn or_within<const RISING: bool>(memory: &mut [u64], by: usize) {
    let (down, up) = shifts::<RISING>(64 - by);
    for k in (1..memory.len()).rev() {
        memory[k] |= joined::<RISING>(memory[k - 1], memory[k], down, up);
    }
    memory[0] |= if RISING { memory[0] << by } else { memory[0] >> by };
}

/// Bit by bit into a word, which is written once, under two orders.
#[inline(never)]
fn xor_turned(source: &[u64], from: usize, target: &mut [u64], to: usize, count: usize) {
    let mut done = 0;
    while done < count {
        let first = (to + done) % 64;
        let part = (64 - first).min(count - done);
        let mut word = 0;
        for j in 0..part {
            let place = from + done + j;
            word |= (source[place / 64] >> (place % 64) & 1) << (63 - (first + j));
        }
        target[(to + done) / 64] ^= word;
        done += part;
    }
}

fn time_sets<const RISING: bool>(order: &str, source: &[u64], target: &mut [u64]) {
    let name = |kind: &str| format!("or-{order}-{kind}");
    time(&name("aligned"), WORDS, || {
        or_shifted::<RISING>(black_box(source), 64, black_box(target), 64, COPIED);
    });
    time(&name("shifted"), WORDS, || {
        or_shifted::<RISING>(black_box(source), 64 + 3, black_box(target), 64 + 14, COPIED);
    });
    time(&name("200-bits"), 1, || {
        or_plain::<RISING>(black_box(source), 64 + 3, black_box(target), 64 + 14, black_box(200));
    });
    time(&name("within-shifted"), WORDS, || or_within::<RISING>(black_box(target), black_box(3)));
}

// ---- runs

#[derive(Clone, Copy)]
#[allow(dead_code)]
enum Command {
    Load(usize),
    Store(usize, u64),
    Set(usize),
    Clear(usize),
    Invert(usize),
    Read(usize),
    Replace(usize, bool),
    Swap(usize, usize),
    Copy { from: usize, to: usize, count: usize },
    Fill { from: usize, to: usize, value: bool },
}

#[derive(Clone, Copy)]
struct Request {
    span: usize,
    command: Command,
}

#[derive(Clone, Copy)]
#[allow(dead_code)]
enum Reply {
    Word(u64),
    Bit(bool),
    Done,
    PastEnd,
    NoSpan,
}

#[derive(Clone, Copy)]
struct Span {
    word: isize,
    head: u8,
    len: usize,
}

impl Span {
    fn elements(self) -> usize {
        if self.len == 0 { 0 } else { (self.head as usize + self.len - 1) / 64 + 1 }
    }

    fn mask(self, k: usize) -> u64 {
        let from = if k == 0 { self.head as usize } else { 0 };
        let last = k + 1 == self.elements();
        let upto = if last { (self.head as usize + self.len - 1) % 64 + 1 } else { 64 };
        mask::<true>(from, upto - from)
    }

    fn places(self) -> (isize, isize) {
        let start = self.word * 64 + self.head as isize;
        (start, start + self.len as isize)
    }
}

/// What stands under a span's part of a word, which gets other bits.
#[inline(always)]
fn edit(span: Span, memory: &mut [u64], k: usize, new: impl Fn(u64) -> u64) -> Reply {
    if k >= span.elements() {
        return Reply::PastEnd;
    }
    let mask = span.mask(k);
    let word = &mut memory[span.word as usize + k];
    let old = *word;
    *word = old & !mask | new(old) & mask;
    Reply::Word(old & mask)
}

#[inline(always)]
fn bit(span: Span, memory: &mut [u64], i: usize, new: impl Fn(bool) -> bool) -> Reply {
    if i >= span.len {
        return Reply::PastEnd;
    }
    let place = span.head as usize + i;
    let word = &mut memory[span.word as usize + place / 64];
    let old = *word >> (place % 64) & 1 == 1;
    *word = *word & !(1 << (place % 64)) | (new(old) as u64) << (place % 64);
    Reply::Bit(old)
}

/// Makes the bits of a span from one on to before another the same.
#[inline(always)]
fn fill_part(span: Span, memory: &mut [u64], from: usize, to: usize, value: bool) -> Reply {
    if from > to || to > span.len {
        return Reply::PastEnd;
    }
    let place = span.head as usize + from;
    let part = Span { word: span.word + (place / 64) as isize, head: (place % 64) as u8, len: to - from };
    let met = part.elements();
    if met == 0 {
        return Reply::Done;
    }
    let new = if value { !0 } else { 0 };
    let words = &mut memory[part.word as usize..][..met];
    for k in [0, met - 1] {
        let mask = part.mask(k);
        words[k] = words[k] & !mask | new & mask;
    }
    if met > 2 {
        words[1..met - 1].fill(new);
    }
    Reply::Done
}

#[inline(always)]
fn step(span: Span, memory: &mut [u64], command: Command) -> Reply {
    match command {
        Command::Load(k) => edit(span, memory, k, |word| word),
        Command::Store(k, value) => edit(span, memory, k, |_| value),
        Command::Set(k) => edit(span, memory, k, |_| !0),
        Command::Clear(k) => edit(span, memory, k, |_| 0),
        Command::Invert(k) => edit(span, memory, k, |word| !word),
        Command::Read(i) => bit(span, memory, i, |old| old),
        Command::Replace(i, new) => bit(span, memory, i, |_| new),
        Command::Swap(..) | Command::Copy { .. } => Reply::Done,
        Command::Fill { from, to, value } => fill_part(span, memory, from, to, value),
    }
}

#[inline(never)]
fn run(spans: &[Span], memory: &mut [u64], requests: &[Request], replies: &mut [Reply]) {
    for (request, reply) in requests.iter().zip(replies) {
        *reply = match spans.get(request.span) {
            Some(span) => step(*span, memory, request.command),
            None => Reply::NoSpan,
        };
    }
}

/// Whether spans that rise fit and are apart.
#[inline(never)]
fn can_run(spans: &[Span], words: usize) -> bool {
    let mut last = isize::MIN;
    for span in spans {
        if span.word < 0 || span.elements() > words || span.word as usize > words - span.elements() {
            return false;
        }
        let (start, end) = span.places();
        if span.len > 0 {
            if start < last {
                return false;
            }
            last = end;
        }
    }
    true
}

fn spans(count: usize) -> Vec<Span> {
    (0..count).map(|i| Span { word: (i * 10 / 64) as isize, head: (i * 10 % 64) as u8, len: 10 }).collect()
}

/// Whether spans in no order fit and are apart: their numbers are sorted by place in the room, and then one pass.
#[inline(never)]
fn can_run_in(spans: &[Span], words: usize, room: &mut [usize]) -> bool {
    for (i, number) in room.iter_mut().enumerate() {
        *number = i;
    }
    room.sort_unstable_by_key(|i| spans[*i].places().0);
    let mut last = isize::MIN;
    for number in room.iter() {
        let span = spans[*number];
        if span.word < 0 || span.elements() > words || span.word as usize > words - span.elements() {
            return false;
        }
        let (start, end) = span.places();
        if span.len > 0 {
            if start < last {
                return false;
            }
            last = end;
        }
    }
    true
}

fn time_runs(memory: &mut [u64]) {
    let few = spans(SPANS);
    let many = spans(2 * SPANS);
    let requests: Vec<Request> = (0..REQUESTS)
        .map(|i| Request { span: i * 7919 % SPANS, command: Command::Store(0, i as u64) })
        .collect();
    let fills: Vec<Request> = (0..REQUESTS)
        .map(|i| Request { span: i * 7919 % SPANS, command: Command::Fill { from: i % 4, to: i % 6 + 5, value: i % 3 != 0 } })
        .collect();
    let mut replies = vec![Reply::Done; REQUESTS];
    time("run-store", REQUESTS, || run(black_box(&few), black_box(memory), black_box(&requests), black_box(&mut replies)));
    time("run-fill", REQUESTS, || run(black_box(&few), black_box(memory), black_box(&fills), black_box(&mut replies)));
    time(if GROWN.is_some() { "can-run-rising" } else { "can-run-2000" }, SPANS, || {
        black_box(can_run(black_box(&few), WORDS));
    });
    if GROWN.is_none() {
        time("can-run-4000", 2 * SPANS, || {
            black_box(can_run(black_box(&many), WORDS));
        });
    }
    let mut room = vec![0; SORTED];
    let mut falling = spans(SORTED);
    falling.reverse();
    time("can-run-falling", SORTED, || {
        assert!(can_run_in(black_box(&falling), WORDS, black_box(&mut room)));
    });
    let rising = spans(SORTED);
    let shuffled: Vec<Span> = (0..SORTED).map(|n| rising[n * 7919 % SORTED]).collect();
    time("can-run-shuffled", SORTED, || {
        assert!(can_run_in(black_box(&shuffled), WORDS, black_box(&mut room)));
    });
}

// ---- domains

/// All words of a memory but three bits at its start and four at its end, in one number.
#[inline(never)]
fn pass(words: &[u64]) -> u64 {
    let [first, body @ .., last] = words else { return 0 };
    body.iter().fold(first & (!0 << 3) ^ last & (!0 >> 4), |sum, word| sum ^ word)
}

#[inline(never)]
fn pass_body(words: &[u64]) -> u64 {
    let [_, body @ .., _] = words else { return 0 };
    body.iter().fold(0, |sum, word| sum ^ word)
}

#[inline(never)]
fn fill(words: &mut [u64], bit: bool) {
    let [first, body @ .., last] = words else { return };
    let word = if bit { !0 } else { 0 };
    *first = *first & !(!0 << 3) | word & (!0 << 3);
    *last = *last & !(!0 >> 4) | word & (!0 >> 4);
    body.fill(word);
}

fn time_domains(source: &[u64], target: &mut [u64]) {
    time("domain-pass", WORDS, || {
        black_box(pass(black_box(source)));
    });
    time("domain-body", WORDS, || {
        black_box(pass_body(black_box(source)));
    });
    time("domain-each", WORDS, || {
        black_box(pass(black_box(source)));
    });
    time("fill", WORDS, || fill(black_box(target), black_box(true)));
}

// ---- slices

/// All bits but three at the start and four at the end, as masks of the first word and of the last.
fn edges<const RISING: bool>() -> (u64, u64) {
    (mask::<RISING>(3, 61), mask::<RISING>(0, 60))
}

/// Digits that are bits of the slice: word `k` of `count`, under its mask.
#[inline(always)]
fn inside<const RISING: bool>(word: u64, k: usize, count: usize) -> u64 {
    let (first, last) = edges::<RISING>();
    let word = if k == 0 { word & first } else { word };
    if k + 1 == count { word & last } else { word }
}

/// The index in its word of the first bit that is one, and of the last.
#[inline(always)]
fn first_bit<const RISING: bool>(word: u64) -> usize {
    (if RISING { word.trailing_zeros() } else { word.leading_zeros() }) as usize
}

#[inline(always)]
fn last_bit<const RISING: bool>(word: u64) -> usize {
    63 - (if RISING { word.leading_zeros() } else { word.trailing_zeros() }) as usize
}

/// How many bits are one, but for three at the start and four at the end.
#[inline(never)]
fn count_ones<const RISING: bool>(words: &[u64]) -> usize {
    let (head, tail) = edges::<RISING>();
    let [first, body @ .., last] = words else { return 0 };
    let ends = (first & head).count_ones() + (last & tail).count_ones();
    body.iter().map(|word| word.count_ones() as usize).sum::<usize>() + ends as usize
}

/// The place of the first of those bits that is one, from the first of them on.
#[inline(never)]
fn first_one<const RISING: bool>(words: &[u64]) -> Option<usize> {
    let (head, tail) = edges::<RISING>();
    let [first, body @ .., last] = words else { return None };
    let place = |k: usize, word: u64| k * 64 + first_bit::<RISING>(word) - 3;
    let first = first & head;
    if first != 0 {
        return Some(place(0, first));
    }
    if let Some(k) = body.iter().position(|word| *word != 0) {
        return Some(place(k + 1, body[k]));
    }
    let last = last & tail;
    (last != 0).then(|| place(body.len() + 1, last))
}

/// The same of the last.
#[inline(never)]
fn last_one<const RISING: bool>(words: &[u64]) -> Option<usize> {
    let (head, tail) = edges::<RISING>();
    let [first, body @ .., last] = words else { return None };
    let place = |k: usize, word: u64| k * 64 + last_bit::<RISING>(word) - 3;
    let last = last & tail;
    if last != 0 {
        return Some(place(body.len() + 1, last));
    }
    if let Some(k) = body.iter().rposition(|word| *word != 0) {
        return Some(place(k + 1, body[k]));
    }
    let first = first & head;
    (first != 0).then(|| place(0, first))
}

/// The sum of the indices of those bits that are one.
#[inline(never)]
fn sum_of_ones<const RISING: bool>(words: &[u64]) -> usize {
    let mut sum: usize = 0;
    for (k, word) in words.iter().enumerate() {
        let mut word = inside::<RISING>(*word, k, words.len());
        while word != 0 {
            let i = first_bit::<RISING>(word);
            sum = sum.wrapping_add(k * 64 + i - 3);
            word &= if RISING { word - 1 } else { !(1 << (63 - i)) };
        }
    }
    sum
}

/// The first of those bits that is one, from one of them on.
#[inline(always)]
fn next_one<const RISING: bool>(words: &[u64], from: usize) -> Option<usize> {
    let place = from + 3;
    let mut k = place / 64;
    let behind = if RISING { !0 << (place % 64) } else { !0 >> (place % 64) };
    let mut word = *words.get(k)? & behind;
    while word == 0 {
        k += 1;
        word = *words.get(k)?;
    }
    let i = k * 64 + first_bit::<RISING>(word) - 3;
    (i < words.len() * 64 - 7).then_some(i)
}

/// The sum of the indices of those bits that are one, each sought from behind the one before it.
#[inline(never)]
fn sum_by_next<const RISING: bool>(words: &[u64]) -> usize {
    let (mut sum, mut from): (usize, usize) = (0, 0);
    while let Some(i) = next_one::<RISING>(words, from) {
        sum = sum.wrapping_add(i);
        from = i + 1;
    }
    sum
}

/// The sum of the indices of those bits that are one, and none of another memory.
#[inline(never)]
fn sum_without<const RISING: bool>(words: &[u64], others: &[u64]) -> usize {
    let mut sum: usize = 0;
    for (k, (word, other)) in words.iter().zip(others).enumerate() {
        let mut word = inside::<RISING>(*word & !*other, k, words.len());
        while word != 0 {
            let i = first_bit::<RISING>(word);
            sum = sum.wrapping_add(k * 64 + i - 3);
            word &= if RISING { word - 1 } else { !(1 << (63 - i)) };
        }
    }
    sum
}

/// How many of those bits are one, here or in another memory.
#[inline(never)]
fn count_either<const RISING: bool>(words: &[u64], others: &[u64]) -> usize {
    let (head, tail) = edges::<RISING>();
    let ([first, body @ .., last], [a, middle @ .., b]) = (words, others) else { return 0 };
    let ends = ((first | a) & head).count_ones() + ((last | b) & tail).count_ones();
    body.iter().zip(middle).map(|(word, other)| (word | other).count_ones() as usize).sum::<usize>() + ends as usize
}

/// How many of those bits are one, each asked for in turn.
#[inline(never)]
fn count_in_turn<const RISING: bool>(words: &[u64]) -> usize {
    let mut count = 0;
    for place in 3..words.len() * 64 - 4 {
        let position = if RISING { place % 64 } else { 63 - place % 64 };
        count += (words[place / 64] >> position & 1) as usize;
    }
    count
}

/// The first of `wanted` zeros in a row, at most 64: runs within a word by shifts, and across its edge by the zeros that
/// the word before ends with.
#[inline(never)]
fn find_zeros<const RISING: bool>(words: &[u64], wanted: usize) -> Option<usize> {
    let mut before = 0;
    for (k, word) in words.iter().enumerate() {
        let free = inside::<RISING>(!*word, k, words.len());
        let low = first_bit::<RISING>(!free).min(64);
        if before + low >= wanted {
            return Some(k * 64 - before - 3);
        }
        let (mut run, mut have) = (free, 1);
        while have < wanted && run != 0 {
            let by = have.min(wanted - have);
            run &= if RISING { run >> by } else { run << by };
            have += by;
        }
        if run != 0 {
            return Some(k * 64 + first_bit::<RISING>(run) - 3);
        }
        before = if free == !0 { before + 64 } else { 63 - last_bit::<RISING>(!free) };
    }
    None
}

/// Whether those bits of two memories are the same.
#[inline(never)]
fn equal<const RISING: bool>(words: &[u64], others: &[u64]) -> bool {
    let (head, tail) = edges::<RISING>();
    let ([first, body @ .., last], [a, middle @ .., b]) = (words, others) else { return false };
    (first ^ a) & head == 0 && body == middle && (last ^ b) & tail == 0
}

/// Whether `count` bits from place 3 on are those of another memory from place 14 on: whole words of the other between
/// its edges, 64 of them a test.
#[inline(never)]
fn equal_shifted<const RISING: bool>(words: &[u64], others: &[u64], count: usize) -> bool {
    let lead = 64 - 14;
    let word = word_at::<RISING>(words, 3, 14, lead);
    if (word ^ others[0]) & mask::<RISING>(14, lead) != 0 {
        return false;
    }
    let whole = (count - lead) / 64;
    let (down, up) = shifts::<RISING>((3 + lead) % 64);
    let first = (3 + lead) / 64;
    for (block, other) in (0..whole).step_by(64).zip(others[1..1 + whole].chunks(64)) {
        let here = &words[first + block..][..other.len() + 1];
        let differences = (0..other.len()).fold(0, |sum, i| sum | (joined::<RISING>(here[i], here[i + 1], down, up) ^ other[i]));
        if differences != 0 {
            return false;
        }
    }
    let done = lead + whole * 64;
    done == count || (word_at::<RISING>(words, 3 + done, 0, count - done) ^ others[1 + whole]) & mask::<RISING>(0, count - done) == 0
}

/// The first word of another memory's range and its last, and the whole words between: `edge` is handed the two words of
/// an edge and its mask, `rows` the words of this memory with the next ones behind them, and the other's. It stops where
/// one of them says so.
#[inline(always)]
fn pairs<const RISING: bool>(
    words: &[u64],
    from: usize,
    others: &[u64],
    to: usize,
    count: usize,
    mut edge: impl FnMut(u64, u64, u64) -> bool,
    rows: impl FnOnce(&[u64], &[u64], &[u64], usize) -> bool,
) {
    let lead = ((64 - to % 64) % 64).min(count);
    if lead > 0 {
        let word = word_at::<RISING>(words, from, to % 64, lead);
        if !edge(word, others[to / 64], mask::<RISING>(to % 64, lead)) {
            return;
        }
    }
    let (first, shift) = ((from + lead) / 64, (from + lead) % 64);
    let whole = (count - lead) / 64;
    let start = (to + lead) / 64;
    let next = if shift == 0 { first } else { first + 1 };
    if !rows(&words[first..first + whole], &words[next..next + whole], &others[start..start + whole], shift) {
        return;
    }
    let done = lead + whole * 64;
    if done < count {
        let word = word_at::<RISING>(words, from + done, 0, count - done);
        edge(word, others[start + whole], mask::<RISING>(0, count - done));
    }
}

/// How many bits are set in both ranges.
#[inline(never)]
fn count_and<const RISING: bool>(words: &[u64], from: usize, others: &[u64], to: usize, count: usize) -> u64 {
    let sum = std::cell::Cell::new(0);
    pairs::<RISING>(
        words,
        from,
        others,
        to,
        count,
        |word, other, mask| {
            sum.set(sum.get() + u64::from((word & other & mask).count_ones()));
            true
        },
        |here, next, there, shift| {
            let mut ones = 0;
            if shift == 0 {
                for (word, other) in here.iter().zip(there) {
                    ones += u64::from((word & other).count_ones());
                }
            } else {
                let (down, up) = shifts::<RISING>(shift);
                for i in 0..there.len() {
                    ones += u64::from((joined::<RISING>(here[i], next[i], down, up) & there[i]).count_ones());
                }
            }
            sum.set(sum.get() + ones);
            true
        },
    );
    sum.get()
}

/// The first pair of words of two ranges, lined up, for which a test leaves a bit: 64 of them are tested at once.
#[inline(always)]
fn first_pair<const RISING: bool>(
    words: &[u64],
    from: usize,
    others: &[u64],
    to: usize,
    count: usize,
    left: impl Fn(u64, u64) -> u64 + Copy,
) -> Option<(u64, u64)> {
    let found = std::cell::Cell::new(None);
    pairs::<RISING>(
        words,
        from,
        others,
        to,
        count,
        |word, other, mask| {
            let pair = (word & mask, other & mask);
            if left(pair.0, pair.1) != 0 {
                found.set(Some(pair));
            }
            found.get().is_none()
        },
        |here, next, there, shift| {
            let (down, up) = shifts::<RISING>(shift.max(1));
            for ((a, b), c) in here.chunks(64).zip(next.chunks(64)).zip(there.chunks(64)) {
                let (b, c) = (&b[..a.len()], &c[..a.len()]);
                let word = |i: usize| if shift == 0 { a[i] } else { joined::<RISING>(a[i], b[i], down, up) };
                let any = if shift == 0 {
                    (0..a.len()).fold(0, |sum, i| sum | left(a[i], c[i]))
                } else {
                    (0..a.len()).fold(0, |sum, i| sum | left(joined::<RISING>(a[i], b[i], down, up), c[i]))
                };
                if any != 0 {
                    found.set((0..a.len()).map(|i| (word(i), c[i])).find(|pair| left(pair.0, pair.1) != 0));
                    return false;
                }
            }
            true
        },
    );
    found.get()
}

/// Whether each bit that is set in the one range is set in the other.
#[inline(never)]
fn subset<const RISING: bool>(words: &[u64], from: usize, others: &[u64], to: usize, count: usize) -> bool {
    first_pair::<RISING>(words, from, others, to, count, |word, other| word & !other).is_none()
}

/// Which of two ranges comes first: the one that has a zero where they first differ.
#[inline(never)]
fn compare<const RISING: bool>(words: &[u64], from: usize, others: &[u64], to: usize, count: usize) -> Ordering {
    match first_pair::<RISING>(words, from, others, to, count, |word, other| word ^ other) {
        Some((word, other)) if RISING => word.reverse_bits().cmp(&other.reverse_bits()),
        Some((word, other)) => word.cmp(&other),
        None => Ordering::Equal,
    }
}

fn one_bit(at: usize) -> Vec<u64> {
    let mut words = vec![0; WORDS];
    words[at] = 1 << 31;
    words
}

fn sparse(n: usize) -> Vec<u64> {
    (0..WORDS).map(|k| if n == 0 || k % n == n / 2 { 1 << (k % 61) } else { 0 }).collect()
}

fn crowded(ones: u64) -> Vec<u64> {
    let mut words = words();
    for word in words.iter_mut() {
        *word = (*word & *word >> 7 & *word >> 13) | ones;
    }
    words[WORDS - 2..].fill(0);
    words
}

fn time_reads<const RISING: bool>(order: &str, source: &[u64]) {
    let name = |job: &str| format!("{job}-{order}");
    time(&name("count-ones"), WORDS, || {
        black_box(count_ones::<RISING>(black_box(source)));
    });
    time(&name("ones-half"), WORDS, || {
        black_box(sum_of_ones::<RISING>(black_box(source)));
    });
    time(&name("next-half"), WORDS, || {
        black_box(sum_by_next::<RISING>(black_box(source)));
    });
    time(&name("iter-bits"), WORDS, || {
        black_box(count_in_turn::<RISING>(black_box(source)));
    });
    let copy = source.to_vec();
    time(&name("equal"), WORDS, || {
        black_box(equal::<RISING>(black_box(source), black_box(&copy)));
    });
    time(&name("subset-aligned"), WORDS, || {
        assert!(subset::<RISING>(black_box(source), 3, black_box(&copy), 3, WORDS * 64 - 7));
    });
    time(&name("count-and-aligned"), WORDS, || {
        black_box(count_and::<RISING>(black_box(source), 3, black_box(&copy), 3, WORDS * 64 - 7));
    });
    let turned: Vec<u64> = source.iter().rev().copied().collect();
    time(&name("without-walked"), WORDS, || {
        black_box(sum_without::<RISING>(black_box(source), black_box(&turned)));
    });
    time(&name("either-counted"), WORDS, || {
        black_box(count_either::<RISING>(black_box(source), black_box(&turned)));
    });
    let mut moved = vec![0; WORDS];
    let count = (WORDS - 1) * 64;
    copy_plain::<RISING>(source, 3, &mut moved, 14, count);
    time(&name("equal-shifted"), WORDS, || {
        assert!(equal_shifted::<RISING>(black_box(source), black_box(&moved), count));
    });
    time(&name("subset-shifted"), WORDS, || {
        assert!(subset::<RISING>(black_box(source), 3, black_box(&moved), 14, count));
    });
    time(&name("count-and-shifted"), WORDS, || {
        black_box(count_and::<RISING>(black_box(source), 3, black_box(&moved), 14, count));
    });
    time(&name("cmp-shifted"), WORDS, || {
        assert!(compare::<RISING>(black_box(source), 3, black_box(&moved), 14, count) == Ordering::Equal);
    });
    let memory = one_bit(WORDS - 1);
    time(&name("first-one"), WORDS, || {
        black_box(first_one::<RISING>(black_box(&memory)));
    });
    let memory = one_bit(0);
    time(&name("last-one"), WORDS, || {
        black_box(last_one::<RISING>(black_box(&memory)));
    });
    for (part, n) in [("64th", 0), ("4096th", 64)] {
        let memory = sparse(n);
        time(&name(&format!("ones-{part}")), WORDS, || {
            black_box(sum_of_ones::<RISING>(black_box(&memory)));
        });
        time(&name(&format!("next-{part}")), WORDS, || {
            black_box(sum_by_next::<RISING>(black_box(&memory)));
        });
    }
    for (job, ones, wanted) in [("find-zeros-8", 0x0101_0101_0101_0101, 8), ("find-zeros-64", 1 << 31, 64)] {
        let memory = crowded(ones);
        time(&name(job), WORDS, || {
            black_box(find_zeros::<RISING>(black_box(&memory), black_box(wanted)));
        });
    }
}

// ---- edits

/// Puts `count` bits from a place on in the opposite order: words exchanged and turned, shifted into their place, and the
/// bits beside them put back.
#[inline(never)]
fn reverse<const RISING: bool>(memory: &mut [u64], place: usize, count: usize) {
    if count == 0 {
        return;
    }
    let head = place % 64;
    let n = (head + count - 1) / 64 + 1;
    let words = &mut memory[place / 64..][..n];
    let (first, last) = (words[0], words[n - 1]);
    let (mut i, mut j) = (0, n - 1);
    while i < j {
        (words[i], words[j]) = (words[j].reverse_bits(), words[i].reverse_bits());
        i += 1;
        j -= 1;
    }
    if i == j {
        words[i] = words[i].reverse_bits();
    }
    let tail = (head + count - 1) % 64 + 1;
    let at = 64 - tail;
    if at > head {
        let (down, up) = shifts::<RISING>(at - head);
        for i in 0..n - 1 {
            words[i] = joined::<RISING>(words[i], words[i + 1], down, up);
        }
        words[n - 1] = if RISING { words[n - 1] >> (at - head) } else { words[n - 1] << (at - head) };
    } else if at < head {
        let (down, up) = shifts::<RISING>(64 - (head - at));
        for i in (1..n).rev() {
            words[i] = joined::<RISING>(words[i - 1], words[i], down, up);
        }
        words[0] = if RISING { words[0] << (head - at) } else { words[0] >> (head - at) };
    }
    let before = mask::<RISING>(0, head);
    words[0] = words[0] & !before | first & before;
    let behind = mask::<RISING>(0, tail);
    words[n - 1] = words[n - 1] & behind | last & !behind;
}

fn time_edits<const RISING: bool>(order: &str, memory: &mut [u64]) {
    let count = WORDS * 64 - 7;
    time(&format!("reverse-{order}"), WORDS, || reverse::<RISING>(black_box(memory), 3, count));
    time(&format!("rotate-left-{order}"), WORDS, || {
        let memory = black_box(&mut *memory);
        reverse::<RISING>(memory, 3, 1000);
        reverse::<RISING>(memory, 1003, count - 1000);
        reverse::<RISING>(memory, 3, count);
    });
}

// ---- fields, bits and short copies

/// The number of 13 bits from a place on: their digits as they stand, and 0 where they pass the end.
#[inline(always)]
fn load_field<const RISING: bool>(words: &[u64], place: usize) -> u64 {
    if place + 13 > words.len() * 64 {
        return 0;
    }
    let (k, bit) = (place / 64, place % 64);
    let room = 64 - bit;
    let both = if RISING {
        let low = words[k] >> bit;
        if room < 13 { low | words[k + 1] << room } else { low }
    } else if room < 13 {
        words[k] << (13 - room) | words[k + 1] >> (64 - (13 - room))
    } else {
        words[k] >> (room - 13)
    };
    both & 0x1FFF
}

#[inline(always)]
fn store_field<const RISING: bool>(words: &mut [u64], place: usize, value: u64) {
    if place + 13 > words.len() * 64 {
        return;
    }
    let (k, bit) = (place / 64, place % 64);
    let room = 64 - bit;
    let value = value & 0x1FFF;
    if room >= 13 {
        let up = if RISING { bit } else { room - 13 };
        words[k] = words[k] & !(0x1FFF << up) | value << up;
    } else if RISING {
        words[k] = words[k] & !(!0 << bit) | value << bit;
        words[k + 1] = words[k + 1] & (!0 << (13 - room)) | value >> room;
    } else {
        let low = 13 - room;
        words[k] = words[k] & (!0 << room) | value >> low;
        words[k + 1] = words[k + 1] & (!0 >> low) | value << (64 - low);
    }
}

#[inline(never)]
fn load_all<const RISING: bool>(words: &[u64], places: &[usize]) -> u64 {
    places.iter().fold(0, |sum: u64, place| sum.wrapping_add(load_field::<RISING>(words, *place)))
}

#[inline(never)]
fn store_all<const RISING: bool>(words: &mut [u64], places: &[usize]) {
    for place in places {
        store_field::<RISING>(words, *place, *place as u64);
    }
}

/// The sum of fields of 13 bits of bytes: each by one load, whatever its place.
#[inline(never)]
fn load_bytes<const RISING: bool>(bytes: &[u8], fields: usize) -> u64 {
    let mut sum = 0u64;
    for n in 0..fields {
        let (k, bit) = (n * 13 / 8, n * 13 % 8);
        let Some(four) = bytes.get(k..k + 4) else { break };
        let four: [u8; 4] = four.try_into().unwrap();
        let field = if RISING { u32::from_le_bytes(four) >> bit } else { u32::from_be_bytes(four) >> (19 - bit) };
        sum = sum.wrapping_add(u64::from(field & 0x1FFF));
    }
    sum
}

#[inline(always)]
fn position<const RISING: bool>(place: usize) -> usize {
    if RISING { place % 64 } else { 63 - place % 64 }
}

#[inline(never)]
fn get_all<const RISING: bool>(words: &[u64], places: &[usize]) -> u64 {
    let bit = |place: usize| words.get(place / 64).map_or(0, |word| word >> position::<RISING>(place) & 1);
    places.iter().fold(0, |sum: u64, place| sum.wrapping_add(bit(*place)))
}

#[inline(never)]
fn set_all<const RISING: bool>(words: &mut [u64], places: &[usize]) {
    for place in places {
        if let Some(word) = words.get_mut(place / 64) {
            let position = position::<RISING>(*place);
            *word = *word & !(1 << position) | ((place % 3 == 0) as u64) << position;
        }
    }
}

#[inline(never)]
fn copy_all<const RISING: bool>(source: &[u64], words: &mut [u64], places: &[usize]) {
    for place in places {
        let count = (place ^ place >> 7) % 64 + 1;
        let from = place ^ 0x2A5;
        if from + count <= source.len() * 64 && place + count <= words.len() * 64 {
            let bit = place % 64;
            let part = (64 - bit).min(count);
            put::<RISING>(&mut words[place / 64], word_at::<RISING>(source, from, bit, part), bit, part);
            if part < count {
                let rest = count - part;
                put::<RISING>(&mut words[place / 64 + 1], word_at::<RISING>(source, from + part, 0, rest), 0, rest);
            }
        }
    }
}

fn time_places<const RISING: bool>(order: &str) {
    let random = || {
        let mut word = 1u64;
        (0..2 * WORDS + 17).map(move |_| {
            word = word.wrapping_mul(6364136223846793005).wrapping_add(1442695040888963407);
            word
        })
    };
    let source: Vec<u64> = random().collect();
    let mut memory: Vec<u64> = random().take(2 * WORDS).collect();
    let fields: Vec<usize> = (0..WORDS).map(|n| n * 13).collect();
    let places: Vec<usize> = random().take(WORDS).map(|word| (word >> 20) as usize % (WORDS * 128 - 1024)).collect();
    let name = |job: &str| format!("{job}-{order}");
    time(&name("load-13"), WORDS, || {
        black_box(load_all::<RISING>(black_box(&memory), black_box(&fields)));
    });
    time(&name("store-13"), WORDS, || store_all::<RISING>(black_box(&mut memory), black_box(&fields)));
    time(&name("get-random"), WORDS, || {
        black_box(get_all::<RISING>(black_box(&memory), black_box(&places)));
    });
    time(&name("set-random"), WORDS, || set_all::<RISING>(black_box(&mut memory), black_box(&places)));
    time(&name("copy-short"), WORDS, || copy_all::<RISING>(black_box(&source), black_box(&mut memory), black_box(&places)));
}

fn time_bytes<const RISING: bool>(order: &str) {
    let mut word = 1u64;
    let bytes: Vec<u8> = (0..WORDS * 8)
        .map(|_| {
            word = word.wrapping_mul(6364136223846793005).wrapping_add(1442695040888963407);
            (word >> 56) as u8
        })
        .collect();
    time(&format!("load-13-u8-{order}"), WORDS, || {
        black_box(load_bytes::<RISING>(black_box(&bytes), black_box(WORDS)));
    });
}

// ---- free maps

const BLOCKS: usize = either(1_048_576, WORDS * 64);
const SLOTS: usize = 4096;
const MANY: usize = if BLOCKS / 2 < SLOTS { BLOCKS / 2 } else { SLOTS };

/// A bit for each block, and two levels over them, of which each bit says that a word below has no free block, or that
/// there is none.
struct Levels {
    words: Vec<u64>,
    full: Vec<u64>,
    top: Vec<u64>,
}

/// The words of the level over these.
fn level_over(words: &[u64]) -> Vec<u64> {
    let none = |part: &[u64]| if part.len() < 64 { !0 << part.len() } else { 0 };
    let word = |part: &[u64]| part.iter().enumerate().fold(none(part), |sum, (i, word)| sum | ((*word == !0) as u64) << i);
    words.chunks(64).map(word).collect()
}

/// The first bit that is zero from one on, by words.
#[inline(always)]
fn zero_from(words: &[u64], from: usize) -> Option<usize> {
    let mut k = from / 64;
    let mut free = !*words.get(k)? & !0 << (from % 64);
    while free == 0 {
        k += 1;
        free = !*words.get(k)?;
    }
    Some(k * 64 + free.trailing_zeros() as usize)
}

/// `edit` of each word that some bits lie in, with the mask of those bits, until it says no.
#[inline(always)]
fn parts(at: usize, count: usize, mut edit: impl FnMut(usize, u64) -> bool) -> bool {
    let mut done = 0;
    while done < count {
        let bit = (at + done) % 64;
        let part = (64 - bit).min(count - done);
        if !edit((at + done) / 64, mask::<true>(bit, part)) {
            return false;
        }
        done += part;
    }
    true
}

/// Makes bits be ones, or zeros.
#[inline(always)]
fn fill_bits(words: &mut [u64], at: usize, count: usize, one: bool) {
    let (first, last) = (at / 64, (at + count - 1) / 64);
    let head = !0 << (at % 64);
    let tail = !0 >> (63 - (at + count - 1) % 64);
    let put = |word: &mut u64, mask: u64| if one { *word |= mask } else { *word &= !mask };
    if first == last {
        put(&mut words[first], head & tail);
    } else {
        put(&mut words[first], head);
        words[first + 1..last].fill(if one { !0 } else { 0 });
        put(&mut words[last], tail);
    }
}

impl Levels {
    fn of(words: Vec<u64>) -> Self {
        let full = level_over(&words);
        let top = level_over(&full);
        Levels { words, full, top }
    }

    #[inline(always)]
    fn lowest(&self) -> Option<usize> {
        let group = zero_from(&self.top, 0)?;
        let word = group * 64 + (!self.full[group]).trailing_zeros() as usize;
        Some(word * 64 + (!self.words[word]).trailing_zeros() as usize)
    }

    /// Puts one block in use. The levels are looked at only where its word becomes full.
    #[inline(always)]
    fn take(&mut self, at: usize) {
        let w = at / 64;
        self.words[w] |= 1 << (at % 64);
        if self.words[w] == !0 {
            self.full[w / 64] |= 1 << (w % 64);
            if self.full[w / 64] == !0 {
                self.top[w / 4096] |= 1 << (w / 64 % 64);
            }
        }
    }

    /// Makes one block free. The levels are looked at only where its word was full.
    #[inline(always)]
    fn give(&mut self, at: usize) {
        let w = at / 64;
        let was = self.words[w];
        self.words[w] = was & !(1 << (at % 64));
        if was == !0 {
            self.full[w / 64] &= !(1 << (w % 64));
            self.top[w / 4096] &= !(1 << (w / 64 % 64));
        }
    }

    /// Makes blocks be in use, or free: the words between the ends, and their bits in the level above, by fills.
    #[inline(always)]
    fn mark(&mut self, at: usize, count: usize, used: bool) {
        match (count, used) {
            (0, _) => {}
            (1, true) => self.take(at),
            (1, false) => self.give(at),
            _ => {
                fill_bits(&mut self.words, at, count, used);
                let (first, last) = (at / 64, (at + count - 1) / 64);
                Self::refresh(&self.words, &mut self.full, first, last, used);
                Self::refresh(&self.full, &mut self.top, first / 64, last / 64, used);
            }
        }
    }

    /// The bits of a level for the words from one to another, of which those between the two are full, or not.
    #[inline(always)]
    fn refresh(words: &[u64], over: &mut [u64], first: usize, last: usize, used: bool) {
        if first + 1 < last {
            fill_bits(over, first + 1, last - first - 1, used);
        }
        for w in [first, last] {
            let bit = 1 << (w % 64);
            if words[w] == !0 { over[w / 64] |= bit } else { over[w / 64] &= !bit }
        }
    }

    #[inline(always)]
    fn are(&self, at: usize, count: usize, used: bool) -> bool {
        at <= BLOCKS && count <= BLOCKS - at && parts(at, count, |w, mask| self.words[w] & mask == if used { mask } else { 0 })
    }

    #[inline(always)]
    fn alloc(&mut self) -> Option<usize> {
        let at = self.lowest()?;
        self.take(at);
        Some(at)
    }

    #[inline(always)]
    fn alloc_at_or_after(&mut self, block: usize) -> Option<usize> {
        let free = !*self.words.get(block / 64)? & !0 << (block % 64);
        let at = if free != 0 {
            block / 64 * 64 + free.trailing_zeros() as usize
        } else {
            let word = zero_from(&self.full, block / 64 + 1)?;
            word * 64 + (!self.words[word]).trailing_zeros() as usize
        };
        self.take(at);
        Some(at)
    }

    /// From the lowest free block's word on: runs within a word by shifts, and across its edge by the zeros that the word
    /// before ends with.
    #[inline(always)]
    fn first_run(&self, wanted: usize) -> Option<usize> {
        let start = self.lowest()? / 64;
        let mut before = 0;
        for (k, word) in self.words[start..].iter().enumerate() {
            let free = !*word;
            if before + free.trailing_ones() as usize >= wanted {
                return Some((start + k) * 64 - before);
            }
            let (mut run, mut have) = (free, 1);
            while have < wanted && run != 0 {
                let by = have.min(wanted - have);
                run &= run >> by;
                have += by;
            }
            if run != 0 {
                return Some((start + k) * 64 + run.trailing_zeros() as usize);
            }
            before = if free == !0 { before + 64 } else { free.leading_ones() as usize };
        }
        None
    }

    #[inline(always)]
    fn alloc_run(&mut self, count: usize) -> Option<usize> {
        let at = self.first_run(count)?;
        self.mark(at, count, true);
        Some(at)
    }

    #[inline(always)]
    fn reserve(&mut self, at: usize, count: usize) -> Option<usize> {
        if !self.are(at, count, false) {
            return None;
        }
        self.mark(at, count, true);
        Some(at)
    }

    #[inline(always)]
    fn give_back(&mut self, at: usize, count: usize) {
        if self.are(at, count, true) {
            self.mark(at, count, false);
        }
    }
}

/// Hands out one block of words with no levels, and takes it back.
#[inline(never)]
fn one_scanned(words: &mut [u64]) -> Option<usize> {
    let k = words.iter().position(|word| *word != !0)?;
    let at = k * 64 + (!words[k]).trailing_zeros() as usize;
    words[k] |= 1 << (at % 64);
    black_box(&mut *words);
    words[k] &= !(1 << (at % 64));
    Some(at)
}

#[inline(never)]
fn one_leveled(map: &mut Levels) -> Option<usize> {
    let at = map.alloc()?;
    map.give(at);
    Some(at)
}

#[inline(never)]
fn many_leveled(map: &mut Levels, live: &mut [(usize, usize)]) -> usize {
    let mut sum: usize = 0;
    for range in live.iter_mut() {
        let at = map.alloc().unwrap_or(0);
        *range = (at, 1);
        sum = sum.wrapping_mul(31).wrapping_add(at);
    }
    all_back(map, live);
    sum
}

#[inline(always)]
fn all_back(map: &mut Levels, live: &mut [(usize, usize)]) {
    for range in live {
        let (at, count) = *range;
        if count > 0 {
            map.give_back(at, count);
        }
        *range = (0, 0);
    }
}

#[inline(never)]
fn run_leveled(map: &mut Levels, count: usize) -> Option<usize> {
    let at = map.alloc_run(count)?;
    map.mark(at, count, false);
    Some(at)
}

#[inline(never)]
fn long_leveled(map: &mut Levels, at: usize, count: usize) {
    if map.reserve(at, count).is_some() {
        map.give_back(at, count);
    }
}

/// A live range is taken back, or one is handed out, as a number that is drawn says.
#[inline(always)]
fn map_call(map: &mut Levels, range: (usize, usize), draw: usize) -> (usize, usize) {
    let (at, count) = range;
    if count > 0 {
        map.give_back(at, count);
        return (0, 0);
    }
    let many = (draw >> 4) % 16 + 1;
    let (at, count) = match draw % 16 {
        0..=7 => (map.alloc(), 1),
        8..=12 => (map.alloc_run(many), many),
        13 | 14 => (map.alloc_at_or_after(draw), 1),
        _ => (map.reserve(draw, many), many),
    };
    at.map_or((0, 0), |at| (at, count))
}

#[inline(never)]
fn map_history(map: &mut Levels, live: &mut [(usize, usize)], calls: usize) -> usize {
    let mut word: u64 = 1;
    let mut sum: usize = 0;
    for _ in 0..calls {
        word = word.wrapping_mul(6364136223846793005).wrapping_add(1442695040888963407);
        let range = &mut live[(word >> 48) as usize % SLOTS];
        *range = map_call(map, *range, (word >> 20) as usize % BLOCKS);
        sum = sum.wrapping_mul(31).wrapping_add(range.0);
    }
    all_back(map, live);
    sum
}

/// Words of which each is the same, but for the last.
fn uniform(word: u64, last: u64) -> Vec<u64> {
    let mut words = vec![word; BLOCKS / 64];
    *words.last_mut().unwrap() = last;
    words
}

fn time_maps() {
    let count = BLOCKS / 64;
    let mut live = vec![(0, 0); SLOTS];
    let mut map = Levels::of(uniform(!0, !0 >> 1));
    time("map-alloc-last", 1, || {
        black_box(one_leveled(black_box(&mut map)));
    });
    let mut words = uniform(!0, !0 >> 1);
    time("map-alloc-last-scan", 1, || {
        black_box(one_scanned(black_box(&mut words)));
    });
    for (job, word) in [("map-alloc-empty", 0), ("map-alloc-half", 0x5555_5555_5555_5555)] {
        let mut map = Levels::of(uniform(word, word));
        time(job, MANY, || {
            black_box(many_leveled(black_box(&mut map), black_box(&mut live[..MANY])));
        });
    }
    let mut word = 1u64;
    let mut fragmented: Vec<u64> = (1..count)
        .map(|_| {
            word = word.wrapping_mul(6364136223846793005).wrapping_add(1442695040888963407);
            (word & word >> 7 & word >> 13) | 0x0101_0101_0101_0101
        })
        .collect();
    fragmented.push(0);
    let mut map = Levels::of(fragmented);
    time("map-run-8", count, || {
        black_box(run_leveled(black_box(&mut map), black_box(8)));
    });
    let mut map = Levels::of(uniform(0, 0));
    time("map-free-long", count, || long_leveled(black_box(&mut map), black_box(3), black_box(BLOCKS - 7)));
    time("map-history", 1_000_000, || {
        black_box(map_history(black_box(&mut map), black_box(&mut live), black_box(1_000_000)));
    });
}

// ---- numbers one behind the other

/// A reader with a window: the next `bits` bits, the first the highest, and zeros below them.
struct Reader<'a> {
    words: &'a [u64],
    next: usize,
    window: u64,
    bits: usize,
}

impl Reader<'_> {
    /// The next 1 to 63 bits, the first the highest digit.
    #[inline(always)]
    fn read(&mut self, count: usize) -> Option<u64> {
        if count <= self.bits {
            let value = self.window >> (64 - count);
            self.window <<= count;
            self.bits -= count;
            return Some(value);
        }
        let word = *self.words.get(self.next)?;
        self.next += 1;
        let missing = count - self.bits;
        let value = self.window >> (64 - count) | word >> (64 - missing);
        self.window = word << missing;
        self.bits = 64 - missing;
        Some(value)
    }

    /// The number whose code comes next, where the code is of at most 63 bits.
    #[inline(always)]
    fn read_code(&mut self) -> Option<u64> {
        let zeros = self.window.leading_zeros() as usize;
        if 2 * zeros + 1 <= self.bits {
            let value = self.window >> (63 - 2 * zeros);
            self.window = self.window << (2 * zeros) << 1;
            self.bits -= 2 * zeros + 1;
            return Some(value - 1);
        }
        let word = *self.words.get(self.next)?;
        let window = self.window | word >> self.bits;
        let zeros = window.leading_zeros() as usize;
        if zeros > 31 {
            return None;
        }
        self.next += 1;
        let value = window >> (63 - 2 * zeros);
        let missing = 2 * zeros + 1 - self.bits;
        self.window = word << (missing - 1) << 1;
        self.bits = 64 - missing;
        Some(value - 1)
    }
}

/// The same with the first bit the lowest.
struct LowReader<'a> {
    words: &'a [u64],
    next: usize,
    window: u64,
    bits: usize,
}

impl LowReader<'_> {
    #[inline(always)]
    fn read(&mut self, count: usize) -> Option<u64> {
        let ones = !(!0 << count);
        if count <= self.bits {
            let value = self.window & ones;
            self.window >>= count;
            self.bits -= count;
            return Some(value);
        }
        let word = *self.words.get(self.next)?;
        self.next += 1;
        let value = (self.window | word << self.bits) & ones;
        let missing = count - self.bits;
        self.window = word >> missing;
        self.bits = 64 - missing;
        Some(value)
    }
}

/// A writer with a window of fewer than 64 bits, the first the highest.
struct Writer<'a> {
    words: &'a mut [u64],
    next: usize,
    window: u64,
    bits: usize,
}

impl Writer<'_> {
    /// Writes a number in 1 to 63 bits, the first the highest digit.
    #[inline(always)]
    fn write(&mut self, count: usize, value: u64) -> Option<()> {
        if value >> count != 0 || self.words.len() * 64 - self.next * 64 - self.bits < count {
            return None;
        }
        let free = 64 - self.bits;
        if count < free {
            self.window |= value << (free - count);
            self.bits += count;
            return Some(());
        }
        let rest = count - free;
        self.words[self.next] = self.window | value >> rest;
        self.next += 1;
        self.window = value << 1 << (63 - rest);
        self.bits = rest;
        Some(())
    }

    /// Puts what is in the window before the bits that stay.
    fn finish(self) {
        if self.bits > 0 {
            let word = &mut self.words[self.next];
            *word = *word & !0 >> self.bits | self.window;
        }
    }
}

#[inline(never)]
fn read_all(words: &[u64], count: usize) -> Option<u64> {
    let mut reader = Reader { words, next: 0, window: 0, bits: 0 };
    let mut sum = 0u64;
    for _ in 0..count {
        sum = sum.wrapping_add(reader.read(13)?);
    }
    Some(sum)
}

#[inline(never)]
fn read_all_low(words: &[u64], count: usize) -> Option<u64> {
    let mut reader = LowReader { words, next: 0, window: 0, bits: 0 };
    let mut sum = 0u64;
    for _ in 0..count {
        sum = sum.wrapping_add(reader.read(13)?);
    }
    Some(sum)
}

#[inline(never)]
fn read_mixed(words: &[u64], widths: &[usize]) -> Option<u64> {
    let mut reader = Reader { words, next: 0, window: 0, bits: 0 };
    let mut sum = 0u64;
    for width in widths {
        sum = sum.wrapping_add(reader.read(*width % 32)?);
    }
    Some(sum)
}

#[inline(never)]
fn read_codes(words: &[u64], count: usize) -> Option<u64> {
    let mut reader = Reader { words, next: 0, window: 0, bits: 0 };
    let mut sum = 0u64;
    for _ in 0..count {
        sum = sum.wrapping_add(reader.read_code()?);
    }
    Some(sum)
}

#[inline(never)]
fn write_all(words: &mut [u64], count: usize) -> Option<()> {
    let mut writer = Writer { words, next: 0, window: 0, bits: 0 };
    for n in 0..count {
        writer.write(13, (n % 8192) as u64)?;
    }
    writer.finish();
    Some(())
}

/// Codes of small numbers, one behind the other, and the sum of these numbers.
fn codes() -> (Vec<u64>, u64) {
    let mut memory = vec![0u64; WORDS];
    let (mut sum, mut place) = (0u64, 0);
    for word in words() {
        let number = (word >> 40 & 0xFF) >> (word >> 61);
        let width = 2 * (number + 1).ilog2() as usize + 1;
        for j in 0..width {
            let bit = number + 1 >> (width - 1 - j) & 1;
            memory[(place + j) / 64] |= bit << (63 - (place + j) % 64);
        }
        place += width;
        sum = sum.wrapping_add(number);
    }
    (memory, sum)
}

fn time_streams(source: &[u64], target: &mut [u64]) {
    const WIDTHS: [usize; 24] = [7, 13, 1, 24, 5, 18, 11, 2, 22, 9, 16, 3, 20, 8, 14, 6, 23, 10, 4, 19, 12, 17, 21, 15];
    let widths: Vec<usize> = (0..WORDS).map(|k| WIDTHS[k % 24]).collect();
    time("stream-read-13-msb0", WORDS, || {
        black_box(read_all(black_box(source), black_box(WORDS)));
    });
    time("stream-read-mixed-msb0", WORDS, || {
        black_box(read_mixed(black_box(source), black_box(&widths)));
    });
    time("stream-read-13-lsb0", WORDS, || {
        black_box(read_all_low(black_box(source), black_box(WORDS)));
    });
    time("stream-write-13-msb0", WORDS, || {
        black_box(write_all(black_box(target), black_box(WORDS)));
    });
    let (memory, sum) = codes();
    assert_eq!(read_codes(&memory, WORDS), Some(sum));
    time("stream-golomb-read", WORDS, || {
        black_box(read_codes(black_box(&memory), black_box(WORDS)));
    });
}

// ---- vectors

/// Bits that grow, in words that are as many as they take.
struct Bits {
    words: Vec<u64>,
    len: usize,
}

impl Bits {
    #[inline(always)]
    fn push(&mut self, bit: bool) {
        let at = self.len % 64;
        if at == 0 {
            self.words.push(bit as u64);
        } else {
            let word = self.words.last_mut().unwrap();
            *word = *word & !(1 << at) | (bit as u64) << at;
        }
        self.len += 1;
    }

    fn truncate(&mut self, len: usize) {
        self.words.truncate(len.div_ceil(64));
        self.len = len;
    }

    /// The bits of words from a place on behind the others, which do not end where a word does, by whole words that are
    /// put behind without being cleared first.
    #[inline(never)]
    fn extend(&mut self, source: &[u64], from: usize, count: usize) {
        let at = self.len % 64;
        let head = (64 - at).min(count);
        let last = self.words.last_mut().unwrap();
        put::<true>(last, word_at::<true>(source, from, at, head), at, head);
        let (first, shift) = ((from + head) / 64, (from + head) % 64);
        let whole = (count - head) / 64;
        let (down, up) = shifts::<true>(shift);
        let (a, b) = (&source[first..first + whole], &source[first + 1..first + 1 + whole]);
        self.words.extend(a.iter().zip(b).map(|(a, b)| joined::<true>(*a, *b, down, up)));
        let done = head + whole * 64;
        if done < count {
            self.words.push(word_at::<true>(source, from + done, 0, count - done));
        }
        self.len += count;
    }

    /// A bit before all others.
    #[inline(never)]
    fn insert_front(&mut self, bit: bool) {
        if self.len % 64 == 0 {
            self.words.push(0);
        }
        copy_up::<true>(&mut self.words, 0, 1, self.len);
        self.words[0] = self.words[0] & !1 | bit as u64;
        self.len += 1;
    }
}

fn time_vectors(source: &[u64]) {
    let list: Vec<bool> = (0..WORDS).map(|i| source[i / 64] >> (i % 64) & 1 == 1).collect();
    let count = WORDS * 64 - 7;
    let mut bits = Bits { words: Vec::new(), len: 0 };
    time("vec-push", WORDS, || {
        bits.truncate(0);
        for bit in black_box(&list) {
            bits.push(*bit);
        }
        black_box(&mut bits);
    });
    let mut bools: Vec<bool> = Vec::new();
    time("vec-push-bools", WORDS, || {
        bools.clear();
        for bit in black_box(&list) {
            bools.push(*bit);
        }
        black_box(&mut bools);
    });
    bits.truncate(3);
    time("vec-extend-shifted", WORDS, || {
        bits.truncate(3);
        bits.extend(black_box(source), 5, count);
    });
    time("vec-insert-front", WORDS, || {
        bits.insert_front(true);
        bits.truncate(bits.len - 1);
        black_box(&mut bits);
    });
}

fn main() {
    let source = words();
    let mut target = words();
    time_copies::<true>("lsb0", &source, &mut target);
    time_copies::<false>("msb0", &source, &mut target);
    time_other_copies(&source, &mut target);
    // (an operator's target begins half a page behind the place of a page at which the source does, as in the program)
    let mut room = vec![0; 256];
    room.extend(words());
    let apart = &mut room[256..];
    time_sets::<true>("lsb0", &source, apart);
    time_sets::<false>("msb0", &source, apart);
    time("xor-lsb0-msb0", WORDS, || xor_turned(black_box(&source), 64 + 3, black_box(&mut *apart), 64 + 14, COPIED));
    time_runs(&mut target);
    time_domains(&source, &mut target);
    time_reads::<true>("lsb0", &source);
    time_reads::<false>("msb0", &source);
    time_edits::<true>("lsb0", &mut target);
    time_edits::<false>("msb0", &mut target);
    time_places::<true>("lsb0");
    time_places::<false>("msb0");
    time_bytes::<true>("lsb0");
    time_bytes::<false>("msb0");
    time_streams(&source, &mut target);
    time_vectors(&source);
    time_maps();
}
