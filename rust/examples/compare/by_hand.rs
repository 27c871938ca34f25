//! The loops that a person would write in plain Rust, each as fast as it can be.
#![allow(clippy::inline_always)]

/// Bits of a word from `bit` on, `count` of them, as a mask: by rising or by falling positions.
fn mask<const RISING: bool>(bit: usize, count: usize) -> u64 {
    let ones = if count == 64 { !0 } else { !(!0 << count) };
    if RISING {
        ones << bit
    } else {
        ones << (64 - bit - count)
    }
}

/// Two neighbouring words as one, of which the first loses its first `shift` bits.
#[inline(always)]
fn merged<const RISING: bool>(first: u64, second: u64, shift: usize) -> u64 {
    match (shift, RISING) {
        (0, _) => first,
        (_, true) => first >> shift | second << (64 - shift),
        (_, false) => first << shift | second >> (64 - shift),
    }
}

/// The two shifts that join neighbouring words, of which the first loses its first bits.
fn shifts<const RISING: bool>(shift: usize) -> (usize, usize) {
    if RISING {
        (shift, 64 - shift)
    } else {
        (64 - shift, shift)
    }
}

/// Two neighbouring words as one, by these shifts; none is 0.
#[inline(always)]
fn joined<const RISING: bool>(first: u64, second: u64, down: usize, up: usize) -> u64 {
    if RISING {
        first >> down | second << up
    } else {
        second >> down | first << up
    }
}

/// The word that holds `count` bits from a place on, its first bit at `bit`.
#[inline(always)]
fn word_at<const RISING: bool>(source: &[u64], from: usize, bit: usize, count: usize) -> u64 {
    let (k, shift) = (from / 64, from % 64);
    let second = if shift + count > 64 { source[k + 1] } else { 0 };
    let word = merged::<RISING>(source[k], second, shift);
    if RISING { word << bit } else { word >> bit }
}

/// A plain loop over the target's words, each shifted, merged and masked.
#[inline(never)]
pub fn copy_plain<const RISING: bool>(
    source: &[u64],
    from: usize,
    target: &mut [u64],
    to: usize,
    count: usize,
) {
    let mut done = 0;
    while done < count {
        let bit = (to + done) % 64;
        let part = (64 - bit).min(count - done);
        let with = word_at::<RISING>(source, from + done, bit, part);
        let mask = mask::<RISING>(bit, part);
        let word = &mut target[(to + done) / 64];
        *word = *word & !mask | with & mask;
        done += part;
    }
}

/// Edges by themselves, and between them a loop over whole words that the compiler vectorises.
#[inline(never)]
pub fn copy_shifted<const RISING: bool>(
    source: &[u64],
    from: usize,
    target: &mut [u64],
    to: usize,
    count: usize,
) {
    let head = ((64 - to % 64) % 64).min(count);
    copy_plain::<RISING>(source, from, target, to, head);
    let (first, shift) = ((from + head) / 64, (from + head) % 64);
    let whole = (count - head) / 64;
    let start = (to + head) / 64;
    let words = &mut target[start..start + whole];
    let (one, next) = (&source[first..][..whole], &source[first + 1..][..whole]);
    let (down, up) = shifts::<RISING>(shift);
    for (word, (one, next)) in words.iter_mut().zip(one.iter().zip(next)) {
        *word = joined::<RISING>(*one, *next, down, up);
    }
    let done = head + whole * 64;
    copy_plain::<RISING>(source, from + done, target, to + done, count - done);
}

/// Bytes to a place, the first bit of a byte the highest.
#[inline(never)]
pub fn copy_bytes(source: &[u8], target: &mut [u8], place: usize) {
    let (target, down) = (&mut target[place / 8..], place % 8);
    if down == 0 {
        target[..source.len()].copy_from_slice(source);
        return;
    }
    let Some(last) = source.len().checked_sub(1) else {
        return;
    };
    let up = 8 - down;
    target[0] = target[0] & (!0 << up) | source[0] >> down;
    let whole = &mut target[1..=last];
    for (byte, (one, next)) in whole.iter_mut().zip(source.iter().zip(&source[1..])) {
        *byte = one << up | next >> down;
    }
    target[last + 1] = target[last + 1] & (!0 >> down) | source[last] << up;
}

/// A bit, and `None` past the end.
pub fn get(words: &[u64], place: usize) -> Option<bool> {
    Some(words.get(place / 64)? >> (place % 64) & 1 == 1)
}

/// Writes a bit, and answers `None` past the end.
pub fn set(words: &mut [u64], place: usize, bit: bool) -> Option<()> {
    let word = words.get_mut(place / 64)?;
    *word = *word & !(1 << (place % 64)) | u64::from(bit) << (place % 64);
    Some(())
}

/// A number of at most 64 bits.
pub fn load(words: &[u64], start: usize, count: usize) -> u64 {
    word_at::<true>(words, start, 0, count) & mask::<true>(0, count)
}

/// All bits but three at the start and four at the end, made the same.
#[inline(never)]
pub fn fill(words: &mut [u64], bit: bool) {
    let [first, body @ .., last] = words else {
        return;
    };
    let word = if bit { !0 } else { 0 };
    *first = *first & !(!0 << 3) | word & (!0 << 3);
    *last = *last & !(!0 >> 4) | word & (!0 >> 4);
    body.fill(word);
}

/// How many of those bits are one.
#[inline(never)]
pub fn count_ones(words: &[u64]) -> usize {
    let [first, body @ .., last] = words else {
        return 0;
    };
    let ends = (first & (!0 << 3)).count_ones() + (last & (!0 >> 4)).count_ones();
    let ones = body.iter().map(|word| word.count_ones() as usize);
    ones.sum::<usize>() + ends as usize
}

/// The place of the first of those bits that is one, from the first of them on.
#[inline(never)]
pub fn first_one(words: &[u64]) -> Option<usize> {
    let [first, body @ .., last] = words else {
        return None;
    };
    let place = |k: usize, word: u64| k * 64 + word.trailing_zeros() as usize - 3;
    let head = first & (!0 << 3);
    if head != 0 {
        return Some(place(0, head));
    }
    if let Some(k) = body.iter().position(|word| *word != 0) {
        return Some(place(k + 1, body[k]));
    }
    let tail = last & (!0 >> 4);
    (tail != 0).then(|| place(body.len() + 1, tail))
}

/// A list of bits that grows.
#[derive(Clone, Default)]
pub struct Bits {
    pub words: Vec<u64>,
    pub len: usize,
}

impl Bits {
    /// Drops every bit.
    pub fn clear(&mut self) {
        self.words.clear();
        self.len = 0;
    }

    /// Puts a bit behind the last. (What `pop` took may still stand there.)
    pub fn push(&mut self, bit: bool) {
        if self.len.is_multiple_of(64) {
            self.words.push(0);
        }
        let last = self.words.len() - 1;
        let (word, digit) = (&mut self.words[last], self.len % 64);
        *word = *word & !(1 << digit) | u64::from(bit) << digit;
        self.len += 1;
    }

    /// Takes the last bit out.
    pub fn pop(&mut self) -> Option<bool> {
        let last = self.len.checked_sub(1)?;
        let bit = self.words[last / 64] >> (last % 64) & 1 == 1;
        self.len = last;
        self.words.truncate(last.div_ceil(64));
        Some(bit)
    }

    /// Puts bits behind the last, where these end with a word.
    pub fn extend(&mut self, mut bits: impl Iterator<Item = bool>) {
        assert!(self.len.is_multiple_of(64));
        self.words.reserve(bits.size_hint().0.div_ceil(64));
        loop {
            let (mut word, mut count) = (0, 0);
            while count < 64 {
                let Some(bit) = bits.next() else {
                    break;
                };
                word |= u64::from(bit) << count;
                count += 1;
            }
            if count > 0 {
                self.words.push(word);
                self.len += count;
            }
            if count < 64 {
                return;
            }
        }
    }
}

/// Numbers of words that are read one behind the other, the first bit the lowest.
pub struct Reader<'a> {
    words: &'a [u64],
    window: u64,
    held: usize,
}

impl<'a> Reader<'a> {
    pub fn new(words: &'a [u64]) -> Self {
        Self {
            words,
            window: 0,
            held: 0,
        }
    }

    /// The next bits as a number, fewer than 64.
    #[inline]
    pub fn read(&mut self, count: usize) -> Option<u64> {
        let mut number = self.window;
        if count <= self.held {
            self.window >>= count;
            self.held -= count;
        } else {
            let (next, rest) = self.words.split_first()?;
            self.words = rest;
            number |= next << self.held;
            self.window = next >> (count - self.held);
            self.held += 64 - count;
        }
        Some(number & !(!0 << count))
    }
}

/// Numbers of bytes that are read one behind the other, the first bit the highest.
pub struct ByteReader<'a> {
    bytes: &'a [u8],
    window: u64,
    held: usize,
}

impl<'a> ByteReader<'a> {
    pub fn new(bytes: &'a [u8]) -> Self {
        Self {
            bytes,
            window: 0,
            held: 0,
        }
    }

    /// The next bits as a number, more than none and fewer than 64, of a number of bytes that is a
    /// multiple of 8.
    #[inline]
    pub fn read(&mut self, count: usize) -> Option<u64> {
        let mut window = self.window;
        if count <= self.held {
            self.window <<= count;
            self.held -= count;
        } else {
            let (next, rest) = self.bytes.split_first_chunk()?;
            self.bytes = rest;
            let next = u64::from_be_bytes(*next);
            window |= next >> self.held;
            self.window = next << (count - self.held);
            self.held += 64 - count;
        }
        Some(window >> (64 - count))
    }
}

/// Numbers that are written to words one behind the other, the first bit the lowest, 64 bits at once.
pub struct Writer<'a> {
    words: &'a mut [u64],
    /// The word that the window becomes.
    at: usize,
    window: u64,
    held: usize,
}

impl<'a> Writer<'a> {
    pub fn new(words: &'a mut [u64]) -> Self {
        Self {
            words,
            at: 0,
            window: 0,
            held: 0,
        }
    }

    /// Writes a number in the next bits, more than none and fewer than 64.
    #[inline]
    pub fn write(&mut self, count: usize, number: u64) -> Option<()> {
        if number >> count != 0 {
            return None;
        }
        let free = 64 - self.held;
        let window = self.window | number << self.held;
        if count < free {
            self.window = window;
            self.held += count;
            return Some(());
        }
        *self.words.get_mut(self.at)? = window;
        self.at += 1;
        self.held = count - free;
        self.window = if self.held == 0 { 0 } else { number >> free };
        Some(())
    }

    /// Writes the bits that are left; those behind stay.
    pub fn finish(self) {
        if self.held > 0 {
            let word = &mut self.words[self.at];
            *word = *word & (!0 << self.held) | self.window;
        }
    }
}

/// Numbers that are written to bytes one behind the other, the first bit the highest, 64 bits at once.
pub struct ByteWriter<'a> {
    bytes: &'a mut [u8],
    /// The byte that the window begins with.
    at: usize,
    window: u64,
    held: usize,
}

impl<'a> ByteWriter<'a> {
    pub fn new(bytes: &'a mut [u8]) -> Self {
        Self {
            bytes,
            at: 0,
            window: 0,
            held: 0,
        }
    }

    /// Writes a number in the next bits, more than none and fewer than 64.
    #[inline]
    pub fn write(&mut self, count: usize, number: u64) -> Option<()> {
        if number >> count != 0 {
            return None;
        }
        let free = 64 - self.held;
        if count < free {
            self.window |= number << (free - count);
            self.held += count;
            return Some(());
        }
        let over = count - free;
        let word = self.window | number >> over;
        *self.bytes.get_mut(self.at..)?.first_chunk_mut()? = word.to_be_bytes();
        self.at += 8;
        self.window = if over == 0 { 0 } else { number << (64 - over) };
        self.held = over;
        Some(())
    }

    /// Writes the bits that are left; behind the last stand zeros.
    pub fn finish(self) {
        let left = self.window.to_be_bytes();
        let count = self.held.div_ceil(8);
        self.bytes[self.at..][..count].copy_from_slice(&left[..count]);
    }
}

/// How many of the bits that are one have an even index.
#[inline(never)]
pub fn even_ones(words: &[u64]) -> usize {
    let mut count = 0;
    for (k, word) in words.iter().enumerate() {
        for digit in 0..64 {
            let bit = word >> digit & 1 == 1;
            count += usize::from(bit && (k * 64 + digit) % 2 == 0);
        }
    }
    count
}

/// The sum of the indices of the bits that are one.
#[inline(never)]
pub fn sum_of_ones(words: &[u64]) -> usize {
    let mut sum = 0;
    for (k, word) in words.iter().enumerate() {
        let mut left = *word;
        while left != 0 {
            sum += k * 64 + left.trailing_zeros() as usize;
            left &= left - 1;
        }
    }
    sum
}

/// Makes those bits one that are one in others.
#[inline(never)]
pub fn or(words: &mut [u64], others: &[u64]) {
    for (word, other) in words.iter_mut().zip(others) {
        *word |= other;
    }
}

/// Whether those bits of two memories are the same.
#[inline(never)]
pub fn equal(words: &[u64], others: &[u64]) -> bool {
    let ([first, body @ .., last], [a, middle @ .., b]) = (words, others) else {
        return false;
    };
    // (32 words at a time, which the compiler vectorises)
    let differ = |(words, others): (&[u64], &[u64])| {
        let pairs = words.iter().zip(others);
        pairs.fold(0, |all, (word, other)| all | (word ^ other)) != 0
    };
    (first ^ a) & (!0 << 3) == 0
        && (last ^ b) & (!0 >> 4) == 0
        && body.len() == middle.len()
        && !body.chunks(32).zip(middle.chunks(32)).any(differ)
}

/// The same by `==` of slices.
#[inline(never)]
pub fn equal_slices(words: &[u64], others: &[u64]) -> bool {
    let ([first, body @ .., last], [a, middle @ .., b]) = (words, others) else {
        return false;
    };
    (first ^ a) & (!0 << 3) == 0 && body == middle && (last ^ b) & (!0 >> 4) == 0
}
