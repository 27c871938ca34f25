//! The jobs of the bench as code of video and audio does them: the bytes of a stream, in which a number is read and
//! written wherever it begins by one word of 32 or 64 bits. No library: what such code has in common, in our words.

include!("common.rs");

/// The 32 bits from the byte of a place on, the first the highest.
#[inline(always)]
fn ahead(bytes: &[u8], place: usize) -> Option<u32> {
    let four = bytes.get(place / 8..place / 8 + 4)?;
    Some(u32::from_be_bytes(four.try_into().unwrap()) << (place % 8))
}

/// The sum of numbers of 13 bits, the first bit the highest, one behind the other: a word is read for each.
#[inline(never)]
fn get_bits(bytes: &[u8], count: usize) -> Option<u64> {
    let (mut sum, mut place) = (0u64, 0);
    for _ in 0..count {
        sum = sum.wrapping_add(u64::from(ahead(bytes, place)? >> 19));
        place += 13;
    }
    Some(sum)
}

/// The same of numbers whose widths a list says.
#[inline(never)]
fn get_mixed(bytes: &[u8], widths: &[usize]) -> Option<u64> {
    let (mut sum, mut place) = (0u64, 0);
    for width in widths {
        sum = sum.wrapping_add(u64::from(ahead(bytes, place)? >> (32 - width)));
        place += width;
    }
    Some(sum)
}

/// Numbers of 13 bits are gathered in a word of 64 and stored with the highest byte first, each time that it is full. A
/// number that has more bits is not looked for.
#[inline(never)]
fn put_bits(bytes: &mut [u8], count: usize) -> Option<()> {
    let (mut gathered, mut free, mut next) = (0u64, 64u32, 0);
    for n in 0..count {
        let value = (n % 8192) as u64;
        if 13 < free {
            gathered = gathered << 13 | value;
            free -= 13;
        } else {
            let rest = 13 - free;
            let word = gathered << free | value >> rest;
            bytes.get_mut(next..next + 8)?.copy_from_slice(&word.to_be_bytes());
            next += 8;
            (gathered, free) = (value, 64 - rest);
        }
    }
    if free < 64 {
        let last = gathered << free;
        bytes.get_mut(next..next + 8)?.copy_from_slice(&last.to_be_bytes());
    }
    Some(())
}

/// The sum of fields of 13 bits at some places, the first bit the lowest: each by one load, whatever its place.
#[inline(never)]
fn load_unaligned(bytes: &[u8], places: &[usize]) -> Option<u64> {
    let mut sum = 0u64;
    for place in places {
        let four = bytes.get(place / 8..place / 8 + 4)?;
        let field = u32::from_le_bytes(four.try_into().unwrap()) >> (place % 8) & 0x1FFF;
        sum = sum.wrapping_add(u64::from(field));
    }
    Some(sum)
}

/// The same with the first bit the highest.
#[inline(never)]
fn load_swapped(bytes: &[u8], places: &[usize]) -> Option<u64> {
    let mut sum = 0u64;
    for place in places {
        sum = sum.wrapping_add(u64::from(ahead(bytes, *place)? >> 19));
    }
    Some(sum)
}

/// Fields of 13 bits are stored at some places, the first bit the lowest: each by one load and one store.
#[inline(never)]
fn store_unaligned(bytes: &mut [u8], places: &[usize]) -> Option<()> {
    for place in places {
        let four = bytes.get_mut(place / 8..place / 8 + 4)?;
        let up = place % 8;
        let word = u32::from_le_bytes((&*four).try_into().unwrap()) & !(0x1FFF << up) | (*place as u32 & 0x1FFF) << up;
        four.copy_from_slice(&word.to_le_bytes());
    }
    Some(())
}

/// The number of some bits from a place on, bit by bit: where they rise the first is the lowest digit.
fn plain(words: &[u64], place: usize, width: usize, rises: bool) -> u64 {
    (0..width).fold(0, |number, j| {
        let (at, up) = if rises { ((place + j) % 64, j) } else { (63 - (place + j) % 64, width - 1 - j) };
        number | (words[(place + j) / 64] >> at & 1) << up
    })
}

/// Ends where these do other jobs than the bench's.
fn compare(words: &[u64], stream: &[u8], rising: &[u8], falling: &[u8], fields: &[usize]) {
    let sum = |rises: bool| fields.iter().fold(0u64, |sum, place| sum.wrapping_add(plain(words, *place, 13, rises)));
    assert_eq!(get_bits(stream, WORDS), Some(sum(false)));
    assert_eq!(load_swapped(falling, fields), Some(sum(false)));
    assert_eq!(load_unaligned(rising, fields), Some(sum(true)));
    let mut made = stream.to_vec();
    assert!(put_bits(&mut made, WORDS).is_some());
    let made: Vec<u64> = made.chunks(8).map(|eight| u64::from_be_bytes(eight.try_into().unwrap())).collect();
    assert!((0..WORDS).all(|n| plain(&made, n * 13, 13, false) == n as u64 % 8192));
}

fn main() {
    const WIDTHS: [usize; 24] = [7, 13, 1, 24, 5, 18, 11, 2, 22, 9, 16, 3, 20, 8, 14, 6, 23, 10, 4, 19, 12, 17, 21, 15];
    let words = draws(2 * WORDS);
    let stream: Vec<u8> = words[..WORDS].iter().flat_map(|word| word.to_be_bytes()).collect();
    let widths: Vec<usize> = (0..WORDS).map(|k| WIDTHS[k % 24]).collect();
    time("stream-read-13-msb0", "get_bits", WORDS, || {
        assert!(black_box(get_bits(black_box(&stream), black_box(WORDS))).is_some());
    });
    time("stream-read-mixed-msb0", "get_bits", WORDS, || {
        assert!(black_box(get_mixed(black_box(&stream), black_box(&widths))).is_some());
    });
    let mut made = stream.clone();
    time("stream-write-13-msb0", "put_bits", WORDS, || {
        assert!(black_box(put_bits(black_box(&mut made), black_box(WORDS))).is_some());
    });
    let rising: Vec<u8> = words.iter().flat_map(|word| word.to_le_bytes()).collect();
    let falling: Vec<u8> = words.iter().flat_map(|word| word.to_be_bytes()).collect();
    let fields: Vec<usize> = (0..WORDS).map(|n| n * 13).collect();
    compare(&words, &stream, &rising, &falling, &fields);
    for name in ["load-13-lsb0", "load-13-u8-lsb0"] {
        time(name, "unaligned", WORDS, || {
            assert!(black_box(load_unaligned(black_box(&rising), black_box(&fields))).is_some());
        });
    }
    for name in ["load-13-msb0", "load-13-u8-msb0"] {
        time(name, "unaligned", WORDS, || {
            assert!(black_box(load_swapped(black_box(&falling), black_box(&fields))).is_some());
        });
    }
    let mut stored = rising.clone();
    time("store-13-lsb0", "unaligned", WORDS, || {
        assert!(black_box(store_unaligned(black_box(&mut stored), black_box(&fields))).is_some());
    });
}
