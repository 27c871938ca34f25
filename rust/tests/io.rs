//! Readers of inputs and writers of outputs against a list of bits: each number, refusal and place,
//! by an input that hands out few bytes at a time.

// (a byte of a random number)
#![allow(clippy::cast_possible_truncation)]

mod common;

use common::Random;
use std::io::{self, ErrorKind, Read};
use worghulen::{BitReader, BitView, IoReader, IoWriter, Lsb0, Msb0, Order, Refusal};

const CASES: usize = 300;

/// An input of few bytes a call, which is interrupted now and then.
struct Drops<'a> {
    bytes: &'a [u8],
    calls: usize,
}

impl Read for Drops<'_> {
    fn read(&mut self, room: &mut [u8]) -> io::Result<usize> {
        self.calls += 1;
        if self.calls % 5 == 3 {
            return Err(ErrorKind::Interrupted.into());
        }
        let len = room.len().min(1 + self.calls % 3);
        self.bytes.read(&mut room[..len])
    }
}

/// What is written and read: a number, of how many bits and by which order, or another thing.
#[derive(Clone, Debug, PartialEq)]
enum Item {
    Number(usize, u64, bool),
    Signed(usize, i64, bool),
    Natural(usize, u32),
    Bit(bool),
    Unary(bool, u64),
    Code(u64),
    SignedCode(i64),
    Bytes(Vec<u8>),
    Pad(u64),
}

fn item(random: &mut Random) -> Item {
    let width = random.below(65);
    let digits = if width == 0 {
        0
    } else {
        random.number() >> (64 - width)
    };
    let is_big = random.below(2) == 0;
    match random.below(9) {
        0 => Item::Number(width, digits, is_big),
        1 if width == 0 => Item::Signed(0, 0, is_big),
        1 => Item::Signed(
            width,
            (digits << (64 - width)).cast_signed() >> (64 - width),
            is_big,
        ),
        2 => Item::Natural(
            width.min(32),
            u32::try_from(digits & ((1 << width.min(32)) - 1)).unwrap(),
        ),
        3 => Item::Bit(is_big),
        4 => Item::Unary(is_big, random.below(200) as u64),
        5 => Item::Code(digits),
        6 => Item::SignedCode(digits.cast_signed()),
        7 => Item::Bytes(
            (0..random.below(40))
                .map(|_| (random.number() >> 56) as u8)
                .collect(),
        ),
        _ => Item::Pad([1, 8, 16, 64][random.below(4)]),
    }
}

fn write<O: Order>(item: &Item, writer: &mut IoWriter<Vec<u8>, O>) -> io::Result<()> {
    match item {
        Item::Number(width, number, true) => writer.write_be(*width, *number),
        Item::Number(width, number, false) => writer.write_le(*width, *number),
        Item::Signed(width, number, true) => writer.write_be(*width, *number),
        Item::Signed(width, number, false) => writer.write_le(*width, *number),
        Item::Natural(width, number) => writer.write(*width, *number),
        Item::Bit(bit) => writer.write_bit(*bit),
        Item::Unary(bit, count) => writer.write_unary(*bit, *count),
        Item::Code(number) => writer.write_exp_golomb(*number),
        Item::SignedCode(number) => writer.write_exp_golomb(*number),
        Item::Bytes(bytes) => writer.write_bytes(bytes),
        Item::Pad(of) => writer.pad_to_multiple_of(*of, false),
    }
}

/// Reads as much, by a reader of an input.
fn read<O: Order>(item: &Item, reader: &mut IoReader<Drops<'_>, O>) -> io::Result<Item> {
    Ok(match item {
        Item::Number(width, _, true) => Item::Number(*width, reader.read_be(*width)?, true),
        Item::Number(width, _, false) => Item::Number(*width, reader.read_le(*width)?, false),
        Item::Signed(width, _, true) => Item::Signed(*width, reader.read_be(*width)?, true),
        Item::Signed(width, _, false) => Item::Signed(*width, reader.read_le(*width)?, false),
        Item::Natural(width, _) => {
            let ahead = reader.peek::<u32>(*width)?;
            assert_eq!(reader.read::<u32>(*width)?, ahead);
            Item::Natural(*width, ahead)
        }
        Item::Bit(_) => Item::Bit(reader.read_bit()?),
        Item::Unary(bit, _) => Item::Unary(*bit, reader.read_unary(*bit)?),
        Item::Code(_) => Item::Code(reader.read_exp_golomb()?),
        Item::SignedCode(_) => Item::SignedCode(reader.read_exp_golomb()?),
        Item::Bytes(bytes) => {
            let mut room = vec![0; bytes.len()];
            reader.read_bytes(&mut room)?;
            Item::Bytes(room)
        }
        Item::Pad(of) => {
            reader.skip_to_multiple_of(*of)?;
            Item::Pad(*of)
        }
    })
}

/// Reads as much, by a reader of a slice, whose calls the library's are.
fn read_slice<O: Order>(item: &Item, reader: &mut BitReader<'_, u8, O>) -> Result<Item, Refusal> {
    Ok(match item {
        Item::Number(width, _, true) => Item::Number(*width, reader.read_be(*width)?, true),
        Item::Number(width, _, false) => Item::Number(*width, reader.read_le(*width)?, false),
        Item::Signed(width, _, true) => Item::Signed(*width, reader.read_be(*width)?, true),
        Item::Signed(width, _, false) => Item::Signed(*width, reader.read_le(*width)?, false),
        Item::Natural(width, _) => {
            let ahead = reader.peek::<u32>(*width)?;
            assert_eq!(reader.read::<u32>(*width)?, ahead);
            Item::Natural(*width, ahead)
        }
        Item::Bit(_) => Item::Bit(reader.read_bit()?),
        Item::Unary(bit, _) => Item::Unary(*bit, reader.read_unary(*bit)? as u64),
        Item::Code(_) => Item::Code(reader.read_exp_golomb()?),
        Item::SignedCode(_) => Item::SignedCode(reader.read_exp_golomb()?),
        Item::Bytes(bytes) => {
            let mut room = vec![0; bytes.len()];
            reader.read_bytes(&mut room)?;
            Item::Bytes(room)
        }
        Item::Pad(of) => {
            reader.skip_to_multiple_of(usize::try_from(*of).unwrap())?;
            Item::Pad(*of)
        }
    })
}

fn what_is_written_is_read<O: Order>(seed: u64) {
    let mut random = Random::new(seed);
    for _ in 0..CASES {
        let items: Vec<Item> = (0..random.below(30)).map(|_| item(&mut random)).collect();
        let mut writer = IoWriter::<_, O>::new(Vec::new());
        for item in &items {
            write(item, &mut writer).unwrap();
            if random.below(8) == 0 {
                writer.flush().unwrap();
            }
        }
        let written = writer.position();
        let bytes = writer.into_inner().unwrap();
        assert_eq!(bytes.len() as u64, written.div_ceil(8));

        let mut reader = IoReader::<_, O>::new(Drops {
            bytes: &bytes,
            calls: 0,
        });
        let mut of_slice = BitReader::new(bytes.view_bits::<O>());
        for item in &items {
            assert_eq!(read(item, &mut reader).unwrap(), *item);
            assert_eq!(read_slice(item, &mut of_slice).as_ref(), Ok(item));
            assert_eq!(reader.position(), of_slice.position() as u64);
        }
        assert_eq!(reader.position(), written);
        let left = of_slice.remaining();
        assert!(left < 8 && reader.read::<u64>(left).unwrap() == 0);
        assert_eq!(
            reader.read_bit().unwrap_err().kind(),
            ErrorKind::UnexpectedEof
        );
        assert!(reader.into_inner().bytes.is_empty());
    }
}

#[test]
fn what_is_written_is_read_msb0() {
    what_is_written_is_read::<Msb0>(1);
}

#[test]
fn what_is_written_is_read_lsb0() {
    what_is_written_is_read::<Lsb0>(2);
}

/// Each call of a reader of a slice is that of the reader of an input, also where it is refused.
fn readers_agree<O: Order>(seed: u64) {
    let mut random = Random::new(seed);
    for _ in 0..CASES {
        let bytes: Vec<u8> = (0..random.below(40))
            .map(|_| (random.number() >> 56) as u8)
            .collect();
        let mut reader = IoReader::<_, O>::new(Drops {
            bytes: &bytes,
            calls: 0,
        });
        let mut of_slice = BitReader::new(bytes.view_bits::<O>());
        loop {
            let item = item(&mut random);
            let there = read_slice(&item, &mut of_slice);
            match read(&item, &mut reader) {
                Ok(here) => assert_eq!(there, Ok(here)),
                Err(error) => {
                    let refusal = there.unwrap_err();
                    assert_eq!(error.kind(), io::Error::from(refusal).kind());
                    break;
                }
            }
            assert_eq!(reader.position(), of_slice.position() as u64);
        }
    }
}

#[test]
fn readers_agree_msb0() {
    readers_agree::<Msb0>(3);
}

#[test]
fn readers_agree_lsb0() {
    readers_agree::<Lsb0>(4);
}

#[test]
fn refusals() {
    let mut writer = IoWriter::<_, Msb0>::new(Vec::new());
    let kind = |result: io::Result<()>| result.unwrap_err().kind();
    assert_eq!(kind(writer.write(9, 1_u8)), ErrorKind::InvalidInput);
    assert_eq!(kind(writer.write(3, 8_u8)), ErrorKind::InvalidData);
    assert_eq!(kind(writer.write(3, 4_i8)), ErrorKind::InvalidData);
    assert_eq!(kind(writer.write(3, -5_i64)), ErrorKind::InvalidData);
    assert_eq!(kind(writer.write(0, 1_u64)), ErrorKind::InvalidData);
    assert_eq!(
        kind(writer.pad_to_multiple_of(0, true)),
        ErrorKind::InvalidInput
    );
    assert_eq!(writer.position(), 0);
    writer.write_exp_golomb(300_u16).unwrap();
    writer.write_exp_golomb(u64::MAX).unwrap();
    writer.write_exp_golomb(i64::MIN).unwrap();
    let bytes = writer.into_inner().unwrap();
    let mut reader = IoReader::<_, Msb0>::new(&bytes[..]);
    assert_eq!(
        reader.clone().read_exp_golomb::<u8>().unwrap_err().kind(),
        ErrorKind::InvalidData
    );
    assert_eq!(
        reader.read::<u8>(9).unwrap_err().kind(),
        ErrorKind::InvalidInput
    );
    assert_eq!(reader.read_exp_golomb::<u16>().unwrap(), 300);
    assert_eq!(reader.read_exp_golomb::<u64>().unwrap(), u64::MAX);
    assert_eq!(reader.read_exp_golomb::<i64>().unwrap(), i64::MIN);
}

#[test]
fn what_is_left_can_be_read() {
    let mut reader = IoReader::<_, Msb0>::new(&[0xab_u8, 0xcd][..]);
    assert_eq!(reader.read::<u8>(4).unwrap(), 0xa);
    assert_eq!(
        reader.read::<u32>(20).unwrap_err().kind(),
        ErrorKind::UnexpectedEof
    );
    assert_eq!(
        (reader.position(), reader.read::<u16>(12).unwrap()),
        (4, 0xbcd)
    );
}
