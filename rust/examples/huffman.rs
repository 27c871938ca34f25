//! Huffman codes of a text: made, written, and read by a table of what the next bits begin with.

use std::cmp::Reverse;
use std::collections::{BTreeMap, BinaryHeap};
use worghulen::prelude::*;

type Code = BitVec<u8, Msb0>;

/// How often each letter stands in a text.
fn counts(text: &str) -> BTreeMap<char, usize> {
    let mut counts = BTreeMap::new();
    for letter in text.chars() {
        *counts.entry(letter).or_default() += 1;
    }
    counts
}

/// A code for each letter: none begins with another, and those of frequent letters are short.
fn codes(counts: &BTreeMap<char, usize>) -> BTreeMap<char, Code> {
    // (the letters of a tree, of which the rarest two are joined)
    let mut trees: BinaryHeap<_> = counts
        .iter()
        .map(|(letter, count)| Reverse((*count, vec![*letter])))
        .collect();
    let mut codes: BTreeMap<char, Code> = counts.keys().map(|it| (*it, Code::new())).collect();
    while let Some(Reverse((count, mut low))) = trees.pop() {
        let Some(Reverse((more, high))) = trees.pop() else {
            break;
        };
        for (bit, letters) in [(false, &low), (true, &high)] {
            for letter in letters {
                codes.entry(*letter).or_default().insert(0, bit);
            }
        }
        low.extend(high);
        trees.push(Reverse((count + more, low)));
    }
    codes
}

/// For each number of `width` bits the letter whose code they begin with, and how long that is.
fn table(codes: &BTreeMap<char, Code>, width: usize) -> Vec<(char, usize)> {
    let mut table = vec![('?', 0); 1 << width];
    for (letter, code) in codes {
        let (first, rest) = (code.load_be::<usize>(), width - code.len());
        table[first << rest..(first + 1) << rest].fill((*letter, code.len()));
    }
    table
}

fn main() -> Result<(), Refusal> {
    let text = "a man a plan a canal panama, and no more than that";
    let counts = counts(text);
    let codes = codes(&counts);
    let mut written = Code::new();
    for letter in text.chars() {
        written.extend_from_bitslice(&codes[&letter]);
    }
    let bits = counts
        .iter()
        .map(|(letter, count)| count * codes[letter].len())
        .sum::<usize>();
    assert_eq!(written.len(), bits);
    assert!(written.len() < 4 * text.len());
    for (letter, code) in &codes {
        let mut others = codes.iter().filter(|(other, _)| *other != letter);
        assert!(others.all(|(_, other)| !other.starts_with(&code.as_bitslice())));
    }

    // (zeros behind the last, so that as many as the longest code has are always there)
    let width = codes.values().map(BitVec::len).max().unwrap_or(0);
    let table = table(&codes, width);
    let len = written.len();
    written.resize(len + width, false);
    let mut reader = BitReader::new(written.as_bitslice());
    let mut read = String::new();
    while reader.position() < len {
        let (letter, bits) = table[reader.peek::<usize>(width)?];
        read.push(letter);
        reader.skip(bits)?;
    }
    assert_eq!((read.as_str(), reader.remaining()), (text, width));
    println!("{} letters, {len} bits: {}", text.len(), codes[&'a']);
    Ok(())
}
