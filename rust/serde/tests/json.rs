//! What is written in JSON is read again, also by words of another type and order.

use serde_json::{from_str, to_string};
use worghulen::prelude::*;

/// `len` bits, of which those are one that a multiplication picks.
fn bits<T: BitStore, O: BitOrder>(len: usize) -> BitVec<T, O> {
    (0..len)
        .map(|i| ((i * 2_654_435_761) >> 7) % 2 == 1)
        .collect()
}

fn goes_round<T: BitStore, O: BitOrder>(len: usize) {
    let own = bits::<T, O>(len);
    let text = to_string(&own).unwrap();
    assert_eq!(text, format!("\"{own}\""));
    assert_eq!(from_str::<BitVec<T, O>>(&text).unwrap(), own);
    assert_eq!(from_str::<BitVec<u16, Msb0>>(&text).unwrap(), own);
    assert_eq!(from_str::<BitBox<u32, Lsb0>>(&text).unwrap(), own);
    let part = own.get(len / 3..).unwrap();
    assert_eq!(
        from_str::<BitVec>(&to_string(&part).unwrap()).unwrap(),
        part
    );
}

#[test]
fn vectors_go_round() {
    for len in (0..70).chain([1000]) {
        goes_round::<u8, Lsb0>(len);
        goes_round::<u8, Msb0>(len);
        goes_round::<u64, Msb0>(len);
        goes_round::<usize, Lsb0>(len);
    }
}

#[test]
fn arrays_go_round() {
    let mut array = BitArray::<[u16; 3], Msb0>::new([0x1234, 0, 0xfff0]);
    let text = to_string(&array).unwrap();
    assert_eq!(from_str::<BitArray<[u16; 3], Msb0>>(&text).unwrap(), array);
    assert_eq!(from_str::<BitArray<[u8; 6], Lsb0>>(&text).unwrap(), array);
    let lent = to_string(&array.as_mut_bitslice()).unwrap();
    assert_eq!(lent, text);
    assert_eq!(
        from_str::<BitArray<[u8; 0], Lsb0>>("\"\"").unwrap().len(),
        0
    );
}

#[test]
fn what_is_no_text_of_bits_is_refused() {
    let said = |text: &str| from_str::<BitVec>(text).unwrap_err().to_string();
    assert!(said("\"01x\"").starts_with("character 2 is neither 0 nor 1"));
    assert!(
        said("[0, 1]").starts_with("invalid type: sequence, expected a text of zeros and ones")
    );
    let said = |text: &str| from_str::<BitArray<[u8; 1]>>(text).unwrap_err().to_string();
    assert!(said("\"0101010é\"").starts_with("character 7 is neither 0 nor 1"));
    assert!(said("\"0101\"").starts_with("invalid length 4, expected a text of 8 zeros and ones"));
    assert!(said("\"010101010\"").starts_with("invalid length 9, expected a text of 8 zeros"));
}
