//! A map whose keys are strings of bits: the networks of addresses, of which the longest one that an
//! address begins with says where to.

use std::collections::{BTreeMap, HashMap};
use worghulen::prelude::*;

type Prefix = BitVec<u8, Msb0>;

/// The first bits of an address.
fn network(address: [u8; 4], bits: usize) -> Prefix {
    address
        .view_bits::<Msb0>()
        .part(..bits)
        .expect("an address has 32 bits")
        .to_bitvec()
}

fn route<'a>(routes: &HashMap<Prefix, &'a str>, address: [u8; 4]) -> Option<&'a str> {
    let mut prefix = network(address, 32);
    loop {
        if let Some(route) = routes.get(&prefix) {
            return Some(route);
        }
        prefix.pop()?;
    }
}

fn main() {
    let routes = HashMap::from([
        (network([10, 0, 0, 0], 8), "office"),
        (network([10, 1, 0, 0], 16), "lab"),
        (network([10, 1, 2, 128], 25), "bench"),
        (network([192, 168, 0, 0], 16), "home"),
    ]);
    assert_eq!(route(&routes, [10, 200, 3, 4]), Some("office"));
    assert_eq!(route(&routes, [10, 1, 2, 3]), Some("lab"));
    assert_eq!(route(&routes, [10, 1, 2, 130]), Some("bench"));
    assert_eq!(route(&routes, [11, 1, 2, 130]), None);

    // Keys of other words and another order are the same bits, and a prefix stands before what it
    // begins.
    let ten: BitVec<u32, Lsb0> = "00001010".parse().expect("these are digits");
    assert!(network([10, 0, 0, 0], 8) == ten);
    let ordered: BTreeMap<_, _> = routes.into_iter().collect();
    assert_eq!(
        ordered.values().copied().collect::<Vec<_>>(),
        ["office", "lab", "bench", "home"]
    );
    for (prefix, route) in ordered {
        println!("{prefix} {route}");
    }
}
