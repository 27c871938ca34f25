//! The sieve of Eratosthenes: a bit for each number.

use worghulen::prelude::*;

/// The primes below a number, as the indices of ones.
fn primes(below: usize) -> BitVec {
    let mut is_prime = bitvec![1; below];
    is_prime
        .as_mut_bitslice()
        .get_mut(..below.min(2))
        .expect("it is as long")
        .fill(false);
    let mut next = is_prime.first_one();
    while let Some(prime) = next.filter(|prime| prime * prime < below) {
        for multiple in (prime * prime..below).step_by(prime) {
            is_prime.set(multiple, false);
        }
        next = is_prime.next_one(prime + 1);
    }
    is_prime
}

fn main() {
    let primes = primes(100_000);
    assert_eq!(primes.count_ones(), 9592);
    assert_eq!(
        primes.iter_ones().take(8).collect::<Vec<_>>(),
        [2, 3, 5, 7, 11, 13, 17, 19]
    );
    assert_eq!(primes.last_one(), Some(99_991));
    assert_eq!(primes.previous_one(1000), Some(997));

    // Twins: ones that are two apart.
    let mut twins = primes.clone();
    twins.shift_left(2);
    twins &= &primes;
    assert_eq!(twins.count_ones(), 1224);
    println!(
        "{} primes, {} twins",
        primes.count_ones(),
        twins.count_ones()
    );
}
