//! A digest that stands for many numbers, as the test programs have it.

/// The largest prime below 2^32.
const PRIME: i128 = 4_294_967_291;

/// Begins with 1; with each number more it is digest · 1000003 + number modulo the prime.
pub fn digest(numbers: impl Iterator<Item = i128>) -> i128 {
    numbers.fold(1, |digest, number| (digest * 1_000_003 + number).rem_euclid(PRIME))
}
