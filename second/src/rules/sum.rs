//! The sum of a run of bytes, by which the trial shows a table (TRIAL, Tables).

/// The largest prime below 65,536.
const MODULUS: u64 = 65_521;

/// The bytes' Adler-32. Both parts are taken modulo at the end only: a u64 holds them for any run
/// of less than 300 million bytes.
pub fn sum(bytes: &[u8]) -> u64 {
    let (a, b) = bytes.iter().fold((1, 0), |(a, b), byte| {
        let a = a + u64::from(*byte);
        (a, b + a)
    });
    b % MODULUS * 65_536 + a % MODULUS
}
