//! The strike: a denominator code and six digits, or one value (01, Strike).

use crate::rules::fields::{DENOMINATOR, STRIKE};
use crate::rules::refusal::Refusal;

/// Each code with what one unit of its digits is worth, in hundred-thousandths of a dollar.
const UNITS: [(u8, u64); 5] = [(b'A', 10_000), (b'B', 1_000), (b'C', 100), (b'D', 10), (b'E', 1)];

/// The least number whose first of six digits is not 0.
const FULL: u64 = 100_000;
const MOST: u64 = 999_999;

fn lawful(code: u8, digits: u64) -> bool {
    // Only E reaches down below its full six digits, so that each value has one form.
    let least = if code == b'E' { 1 } else { FULL };
    (least..=MOST).contains(&digits)
}

/// The value of six digits under a code, in hundred-thousandths of a dollar.
pub fn value(code: u8, digits: u64) -> Result<u64, Refusal> {
    let Some((_, unit)) = UNITS.iter().find(|(known, _)| *known == code) else {
        return Err(Refusal::Field(DENOMINATOR));
    };
    if !lawful(code, digits) {
        return Err(Refusal::Field(STRIKE));
    }
    Ok(digits * unit)
}

/// The one code and digits that have this value.
pub fn form(value: u64) -> Result<(u8, u64), Refusal> {
    UNITS
        .iter()
        .find(|(code, unit)| value % unit == 0 && lawful(*code, value / unit))
        .map(|(code, unit)| (*code, value / unit))
        .ok_or(Refusal::Field(STRIKE))
}
