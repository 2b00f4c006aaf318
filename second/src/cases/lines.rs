//! Cases about lines, strikes and clocks.

use std::io::Write;

use crate::cases::case::{put, strike_payload, Written};
use crate::cases::contents::{broken, contents, field, numbers_around, with};
use crate::cases::random::Random;
use crate::rules::fields::{BODY, CR_LF, DENOMINATOR, FIELDS, LINE, STRIKE};
use crate::rules::trial::LONGEST;

/// What a unit of the strike is worth under each code.
const UNITS: [u64; 5] = [10_000, 1_000, 100, 10, 1];

// Lines.

/// Every field with each of its contents; the strike also under each code and its neighbours;
/// and every two fields broken at once, of which the first must be named.
pub fn lines(line: &[u8], out: &mut impl Write) -> Written {
    for field in &FIELDS {
        for content in contents(field) {
            put(out, b'r', &with(line, field.places(), &content))?;
        }
    }
    for code in b'@'..=b'F' {
        let line = with(line, field(DENOMINATOR).places(), &[code]);
        for content in contents(field(STRIKE)) {
            put(out, b'r', &with(&line, field(STRIKE).places(), &content))?;
        }
    }
    for first in &FIELDS {
        let line = with(line, first.places(), &broken(first));
        for second in &FIELDS[first.number..] {
            put(out, b'r', &with(&line, second.places(), &broken(second)))?;
        }
    }
    Ok(())
}

pub fn every_byte(line: &[u8], out: &mut impl Write) -> Written {
    for place in 0..LINE {
        for byte in 0..=255 {
            put(out, b'r', &with(line, place..place + 1, &[byte]))?;
        }
    }
    Ok(())
}

pub fn lengths(line: &[u8], out: &mut impl Write) -> Written {
    let body = &line[..BODY];
    let endless = body.repeat(LONGEST / BODY + 1);
    for length in 0..=142 {
        put(out, b'r', &[line, b"AA"].concat()[..length])?;
        for ends in [b"".as_slice(), b"\n", CR_LF] {
            put(out, b'r', &[&endless[..length], ends].concat())?;
        }
    }
    for ends in
        [b"\n".as_slice(), b"\r", b"\n\r", b"\n\n", b"\r\r", b"\r\n\r\n", b" \r\n", b"\r\n ", b"\0", b"\xC3\xA9"]
    {
        for piece in [ends, &[body, ends].concat(), &[line, ends].concat(), &[ends, line].concat()] {
            put(out, b'r', piece)?;
        }
        // The ends inside a piece of the right length.
        for place in [0, 8, 60, BODY - ends.len()] {
            put(out, b'r', &with(line, place..place + ends.len(), ends))?;
        }
    }
    put(out, b'r', &[line, line].concat())?;
    put(out, b'r', &endless[..LONGEST])?;
    put(out, b'r', &[&endless[..LONGEST - CR_LF.len()], CR_LF].concat())
}

// Strikes and clocks.

pub fn strikes_and_clocks(out: &mut impl Write) -> Written {
    let digits = [numbers_around(field(STRIKE)), vec![99_999, 100_000, 100_001]].concat();
    let seconds = [1, 60, 3_600, 36_000, 43_200, 86_399, 86_400, 100_000].map(|second: u64| second * 1_000);
    for code in 0..=255 {
        put(out, b's', &strike_payload(code, 123_456))?;
    }
    for code in b'@'..=b'F' {
        for number in &digits {
            put(out, b's', &strike_payload(code, *number))?;
        }
    }
    for unit in UNITS {
        for value in [0, 1, 9, 10, 99_999, 100_000, 100_001, 999_999, 1_000_000].map(|digits| digits * unit) {
            for near in [value, value + 1, value + 5, value + 10, value.saturating_sub(1), value.saturating_sub(unit)] {
                put(out, b'f', &near.to_le_bytes())?;
            }
        }
    }
    for number in seconds.into_iter().flat_map(|at| [at - 1, at, at + 1]).chain(numbers_around(field(1))).chain(digits)
    {
        put(out, b'f', &number.to_le_bytes())?;
        put(out, b'k', &number.to_le_bytes())?;
    }
    Ok(())
}

pub fn random_numbers(count: u64, random: &mut Random, out: &mut impl Write) -> Written {
    for _ in 0..count {
        let number = random.between(0, 1_100_000);
        put(out, b's', &strike_payload(*random.pick(b"ABCDE"), number))?;
        put(out, b's', &strike_payload(*random.pick(b"ABCDE"), random.any()))?;
        put(out, b'f', &(number * random.pick(&UNITS)).to_le_bytes())?;
        put(out, b'f', &random.any().to_le_bytes())?;
        put(out, b'k', &random.between(0, 90_000_000).to_le_bytes())?;
        put(out, b'k', &random.any().to_le_bytes())?;
    }
    Ok(())
}
