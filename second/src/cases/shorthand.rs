//! Lines made by hand: a line of the papers with other contents, and the papers' shorthand for a capture.

use crate::cases::contents;
use crate::rules::fields::{CR_LF, FIELDS};
use crate::rules::key::Key;

/// A line of 001's own samples where they fit their fields, and of 01's vectors elsewhere.
#[rustfmt::skip]
pub const EXECUTED: &str = concat!(
    "34293104", "E", "175C", "F", "O", "A", "BSI ", "00009", "00003", "ABCD01",
    "T1                  ", "                    ", "000836AFF", "B", "    30",
    "MSFT  ", "G", "27", "09", "C", "205750", "  12875000", "   122853", "   122001", "\r\n"
);
const NO_ID: &str = "         ";
/// A Replaced Token that is missing.
pub const NO_TOKEN: &str = "                    ";
/// 01, The sheet, Whole case.
pub const WHOLE_CASE: &str =
    "A T1 100; E T1 30; U T2 for T1, 60; A T9 5; X T2 10; C T1 30; U T1 for T2, 50; end of day";
/// Side, then the fields of the series, each with another lawful content.
pub const OTHERS: [(usize, &str); 7] =
    [(14, "S"), (16, "MSFT1 "), (17, "S"), (18, "28"), (19, "10"), (20, "D"), (21, "205751")];

/// A line with other contents in some of its fields, by number.
pub fn with(line: &[u8], changes: &[(usize, &str)]) -> Vec<u8> {
    changes.iter().fold(line.to_vec(), |line, (number, content)| {
        contents::with(&line, FIELDS[number - 1].places(), content.as_bytes())
    })
}

/// The line of the samples with other contents in some of its fields.
pub fn executed(changes: &[(usize, &str)]) -> Vec<u8> {
    with(EXECUTED.as_bytes(), changes)
}

/// A line of a type that carries no liquidity and no ids.
pub fn untraded(letter: &str, changes: &[(usize, &str)]) -> Vec<u8> {
    let line = executed(&[(2, letter), (6, " "), (23, NO_ID), (24, NO_ID)]);
    with(&line, changes)
}

/// The pieces of the papers' shorthand: `A T1 100; U T2 for T1, 60; end of day`. A token of Q and some of the characters
/// 0 to 9 and A to F is the SQF id that ends in these and has 0 before them: `E QA1 5`.
pub fn capture(words: &str) -> Vec<u8> {
    words.split("; ").flat_map(piece).collect()
}

/// One piece of it.
pub fn piece(words: &str) -> Vec<u8> {
    let words: Vec<_> = words.split([' ', ',']).filter(|word| !word.is_empty()).collect();
    match words[..] {
        ["end", "of", "day"] => CR_LF.to_vec(),
        [letter, token, "for", elder, contracts] => line(letter, token, elder, contracts),
        [letter, token, contracts] => line(letter, token, "", contracts),
        _ => panic!("no piece: {words:?}"),
    }
}

/// A line of Source ABCD01, of one series and side.
fn line(letter: &str, token: &str, elder: &str, contracts: &str) -> Vec<u8> {
    let (token, elder, contracts) = (padded(token), padded(elder), format!("{contracts:>6}"));
    let changes = [(2, letter), (11, &token), (12, &elder), (15, &contracts)];
    if matches!(letter, "E" | "C") {
        executed(&changes)
    } else {
        untraded(letter, &changes)
    }
}

/// A token of the shorthand in its twenty bytes.
pub fn padded(token: &str) -> String {
    let token = token.strip_prefix('Q').map_or_else(|| token.to_string(), |id| format!("{id:0>16}"));
    format!("{token:<20}")
}

/// A piece of the shorthand with another content in some fields.
pub fn other(words: &str, changes: &[(usize, &str)]) -> Vec<u8> {
    with(&piece(words), changes)
}

/// The key of a token under the same Source.
pub fn key(token: &str) -> Key {
    let mut key = [b' '; 26];
    key[..6].copy_from_slice(b"ABCD01");
    key[6..].copy_from_slice(padded(token).as_bytes());
    key
}
