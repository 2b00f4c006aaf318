//! The 24 fields of a line: where they stand, which types carry them and their rules (01, The line).

use std::ops::Range;

use crate::rules::clock;

/// The bytes of the 24 fields, and the line with its CR LF.
pub const BODY: usize = 138;
pub const LINE: usize = 140;
pub const CR_LF: &[u8] = b"\r\n";
pub const LF: u8 = b'\n';

/// The numbers of the fields that this program names.
pub const TIMESTAMP: usize = 1;
pub const TYPE: usize = 2;
pub const FIRM: usize = 3;
pub const LIQUIDITY: usize = 6;
pub const SOURCE: usize = 10;
pub const TOKEN: usize = 11;
pub const REPLACED_TOKEN: usize = 12;
pub const REFERENCE: usize = 13;
pub const SIDE: usize = 14;
pub const CONTRACTS: usize = 15;
pub const ROOT: usize = 16;
pub const MONTH: usize = 17;
pub const DATE: usize = 18;
pub const YEAR: usize = 19;
pub const DENOMINATOR: usize = 20;
pub const STRIKE: usize = 21;
pub const PRICE: usize = 22;
pub const MATCH_ID: usize = 23;
pub const CROSS_ID: usize = 24;

/// The six event types.
pub const LETTERS: &[u8] = b"AEXCUR";
pub const TYPE_AT: usize = 8;
pub const DENOMINATOR_AT: usize = 103;

/// What the contents of a field must be where its type carries it.
#[derive(Clone, Copy)]
pub enum Rule {
    /// Fewest digits, spaces on the left, from least to most.
    Number(u64, u64),
    /// As many digits as the field has bytes, from least to most.
    Digits(u64, u64),
    DigitsOrBlank,
    Hex,
    Code(&'static [u8]),
    Text,
    TextOrBlank,
    Strike,
    Price,
}

/// The types whose lines carry a field; on the others it is blank.
#[derive(Clone, Copy)]
pub enum On {
    Every,
    Trade,
    Replace,
}

impl On {
    pub fn carries(self, letter: u8) -> bool {
        match self {
            On::Every => true,
            On::Trade => letter == b'E' || letter == b'C',
            On::Replace => letter == b'U',
        }
    }
}

pub struct Field {
    pub number: usize,
    pub at: usize,
    pub len: usize,
    pub on: On,
    pub rule: Rule,
}

const fn field(number: usize, at: usize, len: usize, on: On, rule: Rule) -> Field {
    Field { number, at, len, on, rule }
}

pub static FIELDS: [Field; 24] = [
    field(1, 0, 8, On::Every, Rule::Number(0, clock::LAST)), // Timestamp
    field(2, TYPE_AT, 1, On::Every, Rule::Code(LETTERS)),    // Type
    field(3, 9, 4, On::Every, Rule::Text),                   // Firm
    field(4, 13, 1, On::Every, Rule::Code(b"CFMPBOJN")),     // Capacity
    field(5, 14, 1, On::Every, Rule::Code(b"OC")),           // Open/Close
    field(6, 15, 1, On::Trade, Rule::Code(b"AROarJ")),       // Liquidity
    field(7, 16, 4, On::Every, Rule::TextOrBlank),           // Clearing Account
    field(8, 20, 5, On::Every, Rule::DigitsOrBlank),         // Clearing Member
    field(9, 25, 5, On::Every, Rule::DigitsOrBlank),         // Clearing Firm
    field(10, 30, 6, On::Every, Rule::Text),                 // Source
    field(11, 36, 20, On::Every, Rule::Text),                // Token
    field(12, 56, 20, On::Replace, Rule::Text),              // Replaced Token
    field(13, 76, 9, On::Every, Rule::Hex),                  // Reference
    field(14, 85, 1, On::Every, Rule::Code(b"BS")),          // Side
    field(15, 86, 6, On::Every, Rule::Number(1, 999_999)),   // Contracts
    field(16, 92, 6, On::Every, Rule::Text),                 // Root
    field(17, 98, 1, On::Every, Rule::Code(b"ABCDEFGHIJKLMNOPQRSTUVWX")), // Month
    field(18, 99, 2, On::Every, Rule::Digits(1, 31)),        // Date
    field(19, 101, 2, On::Every, Rule::Digits(0, 99)),       // Year
    field(20, DENOMINATOR_AT, 1, On::Every, Rule::Code(b"ABCDE")), // Denominator
    field(21, 104, 6, On::Every, Rule::Strike),              // Strike
    field(22, 110, 10, On::Every, Rule::Price),              // Price
    field(23, 120, 9, On::Trade, Rule::Number(0, 999_999_999)), // Match Id
    field(24, 129, 9, On::Trade, Rule::Number(0, 999_999_999)), // Cross Id
];

/// The places of neighbouring fields, from the first to the last.
pub fn places(first: usize, last: usize) -> Range<usize> {
    FIELDS[first - 1].at..FIELDS[last - 1].places().end
}

impl Field {
    pub fn places(&self) -> Range<usize> {
        self.at..self.at + self.len
    }

    pub fn holds_number(&self) -> bool {
        matches!(self.rule, Rule::Number(..) | Rule::Digits(..) | Rule::Strike | Rule::Price)
    }
}
