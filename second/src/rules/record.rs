//! A record: the 24 fields of one event, kept as its 138 bytes (LAYOUT, A record).

use crate::rules::bytes::decimal;
use crate::rules::fields::{Field, BODY, CROSS_ID, FIELDS, LETTERS, LIQUIDITY, MATCH_ID, TYPE};
use crate::rules::refusal::Refusal;

/// As many bytes as a line has fields' bytes: each field stands where it stands there.
pub const STORED: usize = BODY;
/// The bytes of a number. A wider field's last bytes mean nothing, and must be 0.
pub const NUMBER: usize = 8;

/// Holds the fields as they were given. Whether they are lawful shows when it is written.
#[derive(Clone)]
pub struct Record([u8; STORED]);

impl Record {
    /// The record that the bytes say. Bytes of another length are none, and are refused by the last field.
    pub fn load(bytes: &[u8]) -> Result<Record, Refusal> {
        bytes.try_into().map(Record).map_err(|_| Refusal::Field(CROSS_ID))
    }

    /// Whether every byte of a field has a meaning, lawful or not, all earlier ones having theirs.
    pub fn has_meaning(&self, field: &Field) -> bool {
        let bytes = self.bytes(field.number);
        let zero = |bytes: &[u8]| bytes.iter().all(|byte| *byte == 0);
        match field.number {
            TYPE => LETTERS.contains(&self.letter()),
            LIQUIDITY if !field.on.carries(self.letter()) => bytes == b" ",
            MATCH_ID | CROSS_ID if !field.on.carries(self.letter()) => zero(bytes),
            _ if field.holds_number() && field.len > NUMBER => zero(&bytes[NUMBER..]),
            _ => true,
        }
    }

    /// The record of a line that keeps every rule. A missing number is kept as 0.
    pub fn of_line(line: &[u8]) -> Record {
        let mut record = Record::unknown();
        for field in &FIELDS {
            let shown = &line[field.places()];
            if field.holds_number() {
                // Right for a price too: without the spaces its bytes are the ten-thousandths.
                record.set_number(field.number, decimal(shown));
            } else {
                record.set(field.number, shown);
            }
        }
        record
    }

    /// A record of which nothing is known yet: every byte is 0.
    pub fn unknown() -> Record {
        Record([0; STORED])
    }

    /// Gives a field its bytes, or its number in as many bytes as are given, little end first.
    pub fn set(&mut self, field: usize, content: &[u8]) {
        let (known, rest) = self.0[FIELDS[field - 1].places()].split_at_mut(content.len());
        known.copy_from_slice(content);
        rest.fill(0);
    }

    /// Gives a field its number, which must not be wider than the field.
    pub fn set_number(&mut self, field: usize, number: u64) {
        let width = FIELDS[field - 1].len.min(NUMBER);
        self.set(field, &number.to_le_bytes()[..width]);
    }

    pub fn stored(&self) -> &[u8; STORED] {
        &self.0
    }

    pub fn letter(&self) -> u8 {
        self.bytes(TYPE)[0]
    }

    pub fn bytes(&self, field: usize) -> &[u8] {
        &self.0[FIELDS[field - 1].places()]
    }

    pub fn number(&self, field: usize) -> u64 {
        let little_end_first = self.bytes(field).iter().take(NUMBER).rev();
        little_end_first.fold(0, |number, byte| number << 8 | u64::from(*byte))
    }
}
