//! A line: its fields held against their rules, reading a piece and writing a record (01, The line).

use crate::rules::bytes::{blank, decimal, digits, hex, justify, number, printable};
use crate::rules::fields::{places, Field, Rule, BODY, CR_LF, DENOMINATOR_AT, FIELDS, LINE, TYPE_AT};
use crate::rules::record::{Record, STORED};
use crate::rules::refusal::Refusal;
use crate::rules::strike;

/// The bytes of a price before its implied decimal point.
const WHOLE: usize = 6;
/// Ten-thousandths in a dollar.
const DOLLAR: u64 = 10_000;
/// The largest price: six digits before the point, and four behind it.
pub const MOST_PRICE: u64 = 9_999_999_999;

impl Field {
    /// What stands on the left of a number with fewer digits than places.
    fn fill(&self) -> u8 {
        match self.rule {
            Rule::Digits(..) | Rule::Strike => b'0',
            _ => b' ',
        }
    }

    /// Whether the field keeps its rule on this line, its bytes being printable and all earlier
    /// fields keeping theirs.
    #[inline(always)]
    fn lawful(&self, line: &[u8]) -> bool {
        let bytes = &line[self.places()];
        if !self.on.carries(line[TYPE_AT]) {
            return blank(bytes);
        }
        match self.rule {
            Rule::Number(least, most) => number(bytes).is_some_and(|n| (least..=most).contains(&n)),
            Rule::Digits(least, most) => digits(bytes) && (least..=most).contains(&decimal(bytes)),
            Rule::DigitsOrBlank => digits(bytes) || blank(bytes),
            Rule::Hex => hex(bytes),
            Rule::Code(list) => list.contains(&bytes[0]),
            Rule::Text => bytes[0] != b' ',
            Rule::TextOrBlank => bytes[0] != b' ' || blank(bytes),
            Rule::Strike => digits(bytes) && strike::value(line[DENOMINATOR_AT], decimal(bytes)).is_ok(),
            // An empty whole part is not zero dollars: six spaces are no number.
            Rule::Price => number(&bytes[..WHOLE]).is_some() && digits(&bytes[WHOLE..]),
        }
    }

    /// Puts the record's field into its place on the line. False if a number does not fit there.
    fn lay(&self, record: &Record, place: &mut [u8]) -> bool {
        if let Rule::Price = self.rule {
            let price = record.number(self.number);
            let (whole, rest) = place.split_at_mut(WHOLE);
            return justify(price / DOLLAR, b' ', whole) && justify(price % DOLLAR, b'0', rest);
        }
        self.show(record, place)
    }

    /// Lays the record's field out on a line and holds it against its rule, the fields that it goes
    /// by being laid out before. False if it breaks its rule.
    pub fn lay_lawful(&self, record: &Record, line: &mut [u8]) -> bool {
        self.lay(record, &mut line[self.places()]) && self.keeps(line)
    }

    /// Whether the field keeps its rule on a line, all earlier ones that it goes by keeping theirs.
    pub fn keeps(&self, line: &[u8]) -> bool {
        printable(&line[self.places()]) && self.lawful(line)
    }

    /// Fills a place as wide as the field with the record's value, a price in ten-thousandths.
    pub fn show(&self, record: &Record, place: &mut [u8]) -> bool {
        if !self.holds_number() {
            place.copy_from_slice(record.bytes(self.number));
        } else if self.on.carries(record.letter()) {
            return justify(record.number(self.number), self.fill(), place);
        } else {
            place.fill(b' ');
        }
        true
    }
}

/// A line that keeps every rule, its CR LF cut off.
#[derive(Clone, Copy)]
pub struct Line<'a>(&'a [u8; BODY]);

impl<'a> Line<'a> {
    pub fn letter(self) -> u8 {
        self.0[TYPE_AT]
    }

    pub fn field(self, number: usize) -> &'a [u8] {
        &self.0[FIELDS[number - 1].places()]
    }

    /// The bytes of neighbouring fields, from the first to the last.
    pub fn fields(self, first: usize, last: usize) -> &'a [u8] {
        &self.0[places(first, last)]
    }

    /// What a field that holds a number says, a price in ten-thousandths.
    pub fn number(self, field: usize) -> u64 {
        decimal(self.field(field))
    }
}

pub enum Lawful<'a> {
    EndOfDay,
    Line(Line<'a>),
}

/// Holds a piece against the rules in the order 1, 2, 3 (01, Order of checks).
pub fn check(piece: &[u8]) -> Result<Lawful<'_>, Refusal> {
    if piece == CR_LF {
        return Ok(Lawful::EndOfDay);
    }
    let Some((body, CR_LF)) = piece.split_first_chunk::<BODY>() else { return Err(Refusal::Piece) };
    if !printable(body) {
        return Err(Refusal::Byte);
    }
    match first_broken(body) {
        Some(field) => Err(Refusal::Field(field)),
        None => Ok(Lawful::Line(Line(body))),
    }
}

/// The number of the first field that breaks its rule. The fields are tried without a loop, so that
/// the compiler knows the place and the rule of each: most of a line's time goes by here.
fn first_broken(line: &[u8; BODY]) -> Option<usize> {
    macro_rules! try_each {
        ($($number:literal)*) => {
            $(if !FIELDS[$number - 1].lawful(line) {
                return Some($number);
            })*
        };
    }
    try_each!(1 2 3 4 5 6 7 8 9 10 11 12 13 14 15 16 17 18 19 20 21 22 23 24);
    None
}

pub enum Reading {
    EndOfDay,
    Record(Record),
}

/// Reads a piece into its record.
pub fn read(piece: &[u8]) -> Result<Reading, Refusal> {
    Ok(match check(piece)? {
        Lawful::EndOfDay => Reading::EndOfDay,
        Lawful::Line(line) => Reading::Record(Record::of_line(line.0)),
    })
}

/// Reads a piece's record, as bytes, into the front of the buffer, checking 4 first. An end of the
/// day is no record, and leaves every byte of the buffer as it was.
pub fn read_into(piece: &[u8], buffer: &mut [u8]) -> Result<Reading, Refusal> {
    let room = buffer.get_mut(..STORED).ok_or(Refusal::Buffer)?;
    let reading = read(piece)?;
    if let Reading::Record(record) = &reading {
        room.copy_from_slice(record.stored());
    }
    Ok(reading)
}

/// Writes the line of a record, given as bytes, to the front of the buffer, checking 4 before 3. A
/// record whose bytes all have a meaning is lawful exactly when the line it makes is, so each field
/// in turn must have its meaning, is laid out and held against its rule.
pub fn write(record: &[u8], buffer: &mut [u8]) -> Result<(), Refusal> {
    let room = buffer.get_mut(..LINE).ok_or(Refusal::Buffer)?;
    let record = Record::load(record)?;
    let mut line = [b' '; LINE];
    for field in &FIELDS {
        if !record.has_meaning(field) || !field.lay_lawful(&record, &mut line) {
            return Err(Refusal::Field(field.number));
        }
    }
    line[BODY..].copy_from_slice(CR_LF);
    // Only now, so that a refusal leaves every byte of the buffer as it was.
    room.copy_from_slice(&line);
    Ok(())
}
