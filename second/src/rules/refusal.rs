//! The numbered refusals (01, Refusals by number, and 02, Tickets 1 and 2).

use std::fmt;

/// Why nothing was done. A `Field` carries the number of the first field that breaks its rule; `FullRows` says that no
/// quote row is left, or that one can't hold more; `NoSavedDay` also that the bytes describe a damaged table.
#[derive(Clone, Copy, Debug, PartialEq, Eq)]
pub enum Refusal {
    Piece,
    Byte,
    Field(usize),
    Buffer,
    Damaged,
    DayOver,
    KnownKey,
    UnknownKey,
    OtherSideOrSeries,
    TooLittleOpen,
    TooLittleExecuted,
    FullTable,
    FullRows,
    NoSavedDay,
}

impl Refusal {
    pub fn number(self) -> usize {
        match self {
            Refusal::Piece => 1,
            Refusal::Byte => 2,
            Refusal::Field(_) => 3,
            Refusal::Buffer => 4,
            Refusal::Damaged => 5,
            Refusal::DayOver => 6,
            Refusal::KnownKey => 7,
            Refusal::UnknownKey => 8,
            Refusal::OtherSideOrSeries => 9,
            Refusal::TooLittleOpen => 10,
            Refusal::TooLittleExecuted => 11,
            Refusal::FullTable => 12,
            Refusal::FullRows => 13,
            Refusal::NoSavedDay => 14,
        }
    }

    /// The number and the field in one, as a list of answers holds them.
    pub fn code(self) -> u32 {
        let field = if let Refusal::Field(field) = self { field } else { 0 };
        (self.number() + 256 * field) as u32
    }
}

/// `refused R`, with ` field F` after a 3: the words of the trial and of the sheet program alike.
impl fmt::Display for Refusal {
    fn fmt(&self, out: &mut fmt::Formatter<'_>) -> fmt::Result {
        write!(out, "refused {}", self.number())?;
        if let Refusal::Field(field) = self {
            write!(out, " field {field}")?;
        }
        Ok(())
    }
}
