//! The quote rows: executions of SQF quotes, which are in no order (02, Ticket 1).

use std::collections::HashMap;

use crate::rules::bytes::{blank, hex};
use crate::rules::key::{Key, Series, SOURCE_BYTES};
use crate::rules::refusal::Refusal;

/// The most quote rows that a table holds.
pub const MOST_ROWS: usize = 128;
/// The characters of an id. The rest of its Token is padding.
pub const ID: usize = 16;

/// Whether a Token is an SQF id: sixteen characters 0 to 9 and A to F, and spaces behind them.
pub fn is_id(token: &[u8]) -> bool {
    let (id, padding) = token.split_at(ID);
    hex(id) && blank(padding)
}

/// What each row is the only one for.
#[derive(Clone, Copy, Debug, PartialEq, Eq, Hash)]
pub struct Quote {
    /// The Source, and the id with its padding.
    pub key: Key,
    pub side: u8,
    pub series: Series,
}

impl Quote {
    pub fn source(&self) -> &[u8] {
        &self.key[..SOURCE_BYTES]
    }

    /// The Token with its padding.
    pub fn token(&self) -> &[u8] {
        &self.key[SOURCE_BYTES..]
    }

    pub fn id(&self) -> &[u8] {
        &self.token()[..ID]
    }
}

#[derive(Clone, Debug, PartialEq, Eq)]
pub struct Row {
    pub quote: Quote,
    /// Never 0: an E makes the row.
    pub executed: u32,
    pub broken: u32,
}

#[derive(Clone, Debug, Default, PartialEq, Eq)]
pub struct Rows {
    /// In the order of their first E.
    rows: Vec<Row>,
    places: HashMap<Quote, usize>,
}

impl Rows {
    /// These rows, unless two of them are alike.
    pub fn of(rows: Vec<Row>) -> Option<Rows> {
        let places: HashMap<_, _> = rows.iter().enumerate().map(|(place, row)| (row.quote, place)).collect();
        (places.len() == rows.len()).then_some(Rows { rows, places })
    }

    pub fn all(&self) -> &[Row] {
        &self.rows
    }

    /// Books an E. The first one makes the row.
    pub fn execute(&mut self, quote: Quote, contracts: u32) -> Result<(), Refusal> {
        if let Some(place) = self.places.get(&quote) {
            let executed = &mut self.rows[*place].executed;
            *executed = executed.checked_add(contracts).ok_or(Refusal::FullRows)?;
            return Ok(());
        }
        if self.rows.len() >= MOST_ROWS {
            return Err(Refusal::FullRows);
        }
        self.places.insert(quote, self.rows.len());
        self.rows.push(Row { quote, executed: contracts, broken: 0 });
        Ok(())
    }

    /// Books a C, which must find its row.
    pub fn undo(&mut self, quote: Quote, contracts: u32) -> Result<(), Refusal> {
        let place = *self.places.get(&quote).ok_or(Refusal::UnknownKey)?;
        let row = &mut self.rows[place];
        if contracts > row.executed - row.broken {
            return Err(Refusal::TooLittleExecuted);
        }
        row.broken += contracts;
        Ok(())
    }
}
