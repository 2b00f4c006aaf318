//! The day's table: its orders and quote rows, and the booking of pieces (01, Orders and their figures).

use std::collections::HashMap;

use crate::rules::fields::{CONTRACTS, PRICE, REPLACED_TOKEN, ROOT, STRIKE, TOKEN};
use crate::rules::key::{key_of, series_of, side_of, Key, Series, SOURCE_BYTES};
use crate::rules::line::{self, Lawful, Line};
use crate::rules::quotes::{is_id, Quote, Row, Rows};
use crate::rules::refusal::Refusal;

/// The most orders that a table holds.
pub const MOST: usize = 512;
/// The largest size of an order.
pub const MOST_CONTRACTS: u32 = 999_999;

/// Where an order's contracts went. Its size is executed + cancelled + passed on + open.
#[derive(Clone, Copy, Debug, Default, PartialEq, Eq)]
pub struct Figures {
    pub size: u32,
    pub executed: u32,
    pub broken: u32,
    pub cancelled: u32,
    pub passed_on: u32,
    pub open: u32,
}

impl Figures {
    /// Whether the size is lawful and the sum of its parts, and no more is broken than executed. The
    /// figures may be any that a u32 can say.
    pub fn add_up(self) -> bool {
        let parts = [self.executed, self.cancelled, self.passed_on, self.open];
        let sum: u64 = parts.into_iter().map(u64::from).sum();
        (1..=MOST_CONTRACTS).contains(&self.size) && self.broken <= self.executed && sum == u64::from(self.size)
    }
}

#[derive(Clone, Debug, PartialEq, Eq)]
pub struct Order {
    pub key: Key,
    pub side: u8,
    pub series: Series,
    /// In ten-thousandths of a dollar.
    pub price: u64,
    /// The place in the table of the order that this one replaced.
    pub elder: Option<usize>,
    pub figures: Figures,
}

impl Order {
    pub fn source(&self) -> &[u8] {
        &self.key[..SOURCE_BYTES]
    }

    /// The Token with its padding.
    pub fn token(&self) -> &[u8] {
        &self.key[SOURCE_BYTES..]
    }
}

#[derive(Clone, Debug, Default, PartialEq, Eq)]
pub struct Day {
    /// In the order of their acceptance.
    orders: Vec<Order>,
    /// The place of the earliest order with each key. No key is ever freed.
    places: HashMap<Key, usize>,
    rows: Rows,
    over: bool,
}

impl Day {
    /// The day with these orders, which may repeat a key, and these quote rows.
    pub fn of(orders: Vec<Order>, rows: Rows, over: bool) -> Day {
        let mut places = HashMap::with_capacity(orders.len());
        for (place, order) in orders.iter().enumerate() {
            places.entry(order.key).or_insert(place);
        }
        Day { orders, places, rows, over }
    }

    pub fn orders(&self) -> &[Order] {
        &self.orders
    }

    pub fn rows(&self) -> &[Row] {
        self.rows.all()
    }

    pub fn is_over(&self) -> bool {
        self.over
    }

    pub fn place(&self, key: &Key) -> Option<usize> {
        self.places.get(key).copied()
    }

    /// Books a piece, or refuses it by the first number that applies and changes nothing.
    pub fn book(&mut self, piece: &[u8]) -> Result<(), Refusal> {
        let lawful = line::check(piece)?;
        if self.over {
            return Err(Refusal::DayOver);
        }
        match lawful {
            Lawful::EndOfDay => {
                self.over = true;
                Ok(())
            }
            Lawful::Line(line) => match line.letter() {
                b'A' => self.accept(line),
                b'U' => self.replace(line),
                letter => self.change(letter, line),
            },
        }
    }

    fn accept(&mut self, line: Line) -> Result<(), Refusal> {
        let key = self.new_key(line)?;
        self.room()?;
        self.add(key, line, None);
        Ok(())
    }

    fn replace(&mut self, line: Line) -> Result<(), Refusal> {
        let key = self.new_key(line)?;
        let elder = self.place(&key_of(line, REPLACED_TOKEN)).ok_or(Refusal::UnknownKey)?;
        self.agree(elder, line)?;
        if self.orders[elder].figures.open == 0 {
            return Err(Refusal::TooLittleOpen);
        }
        self.room()?;
        let figures = &mut self.orders[elder].figures;
        figures.passed_on += figures.open;
        figures.open = 0;
        self.add(key, line, Some(elder));
        Ok(())
    }

    /// Books an E, C, X or R: on an order if there is one.
    fn change(&mut self, letter: u8, line: Line) -> Result<(), Refusal> {
        let key = key_of(line, TOKEN);
        match self.place(&key) {
            Some(place) => self.change_order(place, letter, line),
            None if is_id(line.field(TOKEN)) => self.change_row(key, letter, line),
            None => Err(Refusal::UnknownKey),
        }
    }

    fn change_order(&mut self, place: usize, letter: u8, line: Line) -> Result<(), Refusal> {
        self.agree(place, line)?;
        let order = &mut self.orders[place];
        let figures = &mut order.figures;
        let contracts = contracts(line);
        match letter {
            b'E' | b'X' if contracts > figures.open => return Err(Refusal::TooLittleOpen),
            b'R' if figures.open == 0 => return Err(Refusal::TooLittleOpen),
            b'C' if contracts > figures.executed - figures.broken => return Err(Refusal::TooLittleExecuted),
            b'E' => {
                figures.open -= contracts;
                figures.executed += contracts;
            }
            b'X' => {
                figures.open -= contracts;
                figures.cancelled += contracts;
            }
            // Executed stays as it is, and nothing returns to open.
            b'C' => figures.broken += contracts,
            _ => order.price = line.number(PRICE),
        }
        Ok(())
    }

    /// Books an E or C whose key is an SQF id's. No row stands for an X or R.
    fn change_row(&mut self, key: Key, letter: u8, line: Line) -> Result<(), Refusal> {
        let quote = Quote { key, side: side_of(line), series: series_of(line) };
        match letter {
            b'E' => self.rows.execute(quote, contracts(line)),
            b'C' => self.rows.undo(quote, contracts(line)),
            _ => Err(Refusal::UnknownKey),
        }
    }

    /// The key of an order that is not in the table yet.
    fn new_key(&self, line: Line) -> Result<Key, Refusal> {
        let key = key_of(line, TOKEN);
        if self.places.contains_key(&key) {
            return Err(Refusal::KnownKey);
        }
        Ok(key)
    }

    /// Whether the line is of the side and series of the order at a place.
    fn agree(&self, place: usize, line: Line) -> Result<(), Refusal> {
        let order = &self.orders[place];
        if order.side != side_of(line) || order.series != line.fields(ROOT, STRIKE) {
            return Err(Refusal::OtherSideOrSeries);
        }
        Ok(())
    }

    fn room(&self) -> Result<(), Refusal> {
        if self.orders.len() >= MOST {
            return Err(Refusal::FullTable);
        }
        Ok(())
    }

    fn add(&mut self, key: Key, line: Line, elder: Option<usize>) {
        let size = contracts(line);
        let figures = Figures { size, open: size, ..Figures::default() };
        let (side, series, price) = (side_of(line), series_of(line), line.number(PRICE));
        self.places.insert(key, self.orders.len());
        self.orders.push(Order { key, side, series, price, elder, figures });
    }
}

/// At most six digits.
fn contracts(line: Line) -> u32 {
    line.number(CONTRACTS) as u32
}
