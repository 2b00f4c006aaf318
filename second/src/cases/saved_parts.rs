//! Saved days taken apart, so that any part can be another (02, Ticket 2).

use crate::cases::case::Written;
use crate::cases::hand::Hand;
use crate::rules::day::Day;
use crate::rules::groups;

/// The parts of the head, of an order and of a quote row.
const HEAD_PARTS: usize = 4;
const ORDER_PARTS: usize = 10;
const ROW_PARTS: usize = 6;
/// Those of the head by name.
pub const FORM: usize = 0;
pub const OVER: usize = 1;
pub const ORDERS: usize = 2;
pub const ROWS: usize = 3;
/// Those of an order.
pub const KEY: usize = 0;
pub const ORDER_SIDE: usize = 1;
pub const ORDER_SERIES: usize = 2;
pub const PRICE: usize = 3;
pub const ELDER: usize = 4;
pub const EXECUTED: usize = 5;
pub const BROKEN: usize = 6;
pub const CANCELLED: usize = 7;
pub const PASSED_ON: usize = 8;
pub const OPEN: usize = 9;
/// Those of a row.
pub const ROW_SOURCE: usize = 0;
pub const ID: usize = 1;
pub const ROW_SIDE: usize = 2;
pub const ROW_SERIES: usize = 3;
pub const ROW_EXECUTED: usize = 4;
pub const ROW_BROKEN: usize = 5;

/// Other bytes for some parts.
pub type Change = Vec<(usize, Vec<u8>)>;

/// A saved day in its parts: each number is one, and so is each run of bytes.
#[derive(Clone)]
pub struct Parts {
    pub all: Vec<Vec<u8>>,
    orders: usize,
}

impl Parts {
    pub fn of(day: &Day) -> Parts {
        let head = [1, day.is_over().into(), day.orders().len() as u64, day.rows().len() as u64];
        let mut all: Vec<_> = head.map(number).into();
        for order in day.orders() {
            let figures = order.figures;
            let elder = order.elder.map_or(0, |place| place as u64 + 1);
            all.extend([
                order.key.to_vec(),
                vec![order.side],
                order.series.to_vec(),
                number(order.price),
                number(elder),
            ]);
            all.extend([figures.executed, figures.broken, figures.cancelled].map(|figure| number(figure.into())));
            all.extend([figures.passed_on, figures.open].map(|figure| number(figure.into())));
        }
        for row in day.rows() {
            let quote = &row.quote;
            all.extend([quote.source().to_vec(), quote.id().to_vec(), vec![quote.side], quote.series.to_vec()]);
            all.extend([row.executed, row.broken].map(|figure| number(figure.into())));
        }
        Parts { all, orders: day.orders().len() }
    }

    /// The bytes with a change.
    pub fn with(&self, change: &[(usize, Vec<u8>)]) -> Vec<u8> {
        let mut changed = self.clone();
        for (part, bytes) in change {
            changed.all[*part].clone_from(bytes);
        }
        changed.all.concat()
    }

    /// Where an order's parts begin.
    pub fn order(&self, place: usize) -> usize {
        HEAD_PARTS + ORDER_PARTS * place
    }

    /// Where a row's parts begin.
    pub fn row(&self, place: usize) -> usize {
        self.order(self.orders) + ROW_PARTS * place
    }

    /// The parts that are numbers.
    pub fn numbers(&self) -> Vec<usize> {
        let rows = (self.all.len() - self.row(0)) / ROW_PARTS;
        let orders = (0..self.orders).flat_map(|place| self.order(place) + PRICE..self.order(place + 1));
        let rows = (0..rows).flat_map(|place| self.row(place) + ROW_EXECUTED..self.row(place + 1));
        (0..HEAD_PARTS).chain(orders).chain(rows).collect()
    }
}

pub fn number(number: u64) -> Vec<u8> {
    let mut groups = vec![];
    groups::put(number, &mut groups);
    groups
}

/// A number in more groups than it needs.
pub fn padded(number: &[u8], groups: usize) -> Vec<u8> {
    let mut number: Vec<_> = number.iter().map(|group| group | 0x80).collect();
    number.resize(groups.max(number.len()), 0x80);
    if let Some(last) = number.last_mut() {
        *last &= 0x7F;
    }
    number
}

/// A number with one more of its bits, which may be beyond the 64th.
pub fn above(number: &[u8], bit: usize) -> Vec<u8> {
    let mut number = padded(number, bit / 7 + 1);
    number[bit / 7] |= 1 << (bit % 7);
    number
}

/// Loads a day with each of the changes.
pub fn apply(name: &str, parts: &Parts, changes: &[Change], hand: &mut Hand) -> Written {
    hand.name(name)?;
    changes.iter().try_for_each(|change| hand.try_load(&parts.with(change)))
}
