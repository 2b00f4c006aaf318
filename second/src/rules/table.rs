//! The lent table: a day kept in the caller's bytes. Every entry first refuses a damaged one (LAYOUT, The lent table).

use std::mem;
use std::ops::Range;

use crate::rules::day::{Day, Figures, Order, MOST};
use crate::rules::fields::{
    places, BODY, DATE, DENOMINATOR, FIELDS, LF, MONTH, PRICE, ROOT, SIDE, SOURCE, STRIKE, TOKEN, YEAR,
};
use crate::rules::key::{on_line, Key, Series};
use crate::rules::quotes::{is_id, Quote, Row, Rows, MOST_ROWS};
use crate::rules::record::Record;
use crate::rules::refusal::Refusal;
use crate::rules::sheet;

/// The bytes of the header, of one slot, of one quote row, and of the whole table.
pub const HEADER: usize = 8;
pub const SLOT: usize = 80;
pub const ROW: usize = 49;
pub const TABLE: usize = HEADER + SLOT * MOST + ROW * MOST_ROWS;

/// Where the header keeps the mark of end of day, the count of quote rows, and what must be 0.
pub const MARK: usize = 4;
pub const ROW_COUNT: usize = 5;
pub const SPARE: usize = 6;

/// A field of the line by its number, and where it stands.
pub type Part = (usize, Range<usize>);

/// Where a slot keeps the line's fields. A number has as many bytes as its rule needs. A quote row keeps all but the
/// price, in the same places.
pub const KEPT: [Part; 10] = [
    (SOURCE, 0..6),
    (TOKEN, 6..26),
    (SIDE, 26..27),
    (ROOT, 27..33),
    (MONTH, 33..34),
    (DATE, 34..35),
    (YEAR, 35..36),
    (DENOMINATOR, 36..37),
    (STRIKE, 37..41),
    (PRICE, 41..49),
];
/// Where it keeps the elder, the figures (four bytes each), and what must be 0.
pub const ELDER: usize = 49;
pub const SIZE: usize = 51;
pub const EXECUTED: usize = 55;
pub const BROKEN: usize = 59;
pub const CANCELLED: usize = 63;
pub const PASSED_ON: usize = 67;
pub const OPEN: usize = 71;
pub const REST: usize = 75;
/// Where a quote row keeps its two figures.
pub const ROW_EXECUTED: usize = 41;
pub const ROW_BROKEN: usize = 45;

/// What a quote row keeps of the line's fields.
pub fn kept_in_row() -> &'static [Part] {
    &KEPT[..KEPT.len() - 1]
}

/// The places of a slot in the table.
pub fn slot(place: usize) -> Range<usize> {
    let start = HEADER + SLOT * place;
    start..start + SLOT
}

/// The places of a quote row in the table: the rows stand behind all slots.
pub fn row(place: usize) -> Range<usize> {
    let start = slot(MOST).start + ROW * place;
    start..start + ROW
}

/// Makes the empty table. Only the header is written.
pub fn make_empty(table: &mut [u8]) -> Result<(), Refusal> {
    fits(table)?;
    store_header(&Day::default(), table);
    Ok(())
}

/// Whether a table can be made in a buffer: a short one has no room, and a longer one is no table.
pub fn fits(buffer: &[u8]) -> Result<(), Refusal> {
    if buffer.len() < TABLE {
        return Err(Refusal::Buffer);
    }
    if buffer.len() > TABLE {
        return Err(Refusal::Damaged);
    }
    Ok(())
}

/// The day that the bytes say, unless they are damaged.
pub fn load(table: &[u8]) -> Result<Day, Refusal> {
    sound(table).ok_or(Refusal::Damaged)
}

/// Books a piece, or refuses it by the first number that applies and changes nothing.
pub fn book(table: &mut [u8], piece: &[u8]) -> Result<(), Refusal> {
    let mut day = load(table)?;
    day.book(piece)?;
    store(&day, table);
    Ok(())
}

/// Books the pieces of a text one after another, up to its end or to the end of the answers: each answer is 0 or the
/// refusal of its piece. Says how many bytes and pieces were used.
pub fn book_all(table: &mut [u8], text: &[u8], answers: &mut [u32]) -> Result<(usize, usize), Refusal> {
    load(table)?;
    let mut used = (0, 0);
    for (piece, answer) in text.split_inclusive(|byte| *byte == LF).zip(answers) {
        *answer = book(table, piece).map_or_else(Refusal::code, |()| 0);
        used = (used.0 + piece.len(), used.1 + 1);
    }
    Ok(used)
}

/// The place of the earliest order with a key. No order has a key of another length.
pub fn look_up(table: &[u8], key: &[u8]) -> Result<usize, Refusal> {
    let day = load(table)?;
    let key = key.try_into().map_err(|_| Refusal::UnknownKey)?;
    day.place(key).ok_or(Refusal::UnknownKey)
}

/// Writes the slot of the order at a place to the front of the buffer.
pub fn write_order(table: &[u8], place: u64, buffer: &mut [u8]) -> Result<(), Refusal> {
    let day = load(table)?;
    let room = buffer.get_mut(..SLOT).ok_or(Refusal::Buffer)?;
    if place >= day.orders().len() as u64 {
        return Err(Refusal::UnknownKey);
    }
    room.copy_from_slice(&table[slot(place as usize)]);
    Ok(())
}

/// Writes the quote row at a place to the front of the buffer.
pub fn write_row(table: &[u8], place: u64, buffer: &mut [u8]) -> Result<(), Refusal> {
    let day = load(table)?;
    let room = buffer.get_mut(..ROW).ok_or(Refusal::Buffer)?;
    if place >= day.rows().len() as u64 {
        return Err(Refusal::UnknownKey);
    }
    room.copy_from_slice(&table[row(place as usize)]);
    Ok(())
}

/// Writes the sheet to the front of the buffer, and says how long it is.
pub fn write_sheet(table: &[u8], buffer: &mut [u8]) -> Result<usize, Refusal> {
    let text = sheet::text(&load(table)?);
    let room = buffer.get_mut(..text.len()).ok_or(Refusal::Buffer)?;
    room.copy_from_slice(&text);
    Ok(text.len())
}

// Decoding. Nothing means damage (01, *Damaged*, and 02, Ticket 1).

fn sound(table: &[u8]) -> Option<Day> {
    if table.len() != TABLE {
        return None;
    }
    let [count @ .., mark @ (0 | 1), row_count, 0, 0] = *table.first_chunk::<HEADER>()? else { return None };
    let (count, row_count) = (u32::from_le_bytes(count) as usize, usize::from(row_count));
    if count > MOST || row_count > MOST_ROWS {
        return None;
    }
    let orders = (0..count).map(|place| sound_order(&table[slot(place)])).collect::<Option<Vec<_>>>()?;
    let rows = (0..row_count).map(|place| sound_row(&table[row(place)])).collect::<Option<Vec<_>>>()?;
    let rows = Rows::of(rows)?;
    descent_holds(&orders).then(|| Day::of(orders, rows, mark == 1))
}

/// What a slot or a quote row keeps of the line's fields. They are laid out as on a line, and judged by its rules.
struct Kept {
    key: Key,
    side: u8,
    series: Series,
    price: u64,
}

impl Kept {
    fn sound(fields: &[Part], bytes: &[u8]) -> Option<Kept> {
        let mut record = Record::unknown();
        let mut line = [b' '; BODY];
        for (field, at) in fields {
            record.set(*field, &bytes[at.clone()]);
            if !FIELDS[field - 1].lay_lawful(&record, &mut line) {
                return None;
            }
        }
        let key = line[places(SOURCE, TOKEN)].try_into().ok()?;
        let series = line[places(ROOT, STRIKE)].try_into().ok()?;
        Some(Kept { key, side: record.bytes(SIDE)[0], series, price: record.number(PRICE) })
    }

    fn store(&self, fields: &[Part], bytes: &mut [u8]) {
        let record = self.record();
        for (field, at) in fields {
            bytes[at.clone()].copy_from_slice(&record.bytes(*field)[..at.len()]);
        }
    }

    /// What the line says of it.
    fn record(&self) -> Record {
        let mut record = Record::of_line(&on_line(&self.key, self.side, &self.series));
        record.set_number(PRICE, self.price);
        record
    }
}

fn sound_order(slot: &[u8]) -> Option<Order> {
    let Kept { key, side, series, price } = Kept::sound(&KEPT, slot)?;
    let figures = Figures {
        size: number_at(slot, SIZE),
        executed: number_at(slot, EXECUTED),
        broken: number_at(slot, BROKEN),
        cancelled: number_at(slot, CANCELLED),
        passed_on: number_at(slot, PASSED_ON),
        open: number_at(slot, OPEN),
    };
    if !figures.add_up() || slot[REST..] != [0; SLOT - REST] {
        return None;
    }
    let elder = usize::from(u16::from_le_bytes([slot[ELDER], slot[ELDER + 1]])).checked_sub(1);
    Some(Order { key, side, series, price, elder, figures })
}

/// Its Token must be more than a text: an SQF id.
fn sound_row(row: &[u8]) -> Option<Row> {
    let Kept { key, side, series, .. } = Kept::sound(kept_in_row(), row)?;
    let quote = Quote { key, side, series };
    let (executed, broken) = (number_at(row, ROW_EXECUTED), number_at(row, ROW_BROKEN));
    let sound = is_id(quote.token()) && executed > 0 && broken <= executed;
    sound.then_some(Row { quote, executed, broken })
}

fn number_at(bytes: &[u8], at: usize) -> u32 {
    bytes[at..].first_chunk().map_or(0, |bytes| u32::from_le_bytes(*bytes))
}

/// Whether each elder is an earlier order with nothing open, and the elder of one order alone.
pub fn descent_holds(orders: &[Order]) -> bool {
    let mut replaced = [false; MOST];
    orders.iter().enumerate().all(|(place, order)| {
        order.elder.is_none_or(|elder| {
            elder < place && orders[elder].figures.open == 0 && !mem::replace(&mut replaced[elder], true)
        })
    })
}

// Encoding.

/// Writes the header, the slots of the day's orders and its quote rows. An order has one form in its slot, so that
/// a slot whose order is the same keeps its bytes, and so has a row; free slots and free rows are left alone.
pub fn store(day: &Day, table: &mut [u8]) {
    store_header(day, table);
    for (place, order) in day.orders().iter().enumerate() {
        store_order(order, &mut table[slot(place)]);
    }
    for (place, kept) in day.rows().iter().enumerate() {
        store_row(kept, &mut table[row(place)]);
    }
}

fn store_header(day: &Day, table: &mut [u8]) {
    let count = day.orders().len() as u32;
    table[..MARK].copy_from_slice(&count.to_le_bytes());
    table[MARK] = u8::from(day.is_over());
    table[ROW_COUNT] = day.rows().len() as u8;
    table[SPARE..HEADER].fill(0);
}

fn store_order(order: &Order, slot: &mut [u8]) {
    let Order { key, side, series, price, .. } = order;
    Kept { key: *key, side: *side, series: *series, price: *price }.store(&KEPT, slot);
    let elder = order.elder.map_or(0, |place| place as u16 + 1);
    slot[ELDER..SIZE].copy_from_slice(&elder.to_le_bytes());
    let Figures { size, executed, broken, cancelled, passed_on, open } = order.figures;
    let figures = [size, executed, broken, cancelled, passed_on, open].map(u32::to_le_bytes);
    slot[SIZE..REST].copy_from_slice(figures.as_flattened());
    slot[REST..].fill(0);
}

fn store_row(row: &Row, bytes: &mut [u8]) {
    let Quote { key, side, series } = row.quote;
    Kept { key, side, series, price: 0 }.store(kept_in_row(), bytes);
    let figures = [row.executed, row.broken].map(u32::to_le_bytes);
    bytes[ROW_EXECUTED..].copy_from_slice(figures.as_flattened());
}
