//! The saved day, form 1: a table written to bytes and read back (02, Ticket 2).

use crate::rules::day::{Day, Figures, Order, MOST};
use crate::rules::fields::{FIELDS, ROOT, SIDE, SOURCE, STRIKE, TOKEN};
use crate::rules::groups;
use crate::rules::key::{on_line, Key, Series, SOURCE_BYTES};
use crate::rules::line::MOST_PRICE;
use crate::rules::quotes::{is_id, Quote, Row, Rows, ID, MOST_ROWS};
use crate::rules::refusal::Refusal;
use crate::rules::table;

const FORM: u64 = 1;

/// Saves a table to the front of the buffer, and says how many bytes it needs.
pub fn save(table: &[u8], buffer: &mut [u8]) -> Result<usize, Refusal> {
    let saved = bytes(&table::load(table)?);
    let room = buffer.get_mut(..saved.len()).ok_or(Refusal::Buffer)?;
    room.copy_from_slice(&saved);
    Ok(saved.len())
}

/// Loads a saved day into a buffer, whatever it holds. Free slots and free rows keep that.
pub fn load(saved: &[u8], table: &mut [u8]) -> Result<(), Refusal> {
    table::fits(table)?;
    let day = day(saved).ok_or(Refusal::NoSavedDay)?;
    table::store(&day, table);
    Ok(())
}

// Writing.

/// The day's bytes.
pub fn bytes(day: &Day) -> Vec<u8> {
    let mut out = vec![];
    let counts = [day.orders().len(), day.rows().len()].map(|count| count as u64);
    put_numbers(&[FORM, day.is_over().into(), counts[0], counts[1]], &mut out);
    for order in day.orders() {
        put_order(order, &mut out);
    }
    for row in day.rows() {
        put_row(row, &mut out);
    }
    out
}

fn put_order(order: &Order, out: &mut Vec<u8>) {
    out.extend_from_slice(&order.key);
    out.push(order.side);
    out.extend_from_slice(&order.series);
    let elder = order.elder.map_or(0, |place| place as u64 + 1);
    let Figures { executed, broken, cancelled, passed_on, open, .. } = order.figures;
    put_numbers(&[order.price, elder], out);
    put_numbers(&[executed, broken, cancelled, passed_on, open].map(u64::from), out);
}

fn put_row(row: &Row, out: &mut Vec<u8>) {
    out.extend_from_slice(row.quote.source());
    out.extend_from_slice(row.quote.id());
    out.push(row.quote.side);
    out.extend_from_slice(&row.quote.series);
    put_numbers(&[row.executed, row.broken].map(u64::from), out);
}

fn put_numbers(numbers: &[u64], out: &mut Vec<u8>) {
    for number in numbers {
        groups::put(*number, out);
    }
}

// Reading. Nothing means that the bytes are no saved day, or describe a damaged table.

/// The day that the bytes say.
pub fn day(mut saved: &[u8]) -> Option<Day> {
    let rest = &mut saved;
    let [form, mark, orders, rows] = numbers(rest)?;
    if form != FORM || mark > 1 || orders > MOST as u64 || rows > MOST_ROWS as u64 {
        return None;
    }
    let orders = (0..orders).map(|_| order(rest)).collect::<Option<Vec<_>>>()?;
    let rows = (0..rows).map(|_| row(rest)).collect::<Option<Vec<_>>>()?;
    let rows = Rows::of(rows)?;
    let sound = rest.is_empty() && table::descent_holds(&orders);
    sound.then(|| Day::of(orders, rows, mark == 1))
}

fn order(rest: &mut &[u8]) -> Option<Order> {
    let (key, [side], series) = (run(rest)?, run(rest)?, run(rest)?);
    let [price, elder] = numbers(rest)?;
    let elder = usize::try_from(elder).ok()?.checked_sub(1);
    let figures = figures(numbers(rest)?)?;
    let sound = lawful(&key, side, &series) && price <= MOST_PRICE && figures.add_up();
    sound.then_some(Order { key, side, series, price, elder, figures })
}

/// The figures with their size. One of more than 32 bits is above the largest size, and so damage.
fn figures(numbers: [u64; 5]) -> Option<Figures> {
    let mut small = [0; 5];
    for (small, number) in small.iter_mut().zip(numbers) {
        *small = number.try_into().ok()?;
    }
    let [executed, broken, cancelled, passed_on, open] = small;
    let sum: u64 = [executed, cancelled, passed_on, open].into_iter().map(u64::from).sum();
    Some(Figures { size: sum.try_into().ok()?, executed, broken, cancelled, passed_on, open })
}

fn row(rest: &mut &[u8]) -> Option<Row> {
    let (source, id): ([u8; SOURCE_BYTES], [u8; ID]) = (run(rest)?, run(rest)?);
    let ([side], series) = (run(rest)?, run(rest)?);
    let mut key: Key = [b' '; 26];
    key[..SOURCE_BYTES].copy_from_slice(&source);
    key[SOURCE_BYTES..SOURCE_BYTES + ID].copy_from_slice(&id);
    let quote = Quote { key, side, series };
    let [executed, broken] = numbers(rest)?;
    let (executed, broken) = (executed.try_into().ok()?, broken.try_into().ok()?);
    let sound = lawful(&key, side, &series) && is_id(quote.token()) && executed > 0 && broken <= executed;
    sound.then_some(Row { quote, executed, broken })
}

/// Whether each field keeps its rule.
fn lawful(key: &Key, side: u8, series: &Series) -> bool {
    let line = on_line(key, side, series);
    let mut fields = [SOURCE, TOKEN, SIDE].into_iter().chain(ROOT..=STRIKE);
    fields.all(|number| FIELDS[number - 1].keeps(&line))
}

/// Takes a run of bytes from the front.
fn run<const LENGTH: usize>(rest: &mut &[u8]) -> Option<[u8; LENGTH]> {
    let (run, behind) = rest.split_first_chunk()?;
    *rest = behind;
    Some(*run)
}

/// Takes numbers from the front.
fn numbers<const COUNT: usize>(rest: &mut &[u8]) -> Option<[u64; COUNT]> {
    let mut all = [0; COUNT];
    for number in &mut all {
        *number = groups::take(rest)?;
    }
    Some(all)
}
