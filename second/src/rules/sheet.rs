//! The family sheet with the quote rows below, and the sheet program that books a capture and prints it (01, The sheet).

use std::io::{self, BufRead, ErrorKind, Write};
use std::iter;

use crate::rules::day::{Day, Order};
use crate::rules::fields::{LF, LINE};
use crate::rules::quotes::Row;

/// As much as is kept of a piece that straddles two chunks: a longer one is refused by its length.
const KEPT: usize = LINE + 1;

/// Books each piece of the input, prints what is refused as it comes, and at the end the sheet.
pub fn run(input: &mut impl BufRead, output: &mut impl Write) -> io::Result<()> {
    let mut booking = Booking { day: Day::default(), number: 0, output };
    // The front of a piece whose end has not been read yet.
    let mut begun = Vec::with_capacity(KEPT);
    loop {
        let chunk = match input.fill_buf() {
            Ok(chunk) => chunk,
            Err(error) if error.kind() == ErrorKind::Interrupted => continue,
            // A failed read counts as the end.
            Err(_) => break,
        };
        if chunk.is_empty() {
            break;
        }
        let length = chunk.len();
        let mut rest = chunk;
        while !rest.is_empty() {
            let part = cut(&mut rest)?;
            let ends = part.ends_with(&[LF]);
            if ends && begun.is_empty() {
                booking.take(part)?;
                continue;
            }
            let room = KEPT - begun.len();
            begun.extend_from_slice(&part[..part.len().min(room)]);
            if ends {
                booking.take(&begun)?;
                begun.clear();
            }
        }
        input.consume(length);
        // What was refused so far shows before the program waits for more.
        booking.output.flush()?;
    }
    if !begun.is_empty() {
        booking.take(&begun)?;
    }
    write(&booking.day, booking.output)
}

/// Cuts off the front of the bytes up to and including the next LF, or all of them.
fn cut<'a>(bytes: &mut &'a [u8]) -> io::Result<&'a [u8]> {
    let all = *bytes;
    let length = bytes.skip_until(LF)?;
    Ok(&all[..length])
}

struct Booking<'a, W> {
    day: Day,
    /// The number of the piece that was taken last.
    number: u64,
    output: &'a mut W,
}

impl<W: Write> Booking<'_, W> {
    fn take(&mut self, piece: &[u8]) -> io::Result<()> {
        self.number += 1;
        match self.day.book(piece) {
            Ok(()) => Ok(()),
            Err(refusal) => writeln!(self.output, "line {} {refusal}", self.number),
        }
    }
}

/// Writes the sheet: families by the acceptance of their first order, each from eldest to youngest; then quote rows by
/// their first E.
pub fn write(day: &Day, out: &mut impl Write) -> io::Result<()> {
    let orders = day.orders();
    // An order is replaced at most once: nothing is open afterwards.
    let mut younger = vec![None; orders.len()];
    for (place, order) in orders.iter().enumerate() {
        if let Some(elder) = order.elder {
            younger[elder] = Some(place);
        }
    }
    let eldest = || (0..orders.len()).filter(|place| orders[*place].elder.is_none());
    writeln!(out, "orders {} families {}", orders.len(), eldest().count())?;
    for (family, first) in (1..).zip(eldest()) {
        let descent = iter::successors(Some(first), |place| younger[*place]);
        for (member, place) in (1..).zip(descent) {
            write!(out, "{family}.{member} ")?;
            write_order(&orders[place], out)?;
        }
    }
    day.rows().iter().try_for_each(|row| write_row(row, out))
}

/// The sheet as one text.
pub fn text(day: &Day) -> Vec<u8> {
    let mut text = Vec::new();
    write(day, &mut text).expect("memory takes every byte");
    text
}

/// Writes what follows family and place in a row.
fn write_order(order: &Order, out: &mut impl Write) -> io::Result<()> {
    let figures = order.figures;
    write!(out, "{} {} {} ", figures.size, figures.executed, figures.broken)?;
    write!(out, "{} {} {} ", figures.cancelled, figures.passed_on, figures.open)?;
    out.write_all(order.source())?;
    out.write_all(b" ")?;
    out.write_all(order.token().trim_ascii_end())?;
    out.write_all(b"\n")
}

fn write_row(row: &Row, out: &mut impl Write) -> io::Result<()> {
    out.write_all(b"quote ")?;
    out.write_all(row.quote.id())?;
    write!(out, " {} {} ", row.executed, row.broken)?;
    out.write_all(row.quote.source())?;
    out.write_all(b"\n")
}
