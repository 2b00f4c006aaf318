//! Sound tables to make cases of: one with every kind of order, full ones and random ones.

use crate::cases::contents::{lawful_line, with};
use crate::cases::random::Random;
use crate::cases::shorthand::{capture, other, padded};
use crate::rules::day::{Day, Figures, Order, MOST};
use crate::rules::fields::{places, LF, TOKEN};
use crate::rules::line::MOST_PRICE;
use crate::rules::quotes::{Quote, Row, Rows, MOST_ROWS};
use crate::rules::table::{self, TABLE};

/// A family of three (T1, T3, T4), one of two (T5, T6), and single orders with all executed (T7), all
/// cancelled (T8) and all open (T9). The second order, T2 of another Source, comes before T3.
const RICH: [&str; 2] = [
    "A T1 100; E T1 30; C T1 10; X T1 5",
    "U T3 for T1, 60; E T3 20; C T3 20; X T3 1; U T4 for T3, 40; E T4 5; X T4 15; A T5 999999; \
     U T6 for T5, 999999; A T7 1; E T7 1; A T8 12; X T8 12; A T9 50",
];
pub const RICH_ORDERS: usize = 9;
/// Quote rows alike but for the side, the series or the Source; and last a row of another id, of which nothing is broken.
const RICH_QUOTES: [(&str, &[(usize, &str)]); 6] = [
    ("E QA1 30", &[]),
    ("E QA1 7", &[(14, "S")]),
    ("E QA1 8", &[(21, "205751")]),
    ("C QA1 10", &[]),
    ("E QA1 9", &[(10, "ABCD02")]),
    ("E QA2 50", &[]),
];
pub const RICH_ROWS: usize = 5;
/// An order of which all is passed on, its younger, of which all is open, and a quote row.
const TINY: &str = "A T1 100; E T1 30; C T1 10; U T2 for T1, 60; E QA1 5";
/// The same orders, one of which all is cancelled, and one of which all is open; rows of two ids.
const SMALL: &str =
    "A T1 100; E T1 30; C T1 10; U T2 for T1, 60; A T3 50; X T3 50; A T4 7; E QA1 30; C QA1 10; E QA2 5";
/// How many quote rows a random table has.
const ROW_COUNTS: [usize; 7] = [0, 0, 1, 5, 40, MOST_ROWS - 1, MOST_ROWS];

pub fn junk(random: &mut Random, length: usize) -> Vec<u8> {
    (0..length).map(|_| random.next() as u8).collect()
}

/// The day's table, its free slots and rows holding any bytes.
pub fn stored(day: &Day, random: &mut Random) -> Vec<u8> {
    let mut table = junk(random, TABLE);
    table::store(day, &mut table);
    table
}

/// The day after lines that are all accepted.
pub fn day_of(text: &[u8]) -> Day {
    let mut day = Day::default();
    for piece in text.split_inclusive(|byte| *byte == LF) {
        day.book(piece).expect("the lines are lawful");
    }
    day
}

pub fn rich_table(random: &mut Random) -> Vec<u8> {
    stored(&rich_day(), random)
}

pub fn rich_day() -> Day {
    let unlike = other("A T2 7", &[(10, "AB D02"), (14, "S"), (16, "X     "), (20, "E"), (21, "000001")]);
    let quotes: Vec<_> = RICH_QUOTES.iter().flat_map(|(words, changes)| other(words, changes)).collect();
    day_of(&[capture(RICH[0]), unlike, quotes, capture(RICH[1])].concat())
}

pub fn tiny_day() -> Day {
    day_of(&capture(TINY))
}

/// Its third row is of the first one's id, and of the other side.
pub fn small_day() -> Day {
    day_of(&[capture(SMALL), other("E QA1 7", &[(14, "S")])].concat())
}

/// A day with the longest numbers in 512 orders and 128 quote rows. None has an elder: one in two groups costs the elder's
/// open its three.
pub fn longest_day() -> Day {
    let day = tiny_day();
    let quarter = 250_000;
    let figures = Figures {
        size: 4 * quarter - 1,
        executed: quarter,
        broken: quarter,
        cancelled: quarter,
        passed_on: quarter,
        open: quarter - 1,
    };
    let order = Order { price: MOST_PRICE, figures, ..day.orders()[0].clone() };
    let row = |number: usize| {
        let mut quote = day.rows()[0].quote;
        quote.key[6..22].copy_from_slice(format!("{number:016X}").as_bytes());
        Row { quote, executed: u32::MAX, broken: u32::MAX }
    };
    let rows = Rows::of((0..MOST_ROWS).map(row).collect()).expect("no two are alike");
    Day::of(vec![order; MOST], rows, false)
}

/// A table of 512 orders and 128 quote rows.
pub fn full_table(random: &mut Random) -> Vec<u8> {
    stored(&random_day_with(MOST, MOST_ROWS, random), random)
}

/// A sound table of so many orders, and of any number of quote rows.
pub fn random_day(orders: usize, random: &mut Random) -> Day {
    let rows = *random.pick(&ROW_COUNTS);
    random_day_with(orders, rows, random)
}

/// A sound table that no lines need lead to: elders anywhere earlier and of any side and series, any figures that add
/// up, and now and then a key that is there already, in an order or in a quote row.
pub fn random_day_with(orders: usize, rows: usize, random: &mut Random) -> Day {
    let rows = random_rows(rows, random);
    let founding = *random.pick(&[1, 2, 8, 64]);
    let mut all: Vec<Order> = Vec::with_capacity(orders);
    let mut youngest: Vec<usize> = Vec::new();
    for place in 0..orders {
        let mut order = day_of(&lawful_line(b'A', random)).orders()[0].clone();
        order.figures = spread(order.figures.size, random);
        if place > 0 && random.once_in(32) {
            order.key = random.pick(&all).key;
        }
        if !rows.is_empty() && random.once_in(32) {
            order.key = random.pick(&rows).quote.key;
        }
        if place > 0 && !random.once_in(founding) {
            let elder = youngest.swap_remove(random.below(youngest.len()));
            let figures = &mut all[elder].figures;
            figures.passed_on += figures.open;
            figures.open = 0;
            order.elder = Some(elder);
        }
        youngest.push(place);
        all.push(order);
    }
    let rows = Rows::of(rows).expect("no two are alike");
    Day::of(all, rows, random.once_in(24))
}

/// Quote rows of which no two are alike. Half of them agree with an earlier one in all but the side, the Source, the id
/// or the series.
fn random_rows(count: usize, random: &mut Random) -> Vec<Row> {
    let mut rows: Vec<Row> = Vec::with_capacity(count);
    while rows.len() < count {
        let mut quote = random_quote(random);
        if !rows.is_empty() && random.once_in(2) {
            let earlier = random.pick(&rows).quote;
            quote = match random.below(4) {
                0 => Quote { side: quote.side, ..earlier },
                1 => Quote { series: quote.series, ..earlier },
                2 => Quote {
                    key: with(&earlier.key, 0..6, quote.source()).try_into().expect("as long as before"),
                    ..earlier
                },
                _ => Quote {
                    key: with(&earlier.key, 6..26, quote.token()).try_into().expect("as long as before"),
                    ..earlier
                },
            };
        }
        if rows.iter().all(|row| row.quote != quote) {
            let executed = executed(random);
            let broken = random.below(executed as usize + 1) as u32;
            rows.push(Row { quote, executed, broken });
        }
    }
    rows
}

fn random_quote(random: &mut Random) -> Quote {
    let line = lawful_line(b'E', random);
    let id = padded(&format!("Q{:X}", random.any()));
    day_of(&with(&line, places(TOKEN, TOKEN), id.as_bytes())).rows()[0].quote
}

/// Anything that a row may have executed, often the least or near the most.
fn executed(random: &mut Random) -> u32 {
    match random.below(4) {
        0 => 1,
        1 => u32::MAX - random.below(3) as u32,
        2 => u32::MAX - random.below(2_000_000) as u32,
        _ => random.between(1, u32::MAX.into()) as u32,
    }
}

/// Half the time all of a size is open, else it is cut into four parts at any places.
fn spread(size: u32, random: &mut Random) -> Figures {
    let mut cuts = [0; 3];
    if random.once_in(2) {
        cuts.fill_with(|| random.below(size as usize + 1) as u32);
        cuts.sort_unstable();
    }
    let [executed, cancelled, passed_on] = cuts;
    let broken = random.below(executed as usize + 1) as u32;
    Figures {
        size,
        executed,
        broken,
        cancelled: cancelled - executed,
        passed_on: passed_on - cancelled,
        open: size - passed_on,
    }
}
