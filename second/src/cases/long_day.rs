//! A long day for timing: a capture of as many lines as are wanted, all of them accepted, and no end of day. It is about
//! orders, or about quote rows alone.

use std::io::{self, Write};
use std::mem;

use crate::cases::contents::left;
use crate::cases::random::Random;
use crate::cases::shorthand::{EXECUTED, NO_TOKEN};
use crate::rules::day::{Day, MOST_CONTRACTS};
use crate::rules::fields::{
    On, CONTRACTS, CROSS_ID, DATE, DENOMINATOR, FIRM, LINE, LIQUIDITY, MATCH_ID, MONTH, PRICE, REFERENCE,
    REPLACED_TOKEN, ROOT, SIDE, SOURCE, STRIKE, TIMESTAMP, TOKEN, TYPE,
};
use crate::rules::line;
use crate::rules::record::Record;
use crate::rules::strike;

/// What orders a day has, and how much its lines take of them.
struct Shape {
    /// How many orders there are, fewer on a day that is too short for them.
    orders: usize,
    /// There is a new order once in so many lines, until all are there.
    pace: u64,
    /// One new order in so many begins a family.
    founding: usize,
    /// The least size of an order, and the most that one line takes of it.
    least_size: u32,
    most_taken: u32,
}

/// The types of the other lines, as often as they come.
const TYPES: &[u8] = b"EEEEEEEEXXXXRRRRRRRC";
/// From 9:30 to 16:00, in milliseconds.
const OPENING: u64 = 34_200_000;
const TRADING: u64 = 23_400_000;
const ROOTS: [&[u8; 6]; 5] = [b"MSFT  ", b"AAPL  ", b"SPY   ", b"QQQ   ", b"F     "];
/// A dollar in hundred-thousandths, and five cents in ten-thousandths.
const STRIKE_STEP: u64 = 100_000;
const PRICE_STEP: u64 = 500;

/// The most contracts of a line about a quote: a hundred million lines about one row stay within 4,294,967,295.
const MOST_QUOTED: usize = 40;

/// A client counts its tokens, so many digits behind a prefix.
struct Client {
    source: &'static [u8; 6],
    firm: &'static [u8; 4],
    prefix: &'static str,
    digits: usize,
}

const CLIENTS: [Client; 5] = [
    Client { source: b"ABCD01", firm: b"175C", prefix: "", digits: 10 },
    Client { source: b"ABCD02", firm: b"175C", prefix: "", digits: 10 },
    Client { source: b"WXYZ07", firm: b"WXYZ", prefix: "ORD-", digits: 6 },
    Client { source: b"MM3   ", firm: b"MM  ", prefix: "M", digits: 1 },
    Client { source: b"QUO11 ", firm: b"QF1 ", prefix: "20260105", digits: 12 },
];

/// Writes a day of so many lines. A few clients enter some 500 orders early; most lines execute, cancel or reprice a
/// little of them until the close.
pub fn write(seed: u64, count: u32, out: &mut impl Write) -> io::Result<()> {
    // All orders are there after a tenth of the day, unless that is too short for them.
    let pace = u64::from(count / 10 / 500).max(2);
    let shape = Shape { orders: 500, pace, founding: 4, least_size: 100_000, most_taken: 40 };
    write_shape(shape, seed, count, out)
}

/// Writes a day of so many lines about so many orders, at least 1 and at most 512. They come first, each alone in its
/// family; the other lines take so little that even one order lasts for a million of them.
pub fn write_alone(seed: u64, count: u32, orders: usize, out: &mut impl Write) -> io::Result<()> {
    let shape = Shape { orders, pace: 1, founding: 1, least_size: MOST_CONTRACTS, most_taken: 1 };
    write_shape(shape, seed, count, out)
}

/// Writes a day of so many lines about so many quote rows, at least 1 and at most 128, and no order. An E makes each; the
/// other lines execute or break a little of any row.
pub fn write_quotes(seed: u64, count: u32, rows: usize, out: &mut impl Write) -> io::Result<()> {
    let mut random = Random::new(seed);
    let mut unbroken = vec![0; rows];
    for number in 0..count as usize {
        let row = if number < rows { number } else { random.below(rows) };
        let left = &mut unbroken[row];
        let breaks = *left > 0 && random.once_in(10);
        let contracts = 1 + random.below(if breaks { MOST_QUOTED.min(*left) } else { MOST_QUOTED });
        *left = if breaks { *left - contracts } else { *left + contracts };
        out.write_all(&quote_line(if breaks { b"C" } else { b"E" }, row, contracts))?;
    }
    Ok(())
}

/// A line about the quote whose id is the row's number.
fn quote_line(letter: &[u8; 1], row: usize, contracts: usize) -> [u8; LINE] {
    let mut record = Record::of_line(EXECUTED.as_bytes());
    record.set(TYPE, letter);
    record.set(TOKEN, &left(&format!("{row:016X}"), 20));
    record.set_number(CONTRACTS, contracts as u64);
    let mut line = [0; LINE];
    line::write(record.stored(), &mut line).expect("the line is lawful");
    line
}

fn write_shape(shape: Shape, seed: u64, count: u32, out: &mut impl Write) -> io::Result<()> {
    let mut day = LongDay::new(shape, seed, count);
    for _ in 0..count {
        out.write_all(&day.line())?;
    }
    Ok(())
}

struct LongDay {
    shape: Shape,
    random: Random,
    /// How many lines were made, and how many there are to be.
    lines: u64,
    count: u64,
    /// Books each line, so that the next can be meant for an order as it stands.
    day: Day,
    /// What the last line about each order said, by its place in the table.
    records: Vec<Record>,
    /// The place of the youngest order of each family. Something of it is always open.
    youngest: Vec<usize>,
    /// How many tokens each client has used.
    tokens: [u64; CLIENTS.len()],
}

impl LongDay {
    fn new(shape: Shape, seed: u64, count: u32) -> LongDay {
        LongDay {
            shape,
            random: Random::new(seed),
            lines: 0,
            count: count.into(),
            day: Day::default(),
            records: vec![],
            youngest: vec![],
            tokens: [0; CLIENTS.len()],
        }
    }

    /// The next line, of as many as there are to be.
    fn line(&mut self) -> [u8; LINE] {
        let grows = self.records.len() < self.shape.orders && self.lines % self.shape.pace == 0;
        let place = if grows { self.new_order() } else { self.event() };
        let record = &mut self.records[place];
        record.set_number(TIMESTAMP, OPENING + TRADING * self.lines / self.count);
        let mut line = [0; LINE];
        let written = line::write(record.stored(), &mut line);
        written.and_then(|()| self.day.book(&line)).expect("the line is lawful");
        self.lines += 1;
        line
    }

    // New orders.

    /// Makes the line of a new order, and gives its place.
    fn new_order(&mut self) -> usize {
        let place = self.records.len();
        let record = if place == 0 || self.random.once_in(self.shape.founding) {
            self.youngest.push(place);
            self.founder()
        } else {
            // The older a family, the more often it goes on, so that some grow long.
            let families = 1 + self.random.below(self.youngest.len());
            let family = self.random.below(families);
            let elder = mem::replace(&mut self.youngest[family], place);
            self.replacement(elder)
        };
        self.records.push(record);
        let least = self.shape.least_size;
        let size = least + self.random.below((MOST_CONTRACTS - least) as usize + 1) as u32;
        self.complete(place, size);
        self.records[place].set(REFERENCE, format!("{place:09X}").as_bytes());
        self.reprice(place);
        place
    }

    /// An A of any client, in any series.
    fn founder(&mut self) -> Record {
        let client = self.random.below(CLIENTS.len());
        let dollars = 1 + self.random.below(900) as u64;
        let (denominator, digits) = strike::form(dollars * STRIKE_STEP).expect("every such value has a form");
        let mut record = Record::of_line(EXECUTED.as_bytes());
        record.set(TYPE, b"A");
        record.set(FIRM, CLIENTS[client].firm);
        record.set(SOURCE, CLIENTS[client].source);
        record.set(TOKEN, &self.new_token(client));
        record.set(SIDE, &[*self.random.pick(b"BS")]);
        record.set(ROOT, *self.random.pick(&ROOTS));
        record.set(MONTH, &[b'A' + self.random.below(24) as u8]);
        record.set_number(DATE, 15 + self.random.below(7) as u64);
        record.set(DENOMINATOR, &[denominator]);
        record.set_number(STRIKE, digits);
        record
    }

    /// A U for the order at a place.
    fn replacement(&mut self, elder: usize) -> Record {
        let mut record = self.records[elder].clone();
        let client = CLIENTS.iter().position(|client| client.source == record.bytes(SOURCE));
        let token = self.new_token(client.expect("every order is of a client"));
        record.set(TYPE, b"U");
        record.set(REPLACED_TOKEN, self.records[elder].bytes(TOKEN));
        record.set(TOKEN, &token);
        record
    }

    fn new_token(&mut self, client: usize) -> Vec<u8> {
        self.tokens[client] += 1;
        let (Client { prefix, digits, .. }, number) = (&CLIENTS[client], self.tokens[client]);
        left(&format!("{prefix}{number:0digits$}"), 20)
    }

    // Events.

    /// Makes the line of an E, X, C or R, and gives the place of its order. What is left open is at
    /// least 1, so that the family can go on.
    fn event(&mut self) -> usize {
        let place = *self.random.pick(&self.youngest);
        let figures = self.day.orders()[place].figures;
        let unbroken = figures.executed - figures.broken;
        let (letter, contracts) = match *self.random.pick(TYPES) {
            letter @ (b'E' | b'X') if figures.open > 1 => (letter, self.part(figures.open - 1)),
            b'C' if unbroken > 0 => (b'C', self.part(unbroken)),
            _ => (b'R', figures.open),
        };
        let record = &mut self.records[place];
        record.set(TYPE, &[letter]);
        record.set(REPLACED_TOKEN, NO_TOKEN.as_bytes());
        self.complete(place, contracts);
        if letter == b'R' {
            self.reprice(place);
        }
        place
    }

    fn part(&mut self, most: u32) -> u32 {
        1 + self.random.below(most.min(self.shape.most_taken) as usize) as u32
    }

    /// Gives the record at a place its contracts, and what its type alone carries.
    fn complete(&mut self, place: usize, contracts: u32) {
        let record = &mut self.records[place];
        let trades = On::Trade.carries(record.letter());
        // Two matches in each cross; ids have nine digits.
        let match_id = if trades { self.lines % 1_000_000_000 } else { 0 };
        record.set_number(CONTRACTS, contracts.into());
        record.set(LIQUIDITY, &[if trades { *self.random.pick(b"AR") } else { b' ' }]);
        record.set_number(MATCH_ID, match_id);
        record.set_number(CROSS_ID, match_id / 2);
    }

    fn reprice(&mut self, place: usize) {
        let steps = 1 + self.random.below(1_000) as u64;
        self.records[place].set_number(PRICE, steps * PRICE_STEP);
    }
}
