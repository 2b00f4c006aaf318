//! A random capture for the sheet programs: mostly lawful, with every refusal, broken lines, rubbish and huge pieces.

use std::io::{self, Write};

use crate::cases::contents::{self, lawful_content, lawful_line, EDGES};
use crate::cases::random::Random;
use crate::rules::day::{Day, Figures, Order, MOST, MOST_CONTRACTS};
use crate::rules::fields::{
    places, BODY, CONTRACTS, CR_LF, FIELDS, LF, LINE, REPLACED_TOKEN, ROOT, SIDE, SOURCE, STRIKE, TOKEN,
};
use crate::rules::key::{Key, Series};
use crate::rules::quotes::{Quote, Row, MOST_ROWS};

/// One of them with an inner space, one nearly all padding.
const SOURCES: [&[u8; 6]; 4] = [b"ABCD01", b"ABCD02", b"A B~! ", b"A     "];
/// For each Source, and more than a table holds, so that a new one is soon found.
const TOKENS: usize = 700;
/// How many of the tokens in the form of an SQF id the quotes have, so that many rows share an id, and some of these
/// become orders.
const IDS: usize = 24;
/// The longest piece of a capture, or little less.
const LONGEST: usize = 100_000;
/// The fields in which a line must agree with its order.
const AGREED: [usize; 7] = [SIDE, 16, 17, 18, 19, 20, 21];

/// Writes a capture of about so many pieces.
pub fn write(seed: u64, count: usize, out: &mut impl Write) -> io::Result<()> {
    let mut stream = Stream::on(Day::default(), seed, count, LONGEST);
    for bytes in &mut stream {
        out.write_all(&bytes)?;
    }
    out.write_all(&stream.rest())
}

/// Gives one piece after another, or a few at once. Its lawful lines build long families and figures near their bounds.
pub struct Stream {
    random: Random,
    /// Books what is written, so that the next piece can be meant for an order as it stands.
    day: Day,
    /// How many pieces were written, and how many there are to be.
    pieces: usize,
    count: usize,
    /// How many orders and quote rows the day had before.
    given: usize,
    given_rows: usize,
    /// How long a piece of rubbish is to be at most, or little more.
    longest: usize,
    /// After how many pieces the table is to be full of orders, and of quote rows.
    full: usize,
    full_rows: usize,
    /// One new order in so many begins a family.
    founding: usize,
    /// After how many pieces the day is to end.
    end: usize,
    series: Vec<Series>,
    /// Contents for each field, lawful and unlawful.
    contents: Vec<Vec<Vec<u8>>>,
    /// The last line that was meant to be lawful.
    last: Vec<u8>,
}

impl Iterator for Stream {
    type Item = Vec<u8>;

    fn next(&mut self) -> Option<Vec<u8>> {
        if self.pieces >= self.count {
            return None;
        }
        let bytes = self.choose();
        self.book(&bytes);
        Some(bytes)
    }
}

impl Stream {
    /// A stream of about so many pieces for a day that may have begun.
    pub fn on(day: Day, seed: u64, count: usize, longest: usize) -> Stream {
        let mut random = Random::new(seed);
        let full = 1 + *random.pick(&[count / 8, count / 2, count, count * 2]);
        let full_rows = 1 + *random.pick(&[count / 4, count / 2, count, count * 8]);
        let founding = *random.pick(&[2, 8, 64]);
        let end = match random.below(8) {
            0 => random.below(count + 1),
            1 => count,
            _ => count - random.below(count / 16 + 1),
        };
        let series = alike_series(&mut random);
        let contents = FIELDS.iter().map(contents::contents).collect();
        Stream {
            random,
            pieces: 0,
            count,
            given: day.orders().len(),
            given_rows: day.rows().len(),
            day,
            longest,
            full,
            full_rows,
            founding,
            end,
            series,
            contents,
            last: Vec::new(),
        }
    }

    /// The day after the pieces so far.
    pub fn day(&self) -> &Day {
        &self.day
    }

    /// What follows the last piece: nothing, or now and then a piece that was broken off.
    pub fn rest(&mut self) -> Vec<u8> {
        if self.count == 0 || !self.random.once_in(3) {
            return vec![];
        }
        let line = self.lawful();
        let anywhere = self.random.below(LINE);
        line[..*self.random.pick(&[LINE - 1, BODY, anywhere])].to_vec()
    }

    fn book(&mut self, bytes: &[u8]) {
        for piece in bytes.split_inclusive(|byte| *byte == LF) {
            self.pieces += 1;
            // Whether it was refused shows in the day.
            let _ = self.day.book(piece);
        }
    }

    fn choose(&mut self) -> Vec<u8> {
        if self.pieces >= self.end && !self.day.is_over() {
            return CR_LF.to_vec();
        }
        let bytes = match self.random.below(100) {
            0..=4 => self.spoiled(),
            5..=7 => self.rubbish(),
            8 => self.last.clone(),
            9 => CR_LF.to_vec(),
            10..=23 => self.refused(),
            24..=25 => self.taken_over().unwrap_or_else(|| self.lawful()),
            _ => self.lawful(),
        };
        // Most days are to last: none ends by chance.
        let ends_day = bytes.split_inclusive(|byte| *byte == LF).any(|piece| piece == CR_LF);
        if ends_day && !self.day.is_over() {
            return self.lawful();
        }
        bytes
    }

    // Lawful lines.

    /// A line that is booked unless the day is over or no order and no quote row is left for it.
    fn lawful(&mut self) -> Vec<u8> {
        let orders = self.day.orders().len();
        let due = self.given + self.pieces * (MOST - self.given) / self.full;
        // Half the lines are events even when orders are long due.
        let grows = orders < MOST && orders <= due && self.random.once_in(2);
        self.last = match self.random.below(3) {
            _ if grows => self.new_order(),
            0 => self.quote_event(),
            _ => self.event(),
        };
        self.last.clone()
    }

    /// An E that makes a quote row where one is due, else an E or C of a row.
    fn quote_event(&mut self) -> Vec<u8> {
        let rows = self.day.rows().len();
        let due = self.given_rows + self.pieces * (MOST_ROWS - self.given_rows) / self.full_rows;
        if rows < MOST_ROWS && rows <= due {
            let (quote, contracts) = (self.quote(), self.size());
            return self.quote_line(b'E', &quote, contracts);
        }
        let letter = *self.random.pick(b"EEEC");
        let can_go = |row: &Row| if letter == b'C' { row.executed - row.broken } else { u32::MAX - row.executed };
        let Some(row) = self.row(|row| can_go(row) > 0) else { return self.event() };
        let contracts = if letter == b'C' { self.part(can_go(&row)) } else { self.size() };
        self.quote_line(letter, &row.quote, contracts.min(can_go(&row)).min(MOST_CONTRACTS))
    }

    /// A quote in the form of the rows that this stream makes, with or without a row.
    fn quote(&mut self) -> Quote {
        let source = *self.random.pick(&SOURCES);
        let key = key(source, &token(5 * self.random.below(IDS) + 3));
        Quote { key, side: *self.random.pick(b"BS"), series: *self.random.pick(&self.series) }
    }

    /// A row that is as wanted, and whose key is in no order.
    fn row(&mut self, wanted: impl Fn(&Row) -> bool) -> Option<Row> {
        let rows = self.day.rows();
        let (older, younger) = rows.split_at(self.random.below(rows.len() + 1));
        let alone = |row: &&Row| wanted(row) && self.day.place(&row.quote.key).is_none();
        younger.iter().chain(older).find(alone).cloned()
    }

    fn quote_line(&mut self, letter: u8, quote: &Quote, contracts: u32) -> Vec<u8> {
        let mut line = self.line_with(letter, &quote.key, &quote.series, contracts);
        lay(&mut line, SIDE, &[quote.side]);
        line
    }

    fn new_order(&mut self) -> Vec<u8> {
        let contracts = self.size();
        let founds = self.random.once_in(self.founding);
        match self.order(|figures| figures.open > 0) {
            Some(elder) if !founds => {
                let key = self.unknown_key(elder.source());
                self.replacement(key, &elder, contracts)
            }
            _ => {
                let source = *self.random.pick(&SOURCES);
                let key = self.unknown_key(source);
                let series = *self.random.pick(&self.series);
                self.line_with(b'A', &key, &series, contracts)
            }
        }
    }

    fn event(&mut self) -> Vec<u8> {
        let letter = *self.random.pick(b"EEEEXXCCRR");
        let can_go = |figures: &Figures| if letter == b'C' { figures.executed - figures.broken } else { figures.open };
        let Some(order) = self.order(|figures| can_go(figures) > 0) else { return self.refused() };
        let contracts = if letter == b'R' { self.size() } else { self.part(can_go(&order.figures)) };
        self.line(letter, &order, contracts)
    }

    /// A little of what can go, and rarely all of it: the longer the stream, the longer must
    /// its orders last.
    fn part(&mut self, most: u32) -> u32 {
        if self.random.once_in(4 + self.count / 32) {
            return most;
        }
        1 + self.random.below(most as usize / (64 + self.count / 64) + 1) as u32
    }

    fn size(&mut self) -> u32 {
        let most = if self.random.once_in(8 + self.count / 2_048) { 9 } else { MOST_CONTRACTS };
        match self.random.below(4) {
            0 => most,
            1 => most - 1,
            _ => 1 + self.random.below(most as usize) as u32,
        }
    }

    /// An order that is as wanted: half the time one of the youngest, which makes long families.
    fn order(&mut self, wanted: impl Fn(&Figures) -> bool) -> Option<Order> {
        let orders = self.day.orders();
        let near = if self.random.once_in(2) { orders.len().min(4) } else { orders.len() };
        let (older, younger) = orders.split_at(orders.len() - self.random.below(near.max(1)));
        older.iter().rev().chain(younger.iter().rev()).find(|order| wanted(&order.figures)).cloned()
    }

    /// A key of a Source that is not in the table.
    fn unknown_key(&mut self, source: &[u8]) -> Key {
        loop {
            let key = key(source, &token(self.random.below(TOKENS)));
            if self.day.place(&key).is_none() {
                return key;
            }
        }
    }

    fn line_with(&mut self, letter: u8, key: &Key, series: &Series, contracts: u32) -> Vec<u8> {
        let mut line = lawful_line(letter, &mut self.random);
        lay(&mut line, SOURCE, key);
        lay(&mut line, CONTRACTS, &contents::right(contracts.into(), b' ', 6));
        lay(&mut line, ROOT, series);
        line
    }

    /// A line about an order.
    fn line(&mut self, letter: u8, order: &Order, contracts: u32) -> Vec<u8> {
        let mut line = self.line_with(letter, &order.key, &order.series, contracts);
        lay(&mut line, SIDE, &[order.side]);
        line
    }

    /// A line that puts a new order with this key in the place of its elder.
    fn replacement(&mut self, key: Key, elder: &Order, contracts: u32) -> Vec<u8> {
        let order = Order { key, ..elder.clone() };
        let mut line = self.line(b'U', &order, contracts);
        lay(&mut line, REPLACED_TOKEN, elder.token());
        line
    }

    // Lines and pieces that are not.

    /// A line that reads, and mostly breaks a rule of booking from 7 to 13.
    fn refused(&mut self) -> Vec<u8> {
        if self.random.once_in(4) {
            return self.refused_quote();
        }
        let Some(order) = self.order(|_| true) else { return self.new_order() };
        let unknown = Order { key: self.unknown_key(order.source()), ..order.clone() };
        let letter = *self.random.pick(b"EXCR");
        let contracts = self.size();
        let full = self.day.orders().len() == MOST;
        match self.random.below(12) {
            0 => self.line(b'A', &order, contracts),
            1 => {
                let elder = self.order(|figures| figures.open > 0).unwrap_or(unknown);
                self.replacement(order.key, &elder, contracts)
            }
            // One token named twice.
            2 => self.replacement(order.key, &order, contracts),
            3 => self.replacement(unknown.key, &unknown, contracts),
            // An E of an SQF id makes a row.
            4 => self.line(letter, &unknown, 1),
            5 => {
                // Its token under another Source.
                let mut other = order;
                other.key[..6].copy_from_slice(*self.random.pick(&SOURCES));
                self.line(letter, &other, 1)
            }
            6 => {
                let elder = Order { key: self.unknown_key(order.source()), ..order };
                self.replacement(unknown.key, &elder, contracts)
            }
            7 => {
                let line = self.line(letter, &order, 1);
                self.disagreeing(line)
            }
            8 => {
                let line = self.replacement(unknown.key, &order, contracts);
                self.disagreeing(line)
            }
            9 => {
                let letter = *self.random.pick(b"EX");
                let Some(order) = self.order(|figures| figures.open < MOST_CONTRACTS) else { return self.new_order() };
                self.line(letter, &order, order.figures.open + 1)
            }
            10 => {
                let Some(order) = self.order(|figures| figures.open == 0) else { return self.new_order() };
                if self.random.once_in(2) {
                    return self.line(b'R', &order, contracts);
                }
                let key = self.unknown_key(order.source());
                self.replacement(key, &order, contracts)
            }
            11 if full && self.random.once_in(2) => self.line(b'A', &unknown, contracts),
            11 if full => self.replacement(unknown.key, &order, contracts),
            _ => {
                let left = order.figures.executed - order.figures.broken;
                self.line(b'C', &order, MOST_CONTRACTS.min(left + 1))
            }
        }
    }

    /// The same about quotes and their rows.
    fn refused_quote(&mut self) -> Vec<u8> {
        let quote = self.quote();
        let Some(row) = self.row(|_| true) else { return self.quote_line(b'C', &quote, 1) };
        let contracts = self.size();
        match self.random.below(9) {
            // Only E and C are about a row.
            0 => {
                let letter = *self.random.pick(b"XR");
                self.quote_line(letter, &row.quote, 1)
            }
            1 => {
                let mut line = self.quote_line(b'U', &row.quote, contracts);
                let new = self.unknown_key(row.quote.source());
                lay(&mut line, REPLACED_TOKEN, row.quote.token());
                lay(&mut line, SOURCE, &new);
                line
            }
            // With no row, and with no row left.
            2 => self.quote_line(b'C', &quote, 1),
            3 | 4 => self.quote_line(b'E', &quote, contracts),
            5 => self.quote_line(b'C', &row.quote, MOST_CONTRACTS.min((row.executed - row.broken).saturating_add(1))),
            // The most that a row may have executed, or one more.
            6 => {
                let Some(row) = self.row(|row| u32::MAX - row.executed < MOST_CONTRACTS) else {
                    return self.quote_line(b'C', &row.quote, MOST_CONTRACTS);
                };
                let left = u32::MAX - row.executed + self.random.below(2) as u32;
                self.quote_line(b'E', &row.quote, left.max(1))
            }
            // Another side or series has another row.
            7 => {
                let letter = *self.random.pick(b"EC");
                let line = self.quote_line(letter, &row.quote, 1);
                self.disagreeing(line)
            }
            _ => {
                let letter = *self.random.pick(b"EC");
                let mut line = self.quote_line(letter, &row.quote, 1);
                self.spoil_id(&mut line);
                line
            }
        }
    }

    /// Makes a line's SQF id a token that is none, now and then another id.
    fn spoil_id(&mut self, line: &mut [u8]) {
        let at = FIELDS[TOKEN - 1].at;
        let place = if self.random.once_in(4) { 15 } else { self.random.below(20) };
        line[at + place] = *self.random.pick(if place == 0 { b"afGg/:@`" } else { b"afGg/:@` 0F" });
    }

    /// A line about a quote row whose key an order has now: it is the order's.
    fn taken_over(&mut self) -> Option<Vec<u8>> {
        let rows = self.day.rows();
        let taken: Vec<_> = rows.iter().filter(|row| self.day.place(&row.quote.key).is_some()).collect();
        if taken.is_empty() {
            return None;
        }
        let quote = self.random.pick(&taken).quote;
        let letter = *self.random.pick(b"EEECX");
        Some(self.quote_line(letter, &quote, 1))
    }

    /// The line with another side, or with another content in one field of its series.
    fn disagreeing(&mut self, mut line: Vec<u8>) -> Vec<u8> {
        let field = &FIELDS[*self.random.pick(&AGREED) - 1];
        loop {
            let content = lawful_content(field, &mut self.random);
            if line[field.places()] != content {
                lay(&mut line, field.number, &content);
                return line;
            }
        }
    }

    /// A line with some of its bytes or fields changed.
    fn spoiled(&mut self) -> Vec<u8> {
        let mut line = if self.random.once_in(4) { self.refused() } else { self.lawful() };
        for _ in 0..=self.random.below(3) {
            contents::mutate(&mut line, &self.contents, &mut self.random);
        }
        end(line)
    }

    fn rubbish(&mut self) -> Vec<u8> {
        let line = self.lawful();
        let body = &line[..BODY];
        end(match self.random.below(12) {
            0 => vec![],
            1 => b"\r\r\n".to_vec(),
            2 => b" \r\n".to_vec(),
            // No CR; a byte too many; two lines without LF between them.
            3 => body.to_vec(),
            4 => [body, b" ", CR_LF].concat(),
            5 => [body, b"\r", &line].concat(),
            6 => [self.noise(60), line].concat(),
            7 => self.noise(LINE),
            8 => self.noise(600),
            // Long pieces, which both begin and end like a line.
            9 => [body.repeat(self.random.below(8)), line].concat(),
            10 => {
                let most = self.longest >> self.random.below(10);
                [body.repeat(self.random.below((most / BODY).max(1))), line].concat()
            }
            _ => {
                let most = self.longest >> self.random.below(10);
                vec![self.random.any() as u8 | 0x80; self.random.below(most)]
            }
        })
    }

    /// Any bytes, now and then a run of those that mean something.
    fn noise(&mut self, most: usize) -> Vec<u8> {
        let length = self.random.below(most);
        let telling = self.random.once_in(2);
        let random = &mut self.random;
        let byte = |_| if telling { *random.pick(EDGES) } else { random.next() as u8 };
        (0..length).map(byte).collect()
    }
}

/// A few series, each unlike the first in one field at most.
fn alike_series(random: &mut Random) -> Vec<Series> {
    let mut line = lawful_line(b'A', random);
    // Six full digits, which are lawful under every code.
    lay(&mut line, STRIKE, &lawful_content(&FIELDS[STRIKE - 1], random));
    let series = |line: &[u8]| {
        let mut series = [0; 18];
        series.copy_from_slice(&line[places(ROOT, STRIKE)]);
        series
    };
    let mut all = vec![series(&line)];
    for field in &FIELDS[ROOT - 1..STRIKE] {
        all.push(series(&contents::with(&line, field.places(), &lawful_content(field, random))));
    }
    all
}

/// Tokens short and as wide as their field, with inner spaces, and in the form of an SQF id.
fn token(number: usize) -> Vec<u8> {
    let text = match number % 5 {
        0 => format!("T{number}"),
        1 => format!("{number:020}"),
        2 => format!("T {number}"),
        3 => format!("{number:016X}"),
        _ => format!("~{number:>9} a"),
    };
    contents::left(&text, 20)
}

fn key(source: &[u8], token: &[u8]) -> Key {
    let mut key = [0; 26];
    key[..6].copy_from_slice(source);
    key[6..].copy_from_slice(token);
    key
}

/// Puts a content into the line from the front of a field on.
fn lay(line: &mut [u8], field: usize, content: &[u8]) {
    let at = FIELDS[field - 1].at;
    line[at..at + content.len()].copy_from_slice(content);
}

/// The bytes with an LF at their end.
fn end(mut bytes: Vec<u8>) -> Vec<u8> {
    if !bytes.ends_with(&[LF]) {
        bytes.push(LF);
    }
    bytes
}
