//! The tests of the day: captures with all that the sheet program prints for them, and laws over random streams.

use std::borrow::Cow;
use std::collections::BTreeSet;
use std::io::{self, BufReader, ErrorKind, Read};

use crate::cases::long_day;
use crate::cases::shorthand::{capture, other, piece, OTHERS, WHOLE_CASE};
use crate::cases::stream;
use crate::rules::day::{Day, Figures, MOST};
use crate::rules::fields::{CR_LF, LF, LINE};
use crate::rules::quotes::{self, MOST_ROWS};
use crate::rules::refusal::Refusal;
use crate::rules::sheet;
use crate::tests::law::Law;

/// The streams of the laws.
const SEEDS: u64 = 12;
const PIECES: usize = 3_000;

pub struct Capture {
    pub name: &'static str,
    text: Vec<u8>,
    prints: String,
}

impl Capture {
    pub fn holds(&self) -> bool {
        printed(&self.text) == self.prints
    }
}

fn prints(name: &'static str, text: Vec<u8>, lines: &[&str]) -> Capture {
    Capture { name, text, prints: lines.iter().map(|line| format!("{line}\n")).collect() }
}

/// All that the sheet program prints.
fn printed(text: &[u8]) -> String {
    printed_of(text, 1 << 16)
}

/// The same, the input being read in chunks of so many bytes at most.
fn printed_of(text: impl Read, chunk: usize) -> String {
    let mut said = Vec::new();
    sheet::run(&mut BufReader::with_capacity(chunk, text), &mut said).expect("memory takes every byte");
    String::from_utf8(said).expect("keys are printable")
}

#[rustfmt::skip]
pub fn captures() -> Vec<Capture> {
    let too_long = [&[b' '; 139], CR_LF].concat();
    let foreign_byte = other("A T1 5", &[(3, "17\tC")]);
    let bad_after_end = [
        piece("end of day"), too_long, foreign_byte, piece("A T1 0"), piece("A T1 5"), piece("end of day"),
    ].concat();
    let two_sources = [
        piece("A T1 5"), other("A T1 7", &[(10, "ABCD02")]), other("U T2 for T1, 9", &[(10, "ABCD02")]),
        other("E T2 9", &[(10, "ABCD02")]), piece("E T2 9"), other("E T1 1", &[(10, "ABCD03")]), piece("E T1 1"),
    ].concat();
    let padded = other("A T1 5", &[(10, "A     "), (11, "a b                c")]);
    let inner_space = other("A T1 5", &[(10, "A B~  "), (11, "T 1                 ")]);
    let empty = [b"\n".as_slice(), CR_LF, b"\r\r\n", b"\n\r"].concat();
    let unfinished = [piece("A T1 5"), piece("E T1 1")[..LINE - 1].to_vec()].concat();
    let long = [vec![b'x'; 1_000_000], piece("A T1 5"), piece("A T2 5"), vec![b'x'; 1_000_000]].concat();
    let sides = [capture("A T1 5; E T1 5"), other("E T1 9", &[(14, "S")]), other("R T1 9", &[(14, "S")]),
        other("C T1 9", &[(14, "S")]), other("U T2 for T1, 9", &[(14, "S")])].concat();
    vec![
        prints("The whole case", capture(WHOLE_CASE), &[
            "line 7 refused 7",
            "orders 3 families 2",
            "1.1 100 30 30 0 70 0 ABCD01 T1",
            "1.2 60 0 0 10 0 50 ABCD01 T2",
            "2.1 5 0 0 0 0 5 ABCD01 T9",
        ]),
        prints("Empty input prints `orders 0 families 0`", vec![], &["orders 0 families 0"]),
        prints("The customer's story: an order that replaces itself, or its own elder",
            capture("A T1 100; U T1 for T1, 100; U T2 for T1, 60; U T1 for T2, 50; U T2 for T2, 60; E T2 10"), &[
            "line 2 refused 7",
            "line 4 refused 7",
            "line 5 refused 7",
            "orders 2 families 1",
            "1.1 100 0 0 0 100 0 ABCD01 T1",
            "1.2 60 10 0 0 0 50 ABCD01 T2",
        ]),
        prints("U naming one token twice is 7 if it is known", capture("A T1 100; U T1 for T1, 60"),
            &["line 2 refused 7", "orders 1 families 1", "1.1 100 0 0 0 0 100 ABCD01 T1"]),
        prints("U naming one token twice is 8 if it isn't known", capture("A T2 100; U T1 for T1, 60"),
            &["line 2 refused 8", "orders 1 families 1", "1.1 100 0 0 0 0 100 ABCD01 T2"]),
        prints("E of exactly open is taken", capture("A T1 100; E T1 30; E T1 70"),
            &["orders 1 families 1", "1.1 100 100 0 0 0 0 ABCD01 T1"]),
        prints("E of one more than open is 10", capture("A T1 100; E T1 30; E T1 71"),
            &["line 3 refused 10", "orders 1 families 1", "1.1 100 30 0 0 0 70 ABCD01 T1"]),
        prints("X of exactly open is taken", capture("A T1 100; E T1 30; X T1 70"),
            &["orders 1 families 1", "1.1 100 30 0 70 0 0 ABCD01 T1"]),
        prints("X of one more than open is 10", capture("A T1 100; E T1 30; X T1 71"),
            &["line 3 refused 10", "orders 1 families 1", "1.1 100 30 0 0 0 70 ABCD01 T1"]),
        prints("X on a replaced order is 10", capture("A T1 100; U T2 for T1, 60; X T1 1"),
            &["line 3 refused 10", "orders 2 families 1", "1.1 100 0 0 0 100 0 ABCD01 T1",
            "1.2 60 0 0 0 0 60 ABCD01 T2"]),
        prints("C of the same 30 twice after executing 30: the second is 11",
            capture("A T1 100; E T1 30; C T1 30; C T1 30"),
            &["line 4 refused 11", "orders 1 families 1", "1.1 100 30 30 0 0 70 ABCD01 T1"]),
        prints("C of one more than executed less broken is 11", capture("A T1 100; E T1 30; C T1 10; C T1 21; C T1 20"),
            &["line 4 refused 11", "orders 1 families 1", "1.1 100 30 30 0 0 70 ABCD01 T1"]),
        prints("Nothing broken returns to open", capture("A T1 100; E T1 100; C T1 100; E T1 1; X T1 1; R T1 1"),
            &["line 4 refused 10", "line 5 refused 10", "line 6 refused 10", "orders 1 families 1",
            "1.1 100 100 100 0 0 0 ABCD01 T1"]),
        prints("A second end of day is 6", capture("end of day; end of day; A T1 5"),
            &["line 2 refused 6", "line 3 refused 6", "orders 0 families 0"]),
        prints("A bad line after end of day is still 1, 2 or 3", bad_after_end,
            &["line 2 refused 1", "line 3 refused 2", "line 4 refused 3 field 15", "line 5 refused 6",
            "line 6 refused 6", "orders 0 families 0"]),
        prints("U and R with nothing open are 10", capture("A T1 100; X T1 100; U T2 for T1, 60; R T1 1"),
            &["line 3 refused 10", "line 4 refused 10", "orders 1 families 1", "1.1 100 0 0 100 0 0 ABCD01 T1"]),
        prints("An order is replaced once", capture("A T1 100; U T2 for T1, 60; U T3 for T1, 60; R T1 1"),
            &["line 3 refused 10", "line 4 refused 10", "orders 2 families 1", "1.1 100 0 0 0 100 0 ABCD01 T1",
            "1.2 60 0 0 0 0 60 ABCD01 T2"]),
        prints("R takes any Contracts and moves none", capture("A T1 5; R T1 999999"),
            &["orders 1 families 1", "1.1 5 0 0 0 0 5 ABCD01 T1"]),
        prints("An order with nothing open keeps its key", capture("A T1 5; E T1 5; A T1 5; A T2 5; U T1 for T2, 5"),
            &["line 3 refused 7", "line 5 refused 7", "orders 2 families 2", "1.1 5 5 0 0 0 0 ABCD01 T1",
            "2.1 5 0 0 0 0 5 ABCD01 T2"]),
        prints("E, C, X and R of an unknown key are 8", capture("A T1 5; E T2 1; C T2 1; X T2 1; R T2 1"),
            &["line 2 refused 8", "line 3 refused 8", "line 4 refused 8", "line 5 refused 8", "orders 1 families 1",
            "1.1 5 0 0 0 0 5 ABCD01 T1"]),
        prints("One token under two Sources is two orders", two_sources,
            &["line 5 refused 8", "line 6 refused 8", "orders 3 families 2", "1.1 5 1 0 0 0 4 ABCD01 T1",
            "2.1 7 0 0 0 7 0 ABCD02 T1", "2.2 9 9 0 0 0 0 ABCD02 T2"]),
        prints("U for an elder of another Source is 8",
            [piece("A T1 5"), other("U T2 for T1, 5", &[(10, "ABCD02")])].concat(),
            &["line 2 refused 8", "orders 1 families 1", "1.1 5 0 0 0 0 5 ABCD01 T1"]),
        prints("7 comes before 8", capture("A T1 5; U T1 for T2, 5"),
            &["line 2 refused 7", "orders 1 families 1", "1.1 5 0 0 0 0 5 ABCD01 T1"]),
        prints("9 comes before 10 and 11", sides,
            &["line 3 refused 9", "line 4 refused 9", "line 5 refused 9", "line 6 refused 9", "orders 1 families 1",
            "1.1 5 5 0 0 0 0 ABCD01 T1"]),
        prints("The largest figures",
            capture("A T1 999999; E T1 999999; C T1 999999; A T2 999999; U T3 for T2, 999999; X T3 999999"),
            &["orders 3 families 2", "1.1 999999 999999 999999 0 0 0 ABCD01 T1",
            "2.1 999999 0 0 0 999999 0 ABCD01 T2", "2.2 999999 0 0 999999 0 0 ABCD01 T3"]),
        prints("Families come by their first order",
            capture("A T1 1; A T2 2; U T3 for T2, 3; A T4 4; U T5 for T1, 5; U T6 for T3, 6"),
            &["orders 6 families 3", "1.1 1 0 0 0 1 0 ABCD01 T1", "1.2 5 0 0 0 0 5 ABCD01 T5",
            "2.1 2 0 0 0 2 0 ABCD01 T2", "2.2 3 0 0 0 3 0 ABCD01 T3", "2.3 6 0 0 0 0 6 ABCD01 T6",
            "3.1 4 0 0 0 0 4 ABCD01 T4"]),
        prints("The Source keeps its padding, the Token loses it", [padded, inner_space].concat(),
            &["orders 2 families 2", "1.1 5 0 0 0 0 5 A      a b                c", "2.1 5 0 0 0 0 5 A B~   T 1"]),
        prints("Pieces end at every LF and at the end", empty,
            &["line 1 refused 1", "line 3 refused 1", "line 4 refused 1", "line 5 refused 1", "orders 0 families 0"]),
        prints("A last line without its LF is 1", unfinished,
            &["line 2 refused 1", "orders 1 families 1", "1.1 5 0 0 0 0 5 ABCD01 T1"]),
        prints("A piece above 140 bytes is one refusal 1, however long", long,
            &["line 1 refused 1", "line 3 refused 1", "orders 1 families 1", "1.1 5 0 0 0 0 5 ABCD01 T2"]),
    ]
}

pub fn laws() -> [Law; 23] {
    [
        ("Another side or series is 9 on E, C, X, R and U, whichever field differs", others_are_refused),
        ("Order 512 is taken, order 513 is 12, and 12 comes after all others", a_table_fills),
        ("A family of 512 is listed from eldest to youngest", a_long_family),
        ("A and U set the price, and R changes it", prices_are_set),
        ("A failed read counts as the end, an interrupted one doesn't", failed_reads_end),
        ("Chunks of any size print the same", chunks_print_the_same),
        ("The streams hold every refusal from 1 to 13 but 4 and 5, and book every type", streams_hold_everything),
        ("Size is executed + cancelled + passed on + open, and broken never above executed", sums_hold),
        ("A refused line changes nothing", refusals_change_nothing),
        ("Every figure is what the accepted lines say", sheets_are_what_lines_say),
        ("Every order is listed once", orders_are_listed_once),
        ("Families come by the acceptance of their first order, each from eldest to youngest", families_come_in_order),
        ("The accepted lines alone give the same sheet and no refusal", accepted_lines_suffice),
        ("Quote row 128 is made, row 129 is 13, and the others go on", sections_fill),
        ("A row's executed reaches 4,294,967,295 and not 4,294,967,296", rows_reach_the_bound),
        ("Another side, series, Source or id has another row, whichever field differs", others_have_rows),
        ("A token is an id exactly when it is sixteen of 0-9 A-F and four spaces", ids_are_judged),
        (
            "A fair share of the streams' lines is about quote rows, and ids become orders by A and by U",
            streams_hold_quotes,
        ),
        ("No line of a quote row changes an order, and no line of an order a row", rows_and_orders_are_apart),
        ("Each quote row is listed once, below the families and by its first E", rows_are_listed_once),
        ("A long day is accepted to its last line", long_days_are_accepted),
        ("A day of orders alone in their families is accepted to its last line", days_alone_are_accepted),
        ("A day of quote rows alone is accepted to its last line", days_of_quotes_are_accepted),
    ]
}

fn others_are_refused() -> bool {
    let before = capture("A T1 100; E T1 30; A T3 5");
    ["E T1 1", "C T1 1", "X T1 1", "R T1 1", "U T2 for T1, 1"].iter().all(|words| {
        let refused = |change| refusals(&[&before[..], &other(words, &[change])].concat()) == ["line 4 refused 9"];
        refusals(&[&before[..], &piece(words)].concat()).is_empty() && OTHERS.into_iter().all(refused)
    })
}

/// What the sheet program prints before the sheet.
fn refusals(text: &[u8]) -> Vec<String> {
    printed(text).lines().take_while(|line| line.starts_with("line ")).map(str::to_string).collect()
}

fn a_table_fills() -> bool {
    let mut text: Vec<u8> = (1..=MOST).flat_map(|number| piece(&format!("A T{number} 100"))).collect();
    text.extend(capture("A T513 100; U T513 for T1, 60; U T513 for T514, 60; U T513 for T513, 60; A T1 100"));
    text.extend(other("U T513 for T1, 60", &[(14, "S")]));
    text.extend(capture("E T512 100; U T513 for T512, 60; X T1 10; R T1 10; E T513 1; A T513 0; end of day; A T513 1"));
    let expected = [
        "line 513 refused 12",
        "line 514 refused 12",
        "line 515 refused 8",
        "line 516 refused 8",
        "line 517 refused 7",
        "line 518 refused 9",
        "line 520 refused 10",
        "line 523 refused 8",
        "line 524 refused 3 field 15",
        "line 526 refused 6",
    ];
    let said = printed(&text);
    let last = "\n512.1 100 100 0 0 0 0 ABCD01 T512\n";
    refusals(&text) == expected && said.contains("\norders 512 families 512\n") && said.ends_with(last)
}

fn a_long_family() -> bool {
    let mut text = piece("A T1 1");
    text.extend((2..=MOST).flat_map(|number| piece(&format!("U T{number} for T{}, {number}", number - 1))));
    text.extend(capture("U T513 for T512, 1"));
    let mut expected = String::from("line 513 refused 12\norders 512 families 1\n");
    for number in 1..MOST {
        expected += &format!("1.{number} {number} 0 0 0 {number} 0 ABCD01 T{number}\n");
    }
    printed(&text) == expected + "1.512 512 0 0 0 0 512 ABCD01 T512\n"
}

fn prices_are_set() -> bool {
    let mut day = Day::default();
    let mut book = |words, price| {
        let result = day.book(&other(words, &[(22, price)]));
        let prices = day.orders().iter().map(|order| order.price).collect::<Vec<_>>();
        (result, prices)
    };
    book("A T1 100", "     10000") == (Ok(()), vec![10_000])
        && book("E T1 10", "     20000") == (Ok(()), vec![10_000])
        && book("R T1 1", "     00500") == (Ok(()), vec![500])
        && book("U T2 for T1, 60", "  12875000") == (Ok(()), vec![500, 12_875_000])
        && book("R T1 1", "     30000") == (Err(Refusal::TooLittleOpen), vec![500, 12_875_000])
        && book("R T2 1", "9999999999") == (Ok(()), vec![500, 9_999_999_999])
}

/// Fails with an error once, and has ended after it.
struct Failing(Option<ErrorKind>);

impl Read for Failing {
    fn read(&mut self, _: &mut [u8]) -> io::Result<usize> {
        self.0.take().map_or(Ok(0), |kind| Err(kind.into()))
    }
}

fn failed_reads_end() -> bool {
    let text = capture(WHOLE_CASE);
    let (read, rest) = text.split_at(LINE * 2 + 50);
    let broken_by = |kind| printed_of(read.chain(Failing(Some(kind))).chain(rest), 64);
    broken_by(ErrorKind::BrokenPipe) == printed(read) && broken_by(ErrorKind::Interrupted) == printed(&text)
}

fn chunks_print_the_same() -> bool {
    let text = stream_of(1, 300);
    let expected = printed(&text);
    (1..=2 * LINE + 3).chain([4_095, 4_096]).all(|chunk| printed_of(&text[..], chunk) == expected)
}

// The laws over streams.

fn stream_of(seed: u64, pieces: usize) -> Vec<u8> {
    let mut text = Vec::new();
    stream::write(seed, pieces, &mut text).expect("memory takes every byte");
    text
}

fn streams() -> impl Iterator<Item = Vec<u8>> {
    (1..=SEEDS).map(|seed| stream_of(seed, PIECES))
}

fn pieces(text: &[u8]) -> impl Iterator<Item = &[u8]> {
    text.split_inclusive(|byte| *byte == LF)
}

/// The day after a capture, and the pieces of it that were accepted.
fn booked(text: &[u8]) -> (Day, Vec<&[u8]>) {
    let mut day = Day::default();
    let accepted = pieces(text).filter(|piece| day.book(piece).is_ok()).collect();
    (day, accepted)
}

fn sheet_of(day: &Day) -> String {
    String::from_utf8(sheet::text(day)).expect("keys are printable")
}

fn streams_hold_everything() -> bool {
    let (mut refused, mut taken) = (BTreeSet::new(), BTreeSet::new());
    for text in streams() {
        let mut day = Day::default();
        for piece in pieces(&text) {
            match day.book(piece) {
                Ok(()) => taken.insert(piece.get(8).copied()),
                Err(refusal) => refused.insert(refusal.number()),
            };
        }
    }
    let types = b"ACERUX".iter().map(|letter| Some(*letter));
    refused.into_iter().eq([1, 2, 3, 6, 7, 8, 9, 10, 11, 12, 13])
        && taken.into_iter().eq([None].into_iter().chain(types))
}

fn sums_hold() -> bool {
    let adds_up = |figures: Figures| {
        let whole = figures.executed + figures.cancelled + figures.passed_on + figures.open;
        figures.size == whole && figures.broken <= figures.executed
    };
    streams().all(|text| {
        let mut day = Day::default();
        pieces(&text).all(|piece| {
            let unchanged = day.book(piece).is_err();
            let rows_hold = || day.rows().iter().all(|row| row.executed > 0 && row.broken <= row.executed);
            unchanged || day.orders().iter().all(|order| adds_up(order.figures)) && rows_hold()
        })
    })
}

fn refusals_change_nothing() -> bool {
    streams().all(|text| {
        let mut day = Day::default();
        let mut before = day.clone();
        pieces(&text).all(|piece| {
            if day.book(piece).is_err() {
                return day == before;
            }
            before = day.clone();
            true
        })
    })
}

fn sheets_are_what_lines_say() -> bool {
    streams().all(|text| {
        let (day, accepted) = booked(&text);
        sheet_of(&day) == told(&accepted)
    })
}

/// The sheet as the accepted lines tell it, by going through all of them for each figure. Nothing
/// of the day is used, and the places are those that 01 prints.
fn told(accepted: &[&[u8]]) -> String {
    let lines: Vec<_> =
        accepted.iter().map(|piece| String::from_utf8_lossy(piece)).filter(|line| line.len() == LINE).collect();
    let contracts = |line: &str| line[86..92].trim().parse::<u64>().unwrap_or(0);
    // What stands before the order's own line is about a quote row.
    let sum = |letter: &str, key: &str| -> u64 {
        let naming = lines.iter().filter(|line| &line[30..56] == key).skip_while(|line| !makes_order(line));
        naming.filter(|line| &line[8..9] == letter).map(|line| contracts(line)).sum()
    };
    let replaces =
        |line: &str, elder: &str| &line[8..9] == "U" && line[30..36] == elder[30..36] && line[56..76] == elder[36..56];
    let founders = || lines.iter().filter(|line| &line[8..9] == "A");
    let orders = founders().count() + lines.iter().filter(|line| &line[8..9] == "U").count();
    let mut said = format!("orders {orders} families {}\n", founders().count());
    for (family, founder) in (1..).zip(founders()) {
        let (mut member, mut next) = (0, Some(founder));
        while let Some(order) = next {
            member += 1;
            next = lines.iter().find(|line| replaces(line, order));
            let key = &order[30..56];
            let (size, executed, broken, cancelled) = (contracts(order), sum("E", key), sum("C", key), sum("X", key));
            let left = size - executed - cancelled;
            let (passed_on, open) = if next.is_some() { (left, 0) } else { (0, left) };
            said += &format!("{family}.{member} {size} {executed} {broken} {cancelled} {passed_on} {open} ");
            said += &format!("{} {}\n", &key[..6], key[6..].trim_end());
        }
    }
    said + &told_quotes(&lines)
}

fn makes_order(line: &str) -> bool {
    matches!(&line[8..9], "A" | "U")
}

/// The quote rows as the accepted lines tell them: an E or C is about one if no order had its key before.
fn told_quotes(lines: &[Cow<str>]) -> String {
    let (mut keys, mut rows) = (BTreeSet::new(), Vec::<(String, u64, u64)>::new());
    for line in lines {
        let key = &line[30..56];
        if makes_order(line) {
            keys.insert(key);
        }
        if keys.contains(key) {
            continue;
        }
        let name = [key, &line[85..86], &line[92..110]].concat();
        let contracts: u64 = line[86..92].trim().parse().unwrap_or(0);
        match rows.iter_mut().find(|row| row.0 == name) {
            Some(row) if &line[8..9] == "E" => row.1 += contracts,
            Some(row) => row.2 += contracts,
            None => rows.push((name, contracts, 0)),
        }
    }
    let row = |(name, executed, broken): &(String, u64, u64)| {
        format!("quote {} {executed} {broken} {}\n", &name[6..22], &name[..6])
    };
    rows.iter().map(row).collect()
}

/// A row of the sheet: its family, its place in it, and the place of its order in the table.
type Row = (usize, usize, usize);

/// Nothing if a row is not of the sheet's form, or names no order.
fn rows(day: &Day) -> Option<Vec<Row>> {
    let row = |line: &str| {
        let mut columns = line.splitn(8, ' ');
        let (family, member) = columns.next()?.split_once('.')?;
        let (source, token) = columns.nth(6)?.split_at_checked(6)?;
        let key = format!("{source}{:<20}", token.strip_prefix(' ')?);
        let place = day.place(key.as_bytes().try_into().ok()?)?;
        Some((family.parse().ok()?, member.parse().ok()?, place))
    };
    sheet_of(day).lines().skip(1).take_while(|line| !line.starts_with("quote ")).map(row).collect()
}

fn orders_are_listed_once() -> bool {
    streams().all(|text| {
        let (day, _) = booked(&text);
        let mut places: Vec<_> = rows(&day).into_iter().flatten().map(|(_, _, place)| place).collect();
        places.sort_unstable();
        places.into_iter().eq(0..day.orders().len())
    })
}

fn families_come_in_order() -> bool {
    streams().all(|text| {
        let (day, accepted) = booked(&text);
        let Some(rows) = rows(&day) else { return false };
        let elder = |place: usize| day.orders()[place].elder;
        let follows = |pair: &[Row]| {
            let ((family, member, place), next) = (pair[0], pair[1]);
            match elder(next.2) {
                Some(elder) => elder == place && (next.0, next.1) == (family, member + 1),
                None => (next.0, next.1) == (family + 1, 1),
            }
        };
        let founders: Vec<_> = rows.iter().filter(|row| row.1 == 1).map(|row| row.2).collect();
        let accepted_founders = accepted.iter().filter(|piece| piece.get(8) == Some(&b'A')).count();
        let first = rows.first().is_none_or(|row| *row == (1, 1, 0));
        first && rows.windows(2).all(follows) && founders.is_sorted() && founders.len() == accepted_founders
    })
}

fn accepted_lines_suffice() -> bool {
    streams().all(|text| {
        let (_, accepted) = booked(&text);
        let all = printed(&text);
        let sheet = all.lines().skip_while(|line| line.starts_with("line ")).map(|line| format!("{line}\n"));
        printed(&accepted.concat()) == sheet.collect::<String>()
    })
}

// Quote rows.

fn sections_fill() -> bool {
    let rows = || (1..=MOST_ROWS).flat_map(|number| piece(&format!("E Q{number:X} {number}")));
    let text: Vec<_> =
        rows().chain(capture("E Q81 1; C Q81 1; E Q80 1; C Q80 129; C Q80 1; A Q81 4; E Q81 4")).collect();
    let expected = ["line 129 refused 13", "line 130 refused 8", "line 133 refused 11"];
    let said = printed(&text);
    let last = "\n1.1 4 4 0 0 0 0 ABCD01 0000000000000081\nquote 0000000000000001 1 0 ABCD01\n";
    refusals(&text) == expected
        && said.contains(last)
        && said.ends_with("\nquote 0000000000000080 129 129 ABCD01\n")
        && said.lines().filter(|line| line.starts_with("quote ")).count() == 128
}

/// 4,294 lines of 999,999 leave 971,589 to the bound.
fn rows_reach_the_bound() -> bool {
    let mut day = Day::default();
    let taken = (0..4_294).all(|_| day.book(&piece("E QA1 999999")) == Ok(()));
    let mut book = |words: &str| day.book(&piece(words));
    taken
        && book("E QA1 971590") == Err(Refusal::FullRows)
        && book("E QA1 971589") == Ok(())
        && book("E QA1 1") == Err(Refusal::FullRows)
        && book("E QA2 999999") == Ok(())
        && book("C QA1 999999") == Ok(())
        && day.rows()[0].executed == u32::MAX
        && day.rows()[0].broken == 999_999
}

fn others_have_rows() -> bool {
    let sources = [(10, "ABCD02"), (10, "A     ")];
    let ids = [(11, "00000000000000A2    "), (11, "10000000000000A1    ")];
    OTHERS.into_iter().chain(sources).chain(ids).all(|change| {
        let mut day = Day::default();
        day.book(&piece("E QA1 5")) == Ok(())
            && day.book(&other("C QA1 5", &[change])) == Err(Refusal::UnknownKey)
            && day.book(&other("E QA1 7", &[change])) == Ok(())
            && day.book(&other("C QA1 6", &[change])) == Ok(())
            && day.book(&piece("C QA1 6")) == Err(Refusal::TooLittleExecuted)
            && day.rows().iter().map(|row| (row.executed, row.broken)).eq([(5, 0), (7, 6)])
    })
}

/// Every printable byte at every place of a token.
fn ids_are_judged() -> bool {
    (0..20).all(|at| {
        (0x20..=0x7E).all(|byte: u8| {
            let mut line = piece("E QA1 5");
            line[36 + at] = byte;
            let id = if at < 16 { byte.is_ascii_digit() || (b'A'..=b'F').contains(&byte) } else { byte == b' ' };
            // A token that begins with a space is no text.
            let refusal = if at == 0 && byte == b' ' { Refusal::Field(11) } else { Refusal::UnknownKey };
            Day::default().book(&line) == if id { Ok(()) } else { Err(refusal) }
        })
    })
}

fn streams_hold_quotes() -> bool {
    let mut by = BTreeSet::new();
    let fair = streams().all(|text| {
        let mut day = Day::default();
        let (mut booked, mut quotes) = (0, 0);
        for piece in pieces(&text) {
            let before = day.rows().to_vec();
            if day.book(piece).is_ok() {
                booked += 1;
                quotes += u32::from(day.rows() != before);
            }
            if piece.len() == LINE && before.iter().any(|row| row.quote.key == piece[30..56]) {
                by.insert((
                    piece[8],
                    day.rows() != before,
                    day.place(piece[30..56].try_into().expect("a key")).is_some(),
                ));
            }
        }
        // Of days that end early most lines come afterwards.
        booked < 500 || quotes * 10 > booked
    });
    // E and C on a row and on an order that took its key; A and U that take it.
    let wanted = [(b'E', true, false), (b'C', true, false), (b'E', false, true), (b'C', false, true)];
    fair && wanted.into_iter().chain([(b'A', false, true), (b'U', false, true)]).all(|way| by.contains(&way))
}

fn rows_and_orders_are_apart() -> bool {
    streams().all(|text| {
        let mut day = Day::default();
        pieces(&text).all(|piece| {
            let before = day.clone();
            if day.book(piece).is_err() || piece.len() != LINE {
                return true;
            }
            let key = piece[30..56].try_into().expect("a key");
            let same_orders = day.orders() == before.orders();
            let same_rows = day.rows() == before.rows();
            match (piece[8], before.place(key)) {
                (b'E' | b'C', None) => same_orders && !same_rows,
                _ => same_rows,
            }
        })
    })
}

fn rows_are_listed_once() -> bool {
    streams().all(|text| {
        let (day, _) = booked(&text);
        let sheet = sheet_of(&day);
        let listed: Vec<_> = sheet.lines().skip(1 + day.orders().len()).map(str::to_string).collect();
        let row = |row: &quotes::Row| {
            let (id, source) = (String::from_utf8_lossy(row.quote.id()), String::from_utf8_lossy(row.quote.source()));
            format!("quote {id} {} {} {source}", row.executed, row.broken)
        };
        listed == day.rows().iter().map(row).collect::<Vec<_>>()
    })
}

/// Whether all lines of long days are accepted, and whether the longer ones have all types and orders.
fn long_days_are_accepted() -> bool {
    [0, 1, 2, 100, 2_000, 20_000].into_iter().zip(1..).all(|(count, seed)| {
        let mut text = Vec::new();
        long_day::write(seed, count, &mut text).expect("memory takes every byte");
        let (day, accepted) = booked(&text);
        let types: BTreeSet<_> = accepted.iter().map(|piece| piece[8]).collect();
        let whole = accepted.len() == count as usize && text.len() == LINE * accepted.len();
        let full = day.orders().len() == 500 && types.into_iter().eq(*b"ACERUX");
        whole && !day.is_over() && (full || count < 2_000)
    })
}

/// Whether all lines of days about orders without a younger are accepted, and whether these orders come first.
fn days_alone_are_accepted() -> bool {
    let days = [(0, 1), (1, 1), (2_000, 1), (2_000, 16), (300, 512), (2_000, 512)];
    days.into_iter().zip(1..).all(|((count, orders), seed)| {
        let mut text = Vec::new();
        long_day::write_alone(seed, count, orders, &mut text).expect("memory takes every byte");
        let (day, accepted) = booked(&text);
        let whole = accepted.len() == count as usize && text.len() == LINE * accepted.len();
        let founding = accepted.iter().take(orders).all(|piece| piece[8] == b'A');
        let alone = day.orders().iter().all(|order| order.elder.is_none());
        whole && founding && alone && day.orders().len() == orders.min(accepted.len()) && !day.is_over()
    })
}

fn days_of_quotes_are_accepted() -> bool {
    [(0, 1), (1, 1), (2_000, 1), (100, 128), (5_000, 128)].into_iter().zip(1..).all(|((count, rows), seed)| {
        let mut text = Vec::new();
        long_day::write_quotes(seed, count, rows, &mut text).expect("memory takes every byte");
        let (day, accepted) = booked(&text);
        let whole = accepted.len() == count as usize && text.len() == LINE * accepted.len();
        whole && day.orders().is_empty() && day.rows().len() == rows.min(accepted.len()) && !day.is_over()
    })
}
