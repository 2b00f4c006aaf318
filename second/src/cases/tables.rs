//! Cases about lent tables: lengths, every refusal of booking, quote rows, sheets, and random traffic.

use crate::cases::case::{order_payload, patch_payload, room_payload, Written};
use crate::cases::contents::{broken, field, left, with};
use crate::cases::damages;
use crate::cases::hand::{Hand, ENTRIES};
use crate::cases::random::Random;
use crate::cases::shorthand::{capture, key, other, piece, OTHERS};
use crate::cases::sound_tables::{
    day_of, full_table, junk, random_day, random_day_with, rich_table, stored, RICH_ORDERS, RICH_ROWS,
};
use crate::cases::stream::Stream;
use crate::rules::day::{Day, MOST};
use crate::rules::fields::{CR_LF, FIELDS, LF, LINE, TOKEN};
use crate::rules::quotes::MOST_ROWS;
use crate::rules::sheet;
use crate::rules::table::{self, row, slot, HEADER, ROW, ROW_BROKEN, ROW_EXECUTED, SLOT, TABLE};
use crate::rules::trial::{LONGEST, LONGEST_TABLE, MOST_ANSWERS, WIDEST_OUTPUT};

/// How many tables the random traffic is booked on, and how many orders they begin with.
const TABLES: usize = 16;
const GIVEN: [usize; 8] = [0, 3, 40, 200, 400, 508, 511, 512];
/// The longest piece of the traffic, or little less.
const LONGEST_PIECE: usize = 2_000;
/// How many pieces of it are booked in one call, less one at most, and how many answers there is room for then.
const AT_ONCE: usize = 16;

/// Writes those that are no random ones.
pub fn bounds(random: &mut Random, hand: &mut Hand) -> Written {
    damages::bounds(random, hand)?;
    lengths(random, hand)?;
    any_bytes(random, hand)?;
    bookings(random, hand)?;
    bookings_when_full(random, hand)?;
    repeated_keys(random, hand)?;
    quotes(random, hand)?;
    quotes_when_full(random, hand)?;
    sums_of_quotes(random, hand)?;
    texts_at_once(random, hand)?;
    sheets(random, hand)?;
    bad_cases(random, hand)
}

/// Writes the random ones, with about a quarter as many booked pieces as the count says.
pub fn by_chance(count: u64, random: &mut Random, hand: &mut Hand) -> Written {
    damages::by_chance(count / 40, random, hand)?;
    hand.name("random traffic on random tables")?;
    for given in GIVEN.iter().cycle().take(TABLES) {
        let day = random_day(*given, random);
        traffic(day, count as usize / 4 / TABLES + 1, random, hand)?;
    }
    Ok(())
}

// Lengths and contents.

/// A sound table cut short or made longer: every entry, and making the empty table.
fn lengths(random: &mut Random, hand: &mut Hand) -> Written {
    let rich = rich_table(random);
    let orders_alone = row(0).start;
    let short = [0, 1, 7, HEADER, orders_alone - 1, orders_alone, orders_alone + 1, TABLE - ROW, TABLE - 1];
    for length in short.into_iter().chain([TABLE, TABLE + 1, TABLE + ROW, TABLE + SLOT, LONGEST_TABLE]) {
        hand.name(&format!("a table of {length} bytes"))?;
        let mut table = rich.clone();
        table.resize(length, 0);
        hand.take(table)?;
        hand.check()?;
        hand.ask_all()?;
        hand.make_empty()?;
        hand.check()?;
        hand.ask_all()?;
    }
    Ok(())
}

/// Any bytes: as they come, under a header that could be one, and as an empty table.
fn any_bytes(random: &mut Random, hand: &mut Hand) -> Written {
    hand.name("any bytes")?;
    for _ in 0..4 {
        hand.take(junk(random, TABLE))?;
        hand.check()?;
        hand.ask_all()?;
        for (count, rows) in [(1, 0), (2, 1), (9, 0), (511, 128), (512, 0), (0, 1), (0, 128), (0, 129)] {
            hand.patch(0, &[count as u8, (count >> 8) as u8, 0, 0, 0, rows, 0, 0])?;
            hand.check()?;
            hand.ask(random.below(ENTRIES))?;
        }
        hand.patch(0, &[0, 0, 0, 0, 1, 0, 0, 0])?;
        hand.check()?;
        hand.ask_all()?;
        hand.make_empty()?;
        hand.check()?;
        hand.ask_all()?;
        hand.show(0, 300)?;
        hand.show_row(0, 300)?;
    }
    for byte in [0, 1, b' ', b'A', 0xFF] {
        hand.take(vec![byte; TABLE])?;
        hand.check()?;
        hand.ask_all()?;
        hand.patch(0, &[1, 0, 0, 0, 0, 0, 0, 0])?;
        hand.check()?;
        hand.patch(0, &[0, 0, 0, 0, 0, 1, 0, 0])?;
        hand.check()?;
        hand.make_empty()?;
        hand.ask_all()?;
    }
    Ok(())
}

// Booking.

/// Books pieces one after another on the table in hand, shows the orders and the quote rows, and puts all back.
fn booked(name: &str, pieces: &[Vec<u8>], hand: &mut Hand) -> Written {
    let before = hand.table().to_vec();
    hand.name(name)?;
    for piece in pieces {
        hand.book(piece)?;
    }
    hand.check()?;
    hand.sheet(2_000)?;
    for place in 0..=RICH_ORDERS as u64 + 1 {
        hand.show(place, 80)?;
    }
    for place in 0..=RICH_ROWS as u64 + 1 {
        hand.show_row(place, 49)?;
    }
    hand.restore(&before)
}

/// The pieces of the shorthand one by one.
fn pieces(words: &str) -> Vec<Vec<u8>> {
    words.split("; ").map(piece).collect()
}

/// Every refusal of booking but 5 and 12, and both sides of its bound.
fn bookings(random: &mut Random, hand: &mut Hand) -> Written {
    hand.take(rich_table(random))?;
    let longer = [&piece("A T10 5")[..LINE - 2], b" \r\n"].concat();
    let no_pieces = [vec![], b"\n".to_vec(), b"\r".to_vec(), b"\r\n\r\n".to_vec(), vec![b' '; LINE], longer];
    let foreign = [0x1F, 0x7F, 0x0A, 0xFF].map(|byte| with(&piece("E T9 1"), 40..41, &[byte]));
    let fields: Vec<_> = FIELDS.iter().map(|field| with(&piece("E T9 1"), field.places(), &broken(field))).collect();
    let unlawful = [no_pieces.to_vec(), foreign.to_vec(), fields].concat();
    booked("1, 2 and 3, each field", &unlawful, hand)?;
    let ended =
        [pieces("end of day; end of day; A T10 5; E T9 1; U T10 for T9, 5; A T1 5; E T99 1"), unlawful].concat();
    booked("6 after end of day, but 1, 2 and 3 still", &ended, hand)?;
    for words in [
        "A T1 5; A T9 5; U T1 for T9, 5; U T9 for T9, 5; U T1 for T99, 5; U T8 for T4, 5",
        "A T2 5; A T10 5; A T10 5; U T11 for T10, 999999; A T10 1; U T10 for T11, 5",
        "E T99 1; C T99 1; X T99 1; R T99 1; U T10 for T99, 5; U T10 for T10, 5; E T2 1; U T10 for T2, 1",
        "E T9 51; E T9 50; E T9 1; X T9 1; R T9 1; U T10 for T9, 1",
        "X T9 51; X T9 50; X T9 1",
        "E T9 49; E T9 2; E T9 1",
        "X T1 1; E T1 1; R T1 1; U T10 for T1, 1; X T3 1; E T7 1; R T7 1; U T10 for T8, 1",
        "E T4 21; X T4 21; E T4 20; E T6 999999; E T6 1; C T6 999999; C T6 1",
        "C T1 21; C T1 20; C T1 20; C T1 1; C T9 1; C T3 1; C T7 1; C T7 1",
        "E T9 30; C T9 30; C T9 30; C T9 31; E T9 1; C T9 2; C T9 1",
        "U T10 for T4, 999999; X T4 1; U T11 for T10, 1; U T12 for T11, 1; E T12 1; U T13 for T12, 1",
        "R T9 999999; R T4 1; R T6 1",
        "end of day",
    ] {
        booked(words, &pieces(words), hand)?;
    }
    let priced = |words, price| other(words, &[(22, price)]);
    let prices = [
        priced("R T9 1", "     00000"),
        priced("R T4 1", "9999999999"),
        priced("R T1 1", "     10000"),
        priced("U T10 for T9, 5", "     00500"),
        priced("A T11 5", " 123456789"),
        priced("E T6 5", "     20000"),
    ];
    booked("A, U and R set the price", &prices, hand)?;
    for words in ["E T9 51", "C T9 51", "X T9 51", "R T9 1", "U T10 for T9, 5"] {
        let others = OTHERS.map(|change| other(words, &[change]));
        booked(&format!("9, each field: {words}"), &others, hand)?;
    }
    let one_token: Vec<_> = ["A T2 5", "A T9 5", "E T9 1", "E T2 1", "U T8 for T9, 5", "U T10 for T2, 1"]
        .into_iter()
        .flat_map(|words| ["AB D02", "ABCD03"].map(|source| other(words, &[(10, source)])))
        .collect();
    booked("One token under other Sources", &one_token, hand)
}

/// Order 512 and order 513, and what is refused before 12.
fn bookings_when_full(random: &mut Random, hand: &mut Hand) -> Written {
    let lines: Vec<_> = (1..MOST).flat_map(|number| piece(&format!("A T{number} 100"))).collect();
    hand.take(stored(&day_of(&lines), random))?;
    for words in [
        "A T512 7; A T513 7; U T513 for T1, 7; U T513 for T514, 7; U T513 for T513, 7; U T512 for T512, 7; A T512 7",
        "U T512 for T511, 7; U T513 for T512, 7; U T513 for T511, 7; E T512 7; U T513 for T512, 7; X T1 100; C T1 1",
        "A T512 7; R T512 1; E T511 100; C T511 100; end of day; A T513 7; end of day",
        "end of day; A T512 7",
    ] {
        booked(words, &pieces(words), hand)?;
    }
    let others = OTHERS.map(|change| other("U T513 for T1, 7", &[change]));
    booked("9 in a full table", &[vec![piece("A T512 7")], others.to_vec()].concat(), hand)?;
    hand.book(&piece("A T512 7"))?;
    for place in [510, 511, 512, 513] {
        hand.show(place, 80)?;
    }
    hand.look_up(&key("T512"))?;
    hand.sheet(WIDEST_OUTPUT as u32)
}

/// The earliest order with a key is found and booked, whatever the later ones are.
fn repeated_keys(random: &mut Random, hand: &mut Hand) -> Written {
    hand.take(rich_table(random))?;
    let events = "E T9 1; X T9 1; C T9 1; R T9 1; U T10 for T9, 5; A T9 5; E T7 1";
    let names = ["T1", "T3", "T4", "T5", "T6", "T7", "T8", "T9"];
    for places in [vec![6], vec![1], vec![0], vec![3], vec![5, 7], vec![4, 5, 6, 7], (0..8).collect()] {
        let before = hand.table().to_vec();
        for place in &places {
            hand.patch(slot(*place).start, &key("T9"))?;
        }
        for name in names {
            hand.look_up(&key(name))?;
        }
        booked(&format!("The key of T9 at {places:?} too"), &pieces(events), hand)?;
        hand.restore(&before)?;
    }
    Ok(())
}

// Quote rows.

/// Ids as tokens and tokens that are none, rows unlike in one thing, their refusals, and ids that become orders.
fn quotes(random: &mut Random, hand: &mut Hand) -> Written {
    hand.take(rich_table(random))?;
    for words in [
        "E QA1 1; E QA2 1; E QA3 999999; E QA3 999999; C QA3 999999; C QA3 999999; C QA3 1; E QA3 1; C QA3 2; C QA3 1",
        "C QA3 1; E QA3 1; C QA3 2; C QA3 1; C QA3 1",
        "C QA1 21; C QA1 20; C QA1 1; C QA2 51; C QA2 50; C QA2 1",
        "X QA1 1; R QA1 1; U T10 for QA1, 5; X QA9 1; R QA9 1; U T10 for QA9, 5; U QA9 for QA9, 5; U QA1 for QA1, 5",
        "A QA1 10; E QA1 11; E QA1 10; E QA1 1; C QA1 11; C QA1 10; C QA1 1; X QA1 1; R QA1 1; A QA1 5; E QA2 1",
        "U QA1 for T9, 10; E QA1 4; X QA1 1; R QA1 1; U T10 for QA1, 3; E QA1 1; C QA1 5; C QA1 4; E T10 3; E QA2 1",
        "A QA1 0; E QA1 1; A T1 5; E QA1 1; U QA1 for T99, 5; E QA1 1; U QA1 for T1, 5; E QA1 1",
        "A QA9 5; E QA9 6; E QA9 5; E QA9 1; C QA9 6; A QA9 1",
        "E QFEDCBA9876543210 3; C QFEDCBA9876543210 1; A QFEDCBA9876543210 3; C QFEDCBA9876543210 1; E QFEDCBA9876543210 2",
        "end of day; E QA1 1; C QA1 1; E QA9 1; C QA9 1; A QA1 1",
    ] {
        booked(words, &pieces(words), hand)?;
    }
    for words in ["E QA1 1", "C QA1 1", "E QA2 1", "C QA2 1"] {
        booked(&format!("other rows: {words}"), &OTHERS.map(|change| other(words, &[change])), hand)?;
        booked(&format!("fields broken: {words}"), &broken_fields(words), hand)?;
    }
    let taken = [vec![piece("A QA1 10")], OTHERS.map(|change| other("E QA1 1", &[change])).to_vec()].concat();
    booked("an order's other sides and series are 9, rows or not", &taken, hand)?;
    let sources: Vec<_> = ["E QA1 1", "C QA1 1", "A QA1 4", "E QA1 1", "C QA1 2", "C QA1 1"]
        .into_iter()
        .flat_map(|words| ["ABCD02", "ABCD03", "AB D02"].map(|source| other(words, &[(10, source)])))
        .collect();
    booked("one id under other Sources", &sources, hand)?;
    no_ids(hand)
}

fn broken_fields(words: &str) -> Vec<Vec<u8>> {
    FIELDS.iter().map(|field| with(&piece(words), field.places(), &broken(field))).collect()
}

/// Tokens that are no id, or barely one, on an E and on a C.
fn no_ids(hand: &mut Hand) -> Written {
    let id = b"00000000000000A1    ";
    let spoiled: Vec<_> = (0..20)
        .flat_map(|at| b"/09:@AFG`afg ".iter().map(move |byte| with(id, at..at + 1, &[*byte])))
        .chain(["T1", "0123456789ABCDE", "0123456789ABCDEF0", "0123456789abcdef", "0"].map(|token| left(token, 20)))
        .collect();
    let before = hand.table().to_vec();
    for letter in ["E", "C"] {
        hand.name(&format!("tokens that are no id, or barely one: {letter}"))?;
        for token in &spoiled {
            hand.book(&with(&piece(&format!("{letter} QA1 1")), field(TOKEN).places(), token))?;
            hand.restore(&before)?;
        }
    }
    Ok(())
}

/// A row for each of so many ids.
fn ids(count: usize) -> Vec<u8> {
    (1..=count).flat_map(|number| piece(&format!("E Q{number:X} {number}"))).collect()
}

/// Row 128 and row 129, in tables with no order, a few and 512.
fn quotes_when_full(random: &mut Random, hand: &mut Hand) -> Written {
    let orders: Vec<_> = (1..=MOST).flat_map(|number| piece(&format!("A T{number} 100"))).collect();
    for (name, lines) in [("no order", vec![]), ("an order", piece("A T1 5")), ("512 orders", orders)] {
        hand.take(stored(&day_of(&[lines, ids(MOST_ROWS - 1)].concat()), random))?;
        for words in [
            "E Q80 5; E Q81 5; C Q81 1; E Q80 6; C Q80 11; C Q1 1; C Q1 1; E Q1 1; X Q81 1; A Q81 9; E Q81 9; A Q82 1; E Q81 1",
            "C Q80 5; E QFFFFFFFFFFFFFFFF 5; E Q80 5; end of day; E Q81 5; E Q1 1",
        ] {
            booked(&format!("{name}: {words}"), &pieces(words), hand)?;
        }
        let others = OTHERS.map(|change| other("E Q1 1", &[change])).to_vec();
        booked(&format!("{name}: another side or series needs a row"), &others, hand)?;
        hand.book(&piece("E Q80 5"))?;
        hand.book_all(4, &capture("E Q81 5; E Q7F 1; C Q80 5; E Q82 5"))?;
        for place in [0, 126, 127, 128, 129, 255, 256] {
            hand.show_row(place, 49)?;
        }
        hand.check()?;
        hand.sheet(WIDEST_OUTPUT as u32)?;
    }
    Ok(())
}

/// Lent rows whose executed is near 2 to the 32.
fn sums_of_quotes(random: &mut Random, hand: &mut Hand) -> Written {
    hand.take(rich_table(random))?;
    for (executed, broken) in
        [(6, 0), (5, 6), (1, 1), (0, 0), (0, 999_999), (999_999, 1), (999_998, 999_999), (1 << 31, 0)]
    {
        let figures = [u32::MAX - executed, u32::MAX - executed - broken];
        let at = row(0).start;
        hand.patch(at + ROW_EXECUTED, &figures[0].to_le_bytes())?;
        hand.patch(at + ROW_BROKEN, &figures[1].to_le_bytes())?;
        let words = "E QA1 7; E QA1 6; E QA1 5; E QA1 1; C QA1 7; C QA1 6; C QA1 1; E QA1 999999; C QA1 999999; E QA1 1; C QA1 1";
        booked(&format!("{figures:?}: {words}"), &pieces(words), hand)?;
    }
    Ok(())
}

// Texts in one call.

/// How many answers: none, one, fewer than the text has pieces, as many, and more.
fn rooms(text: &[u8]) -> [u16; 6] {
    let pieces = text.split_inclusive(|byte| *byte == LF).count() as u16;
    [0, 1, pieces.saturating_sub(1), pieces, pieces + 1, MOST_ANSWERS as u16]
}

/// Texts of no piece, of one and of many; too long pieces, and a last one that is cut. Each into tables of any contents
/// and lengths, with every room; and the same text again in its pieces.
fn texts_at_once(random: &mut Random, hand: &mut Hand) -> Written {
    let line = piece("A T10 5");
    let lines = capture("E T9 1; E T9 50; A T10 5; U T11 for T10, 6; A T10 7; E T99 1; X T11 7; R T11 1; C T9 1");
    let quotes = capture("E QA1 1; C QA1 22; C QA1 21; E QA9 5; A QA9 5; E QA9 6; E QA9 5; C QA8 1; E QA8 9; X QA8 1");
    let many: Vec<_> = (20..40).flat_map(|number| piece(&format!("A T{number} {number}"))).collect();
    let long = [line.clone(), vec![b'x'; 3_000], CR_LF.to_vec(), line[..LINE - 2].repeat(3), lines.clone()].concat();
    let cut: Vec<_> = [1, 2, 139].map(|left| [&lines[..], &piece("A T12 5")[..left]].concat()).into();
    let ended = [lines.clone(), CR_LF.to_vec(), lines.clone(), CR_LF.to_vec()].concat();
    let foreign = with(&lines, LINE + 40..LINE + 41, b"\x7F");
    let short: [&[u8]; 6] = [b"", b"\n", b"x", CR_LF, b"\n\n\r\n\n", &[LF; 990]];
    let texts: Vec<_> = short
        .map(<[u8]>::to_vec)
        .into_iter()
        .chain([line, lines, quotes, many, long, ended, foreign])
        .chain(cut)
        .collect();
    let rich = rich_table(random);
    let mut damaged = rich.clone();
    damaged[4] = 2;
    let tables = [
        ("the rich table", rich.clone()),
        ("a table of 505 orders", stored(&random_day_with(MOST - 7, MOST_ROWS - 1, random), random)),
        ("a full table", full_table(random)),
        ("the empty table", stored(&Day::default(), random)),
        ("a damaged table", damaged),
        ("a table that is cut", rich[..TABLE - 1].to_vec()),
        ("no table", vec![]),
    ];
    for (name, table) in tables {
        hand.name(&format!("texts in one call into {name}"))?;
        hand.take(table.clone())?;
        for text in &texts {
            for room in rooms(text) {
                hand.book_all(room, text)?;
                hand.restore(&table)?;
            }
            one_after_another(text, hand)?;
            hand.restore(&table)?;
        }
    }
    Ok(())
}

/// The first pieces of a text, each by itself.
fn one_after_another(text: &[u8], hand: &mut Hand) -> Written {
    text.split_inclusive(|byte| *byte == LF).take(20).try_for_each(|piece| hand.book(piece))
}

// Sheets.

/// Buffers around the length of the sheet: of no order, a few, many single ones, long families; with quote rows and
/// without.
fn sheets(random: &mut Random, hand: &mut Hand) -> Written {
    let empty = stored(&Day::default(), random);
    let rich = rich_table(random);
    let full = [full_table(random), full_table(random), full_table(random)];
    let quotes = stored(&day_of(&ids(MOST_ROWS)), random);
    let orders = stored(&random_day_with(9, 0, random), random);
    for table in [empty, rich, quotes, orders].into_iter().chain(full) {
        let length = table::load(&table).map_or(0, |day| sheet::text(&day).len()) as u32;
        hand.name(&format!("a sheet of {length} bytes"))?;
        hand.take(table)?;
        for room in [0, 1, 19, 20, 21, length / 2, length - 1, length, length + 1, length + 100, 59_999, 60_000] {
            hand.sheet(room)?;
        }
    }
    Ok(())
}

// Cases that are none.

fn bad_cases(random: &mut Random, hand: &mut Hand) -> Written {
    hand.name("bad cases of tables")?;
    let table = rich_table(random);
    let end = TABLE as u32;
    hand.take(table.clone())?;
    for length in [LONGEST_TABLE + 1, LONGEST] {
        hand.put(b't', &vec![0; length])?;
        hand.check()?;
    }
    for (at, length) in [(end - 1, 2), (end, 1), (end + 1, 1), (0, TABLE + 1), (u32::MAX, 1), (u32::MAX - 1, 2)] {
        hand.put(b'p', &patch_payload(at, &vec![0xFF; length]))?;
    }
    for (at, length) in [(0, 0), (end, 0), (end - 1, 1), (0, TABLE)] {
        hand.put(b'p', &patch_payload(at, &table[table.len() - length..]))?;
    }
    for payload in [b"".as_slice(), b"\0", b"\0\0\0"] {
        hand.put(b'p', payload)?;
    }
    for kind in *b"ed" {
        hand.put(kind, b"\0")?;
    }
    for length in [0, 1, 8, 9, 11, 12, 90] {
        hand.put(b'o', &vec![0; length])?;
        hand.put(b'q', &vec![0; length])?;
    }
    for room in [0, 1, 48, 49, 50, 299, 300, 301, 305, 65_535] {
        hand.put(b'q', &order_payload(4, room))?;
    }
    for place in [4, 5, 127, 128, 260, 1 << 16, 1 << 32, (1 << 32) + 4, 1 << 63, u64::MAX] {
        hand.show_row(place, 48)?;
        hand.show_row(place, 49)?;
    }
    for room in [0, 1, 79, 80, 81, 299, 300, 301, 336, 65_535] {
        hand.put(b'o', &order_payload(8, room))?;
    }
    for place in [8, 9, 511, 512, 1 << 16, 1 << 32, 1 << 63, u64::MAX] {
        hand.show(place, 79)?;
        hand.show(place, 80)?;
    }
    for length in [0, 1, 3, 5, 8] {
        hand.put(b'h', &vec![0; length])?;
    }
    for room in [1_001, 1_024, 65_535] {
        hand.put(b'a', &room_payload(room, b"A"))?;
    }
    for payload in [b"".as_slice(), b"\0", b"\0\0"] {
        hand.put(b'a', payload)?;
    }
    for room in [60_001, 65_536, 1 << 16 | 600, u32::MAX] {
        hand.sheet(room)?;
    }
    for length in [0, 1, 6, 20, 25, 26, 27, 52, LONGEST] {
        hand.look_up(&key("T9").repeat(LONGEST / 26 + 1)[..length])?;
    }
    hand.book(&piece("A T10 5").repeat(LONGEST / LINE + 1)[..LONGEST])
}

// Random traffic.

/// Books a stream on a day's table, other questions between the pieces.
fn traffic(day: Day, count: usize, random: &mut Random, hand: &mut Hand) -> Written {
    hand.take(stored(&day, random))?;
    let mut stream = Stream::on(day, random.next(), count, LONGEST_PIECE);
    while let Some(bytes) = stream.next() {
        if random.once_in(64) {
            // All at once is another piece, or the same.
            hand.book(&[bytes.as_slice(), CR_LF].concat())?;
        }
        if random.once_in(8) {
            let more = random.below(AT_ONCE);
            let text = [bytes, stream.by_ref().take(more).flatten().collect()].concat();
            in_calls(&text, random, hand)?;
            continue;
        }
        for piece in bytes.split_inclusive(|byte| *byte == LF) {
            hand.book(piece)?;
        }
        if random.once_in(2) {
            question(stream.day(), random, hand)?;
        }
    }
    hand.sheet(WIDEST_OUTPUT as u32)
}

/// Books a text in calls with room for any number of answers, each behind what the one before used.
fn in_calls(text: &[u8], random: &mut Random, hand: &mut Hand) -> Written {
    let mut pieces = text.split_inclusive(|byte| *byte == LF);
    let mut rest = text;
    while !rest.is_empty() {
        let room = random.below(AT_ONCE);
        hand.book_all(room as u16, rest)?;
        rest = &rest[pieces.by_ref().take(room).map(<[u8]>::len).sum()..];
    }
    Ok(())
}

fn question(day: &Day, random: &mut Random, hand: &mut Hand) -> Written {
    match random.below(32) {
        0..=13 => hand.look_up(&some_key(day, random)),
        14..=20 => {
            let place = random.below(day.rows().len() + 2) as u64;
            let room = if random.once_in(8) { *random.pick(&[0, 48, 50, 300]) } else { 49 };
            hand.show_row(place, room)
        }
        21..=27 => {
            let place = random.below(day.orders().len() + 2) as u64;
            let room = if random.once_in(8) { *random.pick(&[0, 79, 81, 300]) } else { 80 };
            hand.show(place, room)
        }
        28 => hand.check(),
        29 => {
            let length = sheet::text(day).len() as u32;
            let rooms = [0, length - 1, length, length + 1, WIDEST_OUTPUT as u32];
            hand.sheet(*random.pick(&rooms))
        }
        _ => {
            let before = hand.table().to_vec();
            let orders = random.below(slot(day.orders().len()).start);
            let rows = row(0).start + random.below(ROW * day.rows().len().max(1));
            hand.patch(*random.pick(&[orders, rows]), &[random.any() as u8])?;
            hand.check()?;
            hand.ask(random.below(ENTRIES))?;
            hand.restore(&before)
        }
    }
}

/// Mostly the key of an order, as it is or with one byte changed, cut off or added.
fn some_key(day: &Day, random: &mut Random) -> Vec<u8> {
    if day.orders().is_empty() {
        return key("T1").to_vec();
    }
    let mut key = random.pick(day.orders()).key.to_vec();
    match random.below(8) {
        0 => key.truncate(random.below(26)),
        1 => key.push(b' '),
        2 => key[random.below(26)] = random.next() as u8,
        _ => {}
    }
    key
}
