//! Vectors for the quote rows, one or more for each sentence of 02, Ticket 1, with their answers written by hand.

use crate::cases::case::{capture_payload, order_payload, patch_payload};
use crate::cases::shorthand::{capture, other, padded, piece, OTHERS};
use crate::cases::vectors::{patched, says, sums, Vector};
use crate::rules::table::{row, slot, ROW_BROKEN, ROW_EXECUTED, TABLE};

const ID: &str = "0123456789ABCDEF";
/// The row of id A2 after `E QA2 5` and `C QA2 2`, as it stands in the table.
const ROW_STORED: &[u8; 49] = b"ABCD0100000000000000A2    BMSFT  G\x1B\x09C\xB6\x23\x03\0\x05\0\0\0\x02\0\0\0";
const MOST: u32 = 4_294_967_295;

pub fn quotes() -> Vec<Vector> {
    let parts = [captures(), tables(), damages(), sums_near_the_bound(), full_section(), damaged_tables()];
    parts.into_iter().flatten().collect()
}

/// All that the sheet program prints for a capture.
fn prints(name: &'static str, text: &[u8], lines: &[&str]) -> Vector {
    let lines: String = lines.iter().map(|line| format!("{line}\n")).collect();
    says(name, b'c', capture_payload(100, &[140], text), format!("fed [{lines}]"))
}

/// An E of a token that is no id, whose key is in no order.
fn no_id(name: &'static str, token: &str) -> Vector {
    let text = other("E T1 5", &[(11, &format!("{token:<20}"))]);
    prints(name, &text, &["line 1 refused 8", "orders 0 families 0"])
}

#[rustfmt::skip]
fn captures() -> Vec<Vector> {
    let full_id = format!("E Q{ID} 5; C Q{ID} 2");
    let sources = [piece("E QA1 5"), other("E QA1 6", &[(10, "ABCD02")]), other("E QA1 7", &[(10, "A B   ")])].concat();
    let sides = [piece("E QA1 5"), other("E QA1 6", &[(14, "S")]), other("C QA1 6", &[(14, "S")]), other("C QA1 1", &[(14, "S")])].concat();
    let series: Vec<_> = OTHERS[1..].iter().flat_map(|change| other("E QA1 5", &[*change])).collect();
    let other_breaks: Vec<_> = OTHERS.iter().flat_map(|change| other("C QA1 5", &[*change])).collect();
    let taken_over = [capture("E QA1 5; A QA1 100"), other("E QA1 5", &[(14, "S")]), other("C QA1 5", &[(21, "205751")]), capture("E QA1 7")].concat();
    let other_source = [capture("E QA1 5; C QA1 1"), other("A QA1 9", &[(10, "ABCD02")]), capture("E QA1 5"), other("E QA1 9", &[(10, "ABCD02")])].concat();
    let empty = "orders 0 families 0";
    vec![
        prints("Fills with no order: an E makes a quote row", &piece("E QA1 5"), &[empty, "quote 00000000000000A1 5 0 ABCD01"]),
        prints("The id is 16 characters 0-F, padded with spaces", &capture(&full_id), &[empty, "quote 0123456789ABCDEF 5 2 ABCD01"]),
        prints("Sixteen 0, and sixteen F", &capture("E Q0 1; E QFFFFFFFFFFFFFFFF 2"),
            &[empty, "quote 0000000000000000 1 0 ABCD01", "quote FFFFFFFFFFFFFFFF 2 0 ABCD01"]),
        no_id("15 characters are no id", &ID[..15]),
        no_id("17 characters are no id", "0123456789ABCDEF0"),
        no_id("20 characters are no id", "0123456789ABCDEF0123"),
        no_id("Lower case is no id", "0123456789abcdef"),
        no_id("One character in lower case is no id", "0123456789ABCDEf"),
        no_id("G is no character of an id", "0123456789ABCDEG"),
        no_id("An inner space is no character of an id", "01234567 9ABCDEF"),
        no_id("Text behind the padding is no id", "0123456789ABCDEF   0"),
        prints("A row for each Source", &sources,
            &[empty, "quote 00000000000000A1 5 0 ABCD01", "quote 00000000000000A1 6 0 ABCD02", "quote 00000000000000A1 7 0 A B   "]),
        prints("A row for each id", &capture("E QA1 5; E QA2 6; E QA1 7"),
            &[empty, "quote 00000000000000A1 12 0 ABCD01", "quote 00000000000000A2 6 0 ABCD01"]),
        prints("A row for each side", &sides,
            &["line 4 refused 11", empty, "quote 00000000000000A1 5 0 ABCD01", "quote 00000000000000A1 6 6 ABCD01"]),
        prints("A row for each series", &[piece("E QA1 1"), series, piece("E QA1 2")].concat(),
            &[empty, "quote 00000000000000A1 3 0 ABCD01", "quote 00000000000000A1 5 0 ABCD01", "quote 00000000000000A1 5 0 ABCD01",
            "quote 00000000000000A1 5 0 ABCD01", "quote 00000000000000A1 5 0 ABCD01", "quote 00000000000000A1 5 0 ABCD01",
            "quote 00000000000000A1 5 0 ABCD01"]),
        prints("C must find its row", &capture("C QA1 1; E QA1 5; C QA2 1; C QA1 1"),
            &["line 1 refused 8", "line 3 refused 8", empty, "quote 00000000000000A1 5 1 ABCD01"]),
        prints("A C of another side or series finds no row: 8, and never 9", &[piece("E QA1 5"), other_breaks].concat(),
            &["line 2 refused 8", "line 3 refused 8", "line 4 refused 8", "line 5 refused 8", "line 6 refused 8", "line 7 refused 8",
            "line 8 refused 8", empty, "quote 00000000000000A1 5 0 ABCD01"]),
        prints("C above executed less broken is 11, as for orders", &capture("E QA1 30; C QA1 31; C QA1 10; C QA1 21; C QA1 20; C QA1 1"),
            &["line 2 refused 11", "line 4 refused 11", "line 6 refused 11", empty, "quote 00000000000000A1 30 30 ABCD01"]),
        prints("Broken contracts return nowhere", &capture("E QA1 30; C QA1 30; E QA1 1; C QA1 1"), &[empty, "quote 00000000000000A1 31 31 ABCD01"]),
        prints("X, R and U about an id in no order are 8", &capture("E QA1 5; X QA1 1; R QA1 1; U T1 for QA1, 5; U QA1 for QA1, 5"),
            &["line 2 refused 8", "line 3 refused 8", "line 4 refused 8", "line 5 refused 8", empty, "quote 00000000000000A1 5 0 ABCD01"]),
        prints("Orders are looked up first", &capture("A QA1 10; E QA1 4; C QA1 1; X QA1 1; R QA1 1; E QA1 6; C QA1 4"),
            &["line 6 refused 10", "line 7 refused 11", "orders 1 families 1", "1.1 10 4 1 1 0 5 ABCD01 00000000000000A1"]),
        prints("A later A takes the lines that follow, and the row stays", &capture("E QA1 5; C QA1 2; A QA1 10; E QA1 4; C QA1 3; C QA1 5; E QA1 7"),
            &["line 6 refused 11", "line 7 refused 10", "orders 1 families 1", "1.1 10 4 3 0 0 6 ABCD01 00000000000000A1",
            "quote 00000000000000A1 5 2 ABCD01"]),
        prints("A later U takes the lines that follow, and the row stays",
            &capture("A T1 10; E QA1 5; U QA1 for T1, 8; E QA1 3; C QA1 4; C QA1 3; U T2 for QA1, 5; E QA1 1; E T2 5"),
            &["line 5 refused 11", "line 8 refused 10", "orders 3 families 1", "1.1 10 0 0 0 10 0 ABCD01 T1",
            "1.2 8 3 3 0 5 0 ABCD01 00000000000000A1", "1.3 5 5 0 0 0 0 ABCD01 T2", "quote 00000000000000A1 5 0 ABCD01"]),
        prints("It takes those of another side or series too: 9", &taken_over,
            &["line 3 refused 9", "line 4 refused 9", "orders 1 families 1", "1.1 100 7 0 0 0 93 ABCD01 00000000000000A1",
            "quote 00000000000000A1 5 0 ABCD01"]),
        prints("An A of another Source takes none of them", &other_source,
            &["orders 1 families 1", "1.1 9 9 0 0 0 0 ABCD02 00000000000000A1", "quote 00000000000000A1 10 1 ABCD01"]),
        prints("A refused A or U takes none of them", &capture("E QA1 5; A QA1 0; U QA1 for T1, 5; E QA1 1"),
            &["line 2 refused 3 field 15", "line 3 refused 8", empty, "quote 00000000000000A1 6 0 ABCD01"]),
        prints("A row is no order: its key is free for an A", &capture("E QA1 5; A QA1 5; A QA1 5"),
            &["line 3 refused 7", "orders 1 families 1", "1.1 5 0 0 0 0 5 ABCD01 00000000000000A1", "quote 00000000000000A1 5 0 ABCD01"]),
        prints("N and F count orders alone, and the rows stand below the families",
            &capture("E QA2 1; A T1 5; E QA1 2; U T2 for T1, 6; E QA2 3; A T3 7; C QA1 1"),
            &["orders 3 families 2", "1.1 5 0 0 0 5 0 ABCD01 T1", "1.2 6 0 0 0 0 6 ABCD01 T2", "2.1 7 0 0 0 0 7 ABCD01 T3",
            "quote 00000000000000A2 4 0 ABCD01", "quote 00000000000000A1 2 1 ABCD01"]),
        prints("Each row appears once, by first E", &capture("E QA2 1; E QA3 1; E QA1 1; C QA2 1; E QA3 1; E QA1 1; E QA2 1"),
            &[empty, "quote 00000000000000A2 2 1 ABCD01", "quote 00000000000000A3 2 0 ABCD01", "quote 00000000000000A1 2 0 ABCD01"]),
        prints("The sums are those of its accepted lines", &capture("E QA1 5; E QA1 0; C QA1 6; C QA1 4; C QA1 2; E QA1 999999"),
            &["line 2 refused 3 field 15", "line 3 refused 11", "line 5 refused 11", empty, "quote 00000000000000A1 1000004 4 ABCD01"]),
        prints("An empty section prints nothing", &capture("A T1 5; C QA1 1"),
            &["line 2 refused 8", "orders 1 families 1", "1.1 5 0 0 0 0 5 ABCD01 T1"]),
        prints("After end of day an E or C of a quote is 6", &capture("E QA1 5; end of day; E QA1 1; C QA1 1; E QA2 1; C QA2 1"),
            &["line 3 refused 6", "line 4 refused 6", "line 5 refused 6", "line 6 refused 6", empty, "quote 00000000000000A1 5 0 ABCD01"]),
    ]
}

fn books(words: &'static str, before: &'static str) -> Vector {
    sums(words, b'b', piece(words), before, "")
}

/// The section in the table, from the empty one on, and what the entries answer.
#[rustfmt::skip]
fn tables() -> Vec<Vector> {
    let sheet = |room: u32| room.to_le_bytes().to_vec();
    let rows = "orders 0 families 0\nquote 00000000000000A1 30 0 ABCD01\nquote 00000000000000A2 5 2 ABCD01\n";
    let whole = [&b"quote 49 done ["[..], ROW_STORED, b"]"].concat();
    let more = [&b"quote 51 done ["[..], ROW_STORED, b"..]"].concat();
    let third = b"quote 49 done [ABCD0100000000000000A3    BMSFT  G\x1B\x09C\xB6\x23\x03\0\x01\0\0\0\0\0\0\0]";
    let untouched = |room: usize, refusal: u8| format!("quote {room} refused {refusal} [{}]", ".".repeat(room));
    vec![
        sums("A table of 47,240 bytes, all of them FF", b't', vec![0xFF; TABLE], "table 47240", ""),
        says("It has no quote row to show", b'q', order_payload(0, 49), untouched(49, 5)),
        sums("Made empty", b'e', vec![], "empty done", ""),
        says("it is undamaged: free rows may hold any bytes", b'd', vec![], "undamaged"),
        says("and has no quote row", b'q', order_payload(0, 49), untouched(49, 8)),
        books("C QA1 1", "book refused 8"),
        books("E QA1 30", "book done"),
        books("E QA2 5", "book done"),
        books("C QA2 6", "book refused 11"),
        books("C QA2 2", "book done"),
        says("A table with quote rows is undamaged", b'd', vec![], "undamaged"),
        says("The second row in its place", b'q', order_payload(1, 49), whole),
        says("Only its 49 bytes change", b'q', order_payload(1, 51), more),
        says("48 bytes are too few", b'q', order_payload(1, 48), untouched(48, 4)),
        says("There is no third row", b'q', order_payload(2, 49), untouched(49, 8)),
        says("48 bytes are refused before a missing row", b'q', order_payload(2, 48), untouched(48, 4)),
        says("nor is there one at 2 to the 32", b'q', order_payload(1 << 32, 49), untouched(49, 8)),
        says("nor at 2 to the 64 less 1", b'q', order_payload(u64::MAX, 49), untouched(49, 8)),
        says("A row is at no order's place", b'o', order_payload(0, 80), format!("order 80 refused 8 [{}]", ".".repeat(80))),
        says("A lookup finds no row", b'l', [b"ABCD01", padded("QA1").as_bytes()].concat(), "lookup refused 8 left 7"),
        says("A buffer of 301 for a row is a bad case", b'q', order_payload(1, 301), "bad case"),
        says("A row's place of 7 bytes is a bad case", b'q', vec![0; 7], "bad case"),
        says("A row with a byte behind N is a bad case", b'q', [order_payload(0, 49), vec![0]].concat(), "bad case"),
        sums("The sheet with its quote rows", b'h', sheet(89), "sheet 89 done 89", &format!(" [{rows}]")),
        sums("A buffer too short for the last row", b'h', sheet(88), "sheet 88 refused 4 left 7", " []"),
        sums("A text of quotes in one call", b'a', [&[4, 0][..], &capture("E QA3 1; C QA3 2; C QA4 1; X QA3 1")].concat(), "all 4 done 560 4", " [ 0 11 8 8]"),
        says("The third row is there now", b'q', order_payload(2, 49), third),
    ]
}

/// Each rule of 02, Ticket 1 about damage, on the three rows of the table before: A1 with 30, A2 with 5 of which 2 are
/// broken, A3 with 1.
#[rustfmt::skip]
fn damages() -> Vec<Vector> {
    let in_row = |place, part| row(place).start + part;
    let number = |number: u32| number.to_le_bytes().to_vec();
    let bytes = |bytes: &[u8]| bytes.to_vec();
    let (damaged, undamaged) = ("damaged", "undamaged");
    [
        ("128 rows, of which most are none", 5, [bytes(&[128]), bytes(&[3])], damaged),
        ("Two rows", 5, [bytes(&[2]), bytes(&[3])], undamaged),
        ("No row", 5, [bytes(&[0]), bytes(&[3])], undamaged),
        ("129 rows", 5, [bytes(&[129]), bytes(&[3])], damaged),
        ("255 rows", 5, [bytes(&[255]), bytes(&[3])], damaged),
        ("A byte of the header behind the rows' count", 6, [bytes(&[1]), bytes(&[0])], damaged),
        ("The last byte of the header", 7, [bytes(&[1]), bytes(&[0])], damaged),
        ("Two rows alike in Source, id, side and series", in_row(1, 21), [bytes(b"1"), bytes(b"2")], damaged),
        ("The same with the third, which is neighbour of neither", in_row(2, 21), [bytes(b"1"), bytes(b"3")], damaged),
        ("Two rows of one id and two Sources", in_row(1, 5), [bytes(b"200000000000000A1"), bytes(b"100000000000000A2")], undamaged),
        ("Two rows of one id and two sides", in_row(1, 21), [bytes(b"1    S"), bytes(b"2    B")], undamaged),
        ("Two rows of one id and two roots", in_row(1, 21), [bytes(b"1    BMSFT1"), bytes(b"2    BMSFT ")], undamaged),
        ("A Source that begins with a space", in_row(1, 0), [bytes(b" "), bytes(b"A")], damaged),
        ("A Source with a byte outside 20 to 7E", in_row(1, 5), [bytes(b"\x7F"), bytes(b"1")], damaged),
        ("A Source with an inner space", in_row(1, 4), [bytes(b" "), bytes(b"0")], undamaged),
        ("An id with a lower case letter", in_row(1, 20), [bytes(b"a"), bytes(b"A")], damaged),
        ("An id with a G", in_row(1, 20), [bytes(b"G"), bytes(b"A")], damaged),
        ("An id of 15 characters", in_row(1, 21), [bytes(b" "), bytes(b"2")], damaged),
        ("An id of 17 characters", in_row(1, 22), [bytes(b"0"), bytes(b" ")], damaged),
        ("An id with a byte at the end of its padding", in_row(1, 25), [bytes(b"0"), bytes(b" ")], damaged),
        ("Padding of bytes of 0", in_row(1, 22), [bytes(&[0; 4]), bytes(b"    ")], damaged),
        ("Another id", in_row(1, 6), [bytes(b"F"), bytes(b"0")], undamaged),
        ("A side of neither B nor S", in_row(1, 26), [bytes(b"b"), bytes(b"B")], damaged),
        ("A side S", in_row(1, 26), [bytes(b"S"), bytes(b"B")], undamaged),
        ("A root that begins with a space", in_row(1, 27), [bytes(b" "), bytes(b"M")], damaged),
        ("A month Y", in_row(1, 33), [bytes(b"Y"), bytes(b"G")], damaged),
        ("A month X", in_row(1, 33), [bytes(b"X"), bytes(b"G")], undamaged),
        ("A date 0", in_row(1, 34), [bytes(&[0]), bytes(&[27])], damaged),
        ("A date 31", in_row(1, 34), [bytes(&[31]), bytes(&[27])], undamaged),
        ("A date 32", in_row(1, 34), [bytes(&[32]), bytes(&[27])], damaged),
        ("A year 99", in_row(1, 35), [bytes(&[99]), bytes(&[9])], undamaged),
        ("A year 100", in_row(1, 35), [bytes(&[100]), bytes(&[9])], damaged),
        ("A denominator F", in_row(1, 36), [bytes(b"F"), bytes(b"C")], damaged),
        ("A strike of five digits under C", in_row(1, 37), [number(99_999), number(205_750)], damaged),
        ("A strike of seven digits", in_row(1, 37), [number(1_000_000), number(205_750)], damaged),
        ("A strike of 999,999", in_row(1, 37), [number(999_999), number(205_750)], undamaged),
        ("A row's executed of 0", in_row(0, ROW_EXECUTED), [number(0), number(30)], damaged),
        ("A row's executed of 1", in_row(0, ROW_EXECUTED), [number(1), number(30)], undamaged),
        ("A row's executed of 4,294,967,295", in_row(0, ROW_EXECUTED), [number(MOST), number(30)], undamaged),
        ("A row's broken above its executed", in_row(1, ROW_BROKEN), [number(6), number(2)], damaged),
        ("A row's broken of all its executed", in_row(1, ROW_BROKEN), [number(5), number(2)], undamaged),
        ("A row's broken of 4,294,967,295", in_row(1, ROW_BROKEN), [number(MOST), number(2)], damaged),
        ("Anything in a free row", in_row(3, 0), [vec![0; 49], vec![0xFF; 49]], undamaged),
        ("Anything in the last row", in_row(127, 0), [vec![0; 49], vec![0xFF; 49]], undamaged),
        ("Anything in the last slot, right before the rows", slot(511).start, [vec![0; 80], vec![0xFF; 80]], undamaged),
    ]
    .into_iter()
    .flat_map(|(name, at, bytes, words)| patched(name, at, bytes, words))
    .collect()
}

/// A row's executed up to 4,294,967,295 and not above, on a lent table.
#[rustfmt::skip]
fn sums_near_the_bound() -> Vec<Vector> {
    let figures = |executed: u32, broken: u32| {
        let bytes = [executed.to_le_bytes(), broken.to_le_bytes()].concat();
        patch_payload((row(0).start + ROW_EXECUTED) as u32, &bytes)
    };
    let whole = format!(" [orders 0 families 0\nquote 00000000000000A1 {MOST} {MOST} ABCD01\n\
        quote 00000000000000A2 5 2 ABCD01\nquote 00000000000000A3 1 0 ABCD01\n]");
    vec![
        sums("4,294,967,290 executed, 4,294,967,289 broken", b'p', figures(MOST - 5, MOST - 6), "patch", ""),
        books("E QA1 6", "book refused 13"),
        books("E QA1 999999", "book refused 13"),
        books("C QA1 2", "book refused 11"),
        books("E QA1 4", "book done"),
        books("E QA1 1", "book done"),
        books("E QA1 1", "book refused 13"),
        books("C QA1 7", "book refused 11"),
        books("C QA1 6", "book done"),
        books("C QA1 1", "book refused 11"),
        books("E QA2 1", "book done"),
        books("C QA2 1", "book done"),
        says("It is undamaged with the most executed and broken", b'd', vec![], "undamaged"),
        sums("The longest figures on the sheet", b'h', 200_u32.to_le_bytes().to_vec(), "sheet 200 done 140",
            &whole.replace("A2 5 2", "A2 6 3")),
        books("A QA1 7", "book done"),
        books("E QA1 7", "book done"),
        books("E QA1 1", "book refused 10"),
        books("end of day", "book done"),
        books("E QA2 1", "book refused 6"),
    ]
}

/// 128 rows in the table, and what can still be booked.
#[rustfmt::skip]
fn full_section() -> Vec<Vector> {
    let rows: Vec<_> = (1..=128).flat_map(|number| piece(&format!("E Q{number:X} {number}"))).collect();
    let told = |number| match number {
        128 => "quote 0000000000000080 130 30 ABCD01\n".to_string(),
        _ => format!("quote {number:016X} {number} 0 ABCD01\n"),
    };
    let sheet = (1..=128).map(told).fold("orders 1 families 1\n1.1 5 2 1 0 0 3 ABCD01 0000000000000081\n".to_string(), |all, row| all + &row);
    let of_other_side = |name, words, before| sums(name, b'b', other(words, &[(14, "S")]), before, "");
    vec![
        sums("Made empty again", b'e', vec![], "empty done", ""),
        sums("Up to 128 rows", b'a', [&[128, 0][..], &rows].concat(), "all 128 done 17920 128", &format!(" [{}]", " 0".repeat(128))),
        says("A table with 128 rows is undamaged", b'd', vec![], "undamaged"),
        books("E Q81 1", "book refused 13"),
        books("C Q81 1", "book refused 8"),
        books("X Q81 1", "book refused 8"),
        of_other_side("Another side needs a row of its own", "E Q1 1", "book refused 13"),
        of_other_side("and a C of it finds none", "C Q1 1", "book refused 8"),
        books("E Q80 2", "book done"),
        books("C Q80 30", "book done"),
        books("A Q81 5", "book done"),
        books("E Q82 1", "book refused 13"),
        books("E Q81 2", "book done"),
        books("C Q81 1", "book done"),
        books("E Q81 4", "book refused 10"),
        books("E Q82 0", "book refused 3 field 15"),
        books("end of day", "book done"),
        books("E Q82 1", "book refused 6"),
        sums("The sheet with 128 rows", b'h', 10_000_u32.to_le_bytes().to_vec(), "sheet 10000 done 4561", &format!(" [{sheet}]")),
    ]
}

#[rustfmt::skip]
fn damaged_tables() -> Vec<Vector> {
    vec![
        sums("A count of 129 rows", b'p', patch_payload(5, &[129]), "patch", ""),
        says("is damage, which refuses a quote row", b'q', order_payload(0, 4), "quote 4 refused 5 [....]"),
        sums("and an E of a quote", b'b', piece("E Q1 1"), "book refused 5", ""),
    ]
}
