//! Vectors for saved days, one or more for each sentence of 02, Ticket 2, with their answers written by hand.

use std::ops::Range;

use crate::cases::case::{order_payload, patch_payload};
use crate::cases::shorthand::{capture, piece};
use crate::cases::vectors::{says, sums, Vector};
use crate::rules::table::{row, slot};
use crate::rules::trial::in_hex;

/// The lines of a small day.
pub const MORNING: &str = "A T1 1000; E T1 300; C T1 10; X T1 5; U T2 for T1, 60; E QA1 200; C QA1 2";
/// The day saved: form 1, not over, two orders, one row. T1 has the price 12,875,000, no elder, 300 executed, 10 broken, 5
/// cancelled, 695 passed on and nothing open; T2 replaces the first order and has 60 open; the row has 200 executed, 2 broken.
pub const SAVED: &[u8; 160] = b"\x01\0\x02\x01\
    ABCD01T1                  BMSFT  G2709C205750\xF8\xE9\x91\x06\0\xAC\x02\x0A\x05\xB7\x05\0\
    ABCD01T2                  BMSFT  G2709C205750\xF8\xE9\x91\x06\x01\0\0\0\0\x3C\
    ABCD0100000000000000A1BMSFT  G2709C205750\xC8\x01\x02";
/// Where it has some of its parts.
const MARK: usize = 1;
const ORDERS: usize = 2;
const ROWS: usize = 3;
const T1: usize = 4;
const T1_PRICE: Range<usize> = 49..53;
const T1_EXECUTED: Range<usize> = 54..56;
const T1_BROKEN: Range<usize> = 56..57;
const T1_OPEN: Range<usize> = 60..61;
const T2: usize = 61;
const T2_ELDER: Range<usize> = 110..111;
const T2_FIGURES: Range<usize> = 111..116;
const ROW: usize = 116;
const ROW_EXECUTED: Range<usize> = 157..159;
const ROW_BROKEN: Range<usize> = 159..160;
/// 2 to the 64 less 1, and 2 to the 64.
const MOST: &[u8] = b"\xFF\xFF\xFF\xFF\xFF\xFF\xFF\xFF\xFF\x01";
const TOO_MUCH: &[u8] = b"\x80\x80\x80\x80\x80\x80\x80\x80\x80\x02";

pub fn saved_days() -> Vec<Vector> {
    [savings(), loadings(), numbers(), damages(), lengths()].into_iter().flatten().collect()
}

fn room(room: u32) -> Vec<u8> {
    room.to_le_bytes().to_vec()
}

fn books(words: &'static str, before: &'static str) -> Vector {
    sums(words, b'b', piece(words), before, "")
}

/// The saved day with other bytes in the place of some.
fn with(places: Range<usize>, bytes: &[u8]) -> Vec<u8> {
    let mut saved = SAVED.to_vec();
    saved.splice(places, bytes.iter().copied());
    saved
}

fn with_byte(at: usize, byte: u8) -> Vec<u8> {
    with(at..at + 1, &[byte])
}

fn loads(name: &'static str, bytes: Vec<u8>) -> Vector {
    sums(name, b'g', bytes, "load done", "")
}

fn refuses(name: &'static str, bytes: Vec<u8>) -> Vector {
    sums(name, b'g', bytes, "load refused 14", "")
}

/// The table in hand is damaged at first. The sums are those of `\x01\0\0\0..`, of three `.` and of none.
#[rustfmt::skip]
fn savings() -> Vec<Vector> {
    let morning = [&[9, 0][..], &capture(MORNING)].concat();
    let over = with_byte(MARK, 1);
    vec![
        says("Saving a damaged table is 5, before 4", b'v', room(0), "save 0 refused 5 left 7 sum 1 []"),
        says("and with room too", b'v', room(3), "save 3 refused 5 left 7 sum 18284683 []"),
        sums("Made empty to be saved", b'e', vec![], "empty done", ""),
        says("The empty day: form 1, not over, no order, no row", b'v', room(6), "save 6 done 4 sum 9830494 [01000000]"),
        sums("It needs four bytes", b'v', room(4), "save 4 done 4", " [01000000]"),
        says("No room is 4, and no byte changes", b'v', room(3), "save 3 refused 4 left 7 sum 18284683 []"),
        sums("A morning", b'a', morning, "all 9 done 980 7", " [ 0 0 0 0 0 0 0 99999 99999]"),
        sums("The morning saved", b'v', room(160), "save 160 done 160", &format!(" [{}]", in_hex(SAVED))),
        sums("Only the bytes it needs change", b'v', room(60_000), "save 60000 done 160", &format!(" [{}]", in_hex(SAVED))),
        sums("159 bytes are too few", b'v', room(159), "save 159 refused 4 left 7", " []"),
        sums("Anything in a free slot", b'p', patch_payload(slot(2).start as u32, b"free"), "patch", ""),
        sums("is not saved", b'v', room(160), "save 160 done 160", &format!(" [{}]", in_hex(SAVED))),
        sums("A mark of 2", b'p', patch_payload(4, &[2]), "patch", ""),
        sums("is damage when it is saved", b'v', room(160), "save 160 refused 5 left 7", " []"),
        sums("A mark of 1", b'p', patch_payload(4, &[1]), "patch", ""),
        sums("is the day-over mark", b'v', room(160), "save 160 done 160", &format!(" [{}]", in_hex(&over))),
        says("A buffer of 60,001 to save into is a bad case", b'v', room(60_001), "bad case"),
        says("Room to save of three bytes is a bad case", b'v', vec![0; 3], "bad case"),
    ]
}

#[rustfmt::skip]
fn loadings() -> Vec<Vector> {
    let sheet = " [orders 2 families 1\n1.1 1000 300 10 5 695 0 ABCD01 T1\n1.2 60 0 0 0 0 60 ABCD01 T2\n\
        quote 00000000000000A1 200 2 ABCD01\n]";
    let second = b"order 80 done [ABCD01T2                  BMSFT  G\x1B\x09C\xB6\x23\x03\0\xF8\x74\xC4\0\0\0\0\0\
        \x01\0\x3C\0\0\0\0\0\0\0\0\0\0\0\0\0\0\0\0\0\0\0\x3C\0\0\0\0\0\0\0\0]";
    let first_row = b"quote 49 done [ABCD0100000000000000A1    BMSFT  G\x1B\x09C\xB6\x23\x03\0\xC8\0\0\0\x02\0\0\0]";
    vec![
        sums("Any bytes in the header and the first slots", b'p', patch_payload(0, &[0xFF; 300]), "patch", ""),
        sums("and in the first rows", b'p', patch_payload(row(0).start as u32, &[0xFF; 100]), "patch", ""),
        says("are damage", b'd', vec![], "damaged"),
        loads("The morning loaded", SAVED.to_vec()),
        says("It is undamaged", b'd', vec![], "undamaged"),
        sums("has the same orders and rows", b'h', room(200), "sheet 200 done 118", sheet),
        says("the order in its slot", b'o', order_payload(1, 80), second),
        says("the row in its place", b'q', order_payload(0, 49), first_row),
        sums("and is saved as it was", b'v', room(160), "save 160 done 160", &format!(" [{}]", in_hex(SAVED))),
        books("E T2 61", "book refused 10"),
        books("E T2 60", "book done"),
        books("C T1 291", "book refused 11"),
        books("C T1 290", "book done"),
        books("C QA1 198", "book done"),
        books("A T1 1", "book refused 7"),
        books("A T3 1", "book done"),
        loads("Over a table that has more", SAVED.to_vec()),
        sums("it is the morning again", b'h', room(200), "sheet 200 done 118", sheet),
        loads("The day-over mark loaded", with_byte(MARK, 1)),
        books("E T2 1", "book refused 6"),
        loads("The empty day loaded", b"\x01\0\0\0".to_vec()),
        sums("prints nothing else", b'h', room(20), "sheet 20 done 20", " [orders 0 families 0\n]"),
    ]
}

/// Each number has one form, and each saved day one end.
#[rustfmt::skip]
fn numbers() -> Vec<Vector> {
    vec![
        refuses("No byte is no saved day", vec![]),
        refuses("A form of 0", with_byte(0, 0)),
        refuses("A form of 2", with_byte(0, 2)),
        refuses("A form of 3", with_byte(0, 3)),
        refuses("A form of 1 in two groups", with(0..1, b"\x81\0")),
        refuses("A day-over mark of 2", with_byte(MARK, 2)),
        refuses("A count of one order where there are two", with_byte(ORDERS, 1)),
        refuses("A count of three orders where there are two", with_byte(ORDERS, 3)),
        refuses("A count of two rows where there is one", with_byte(ROWS, 2)),
        refuses("A count of no row where there is one", with_byte(ROWS, 0)),
        refuses("513 orders", b"\x01\0\x81\x04\0".to_vec()),
        refuses("129 rows", b"\x01\0\0\x81\x01".to_vec()),
        refuses("A count of 2 to the 64 less 1", [b"\x01\0", MOST, b"\0"].concat()),
        refuses("The last byte missing", SAVED[..159].to_vec()),
        refuses("A byte behind the last", [SAVED.as_slice(), b"\0"].concat()),
        refuses("300 in three groups", with(T1_EXECUTED, b"\xAC\x82\0")),
        refuses("0 in two groups", with(T1_OPEN, b"\x80\0")),
        refuses("0 in eleven groups", with(T1_OPEN, b"\x80\x80\x80\x80\x80\x80\x80\x80\x80\x80\0")),
        refuses("A number whose groups do not end", with(ROW_BROKEN, b"\x82")),
        refuses("2 to the 64", with(T1_OPEN, TOO_MUCH)),
        refuses("2 to the 64 less 1 as a figure", with(T1_OPEN, MOST)),
        loads("301 in two groups", with(T1_EXECUTED, b"\xAD\x02")),
        loads("127 in one group", with(T1_EXECUTED, b"\x7F")),
    ]
}

/// Each kind of damage described, and its near miss.
#[rustfmt::skip]
fn damages() -> Vec<Vector> {
    let half = b"\x80\x80\x80\x80\x80\x80\x80\x80\x80\x01";
    let t2 = |executed: &[u8], broken: &[u8], cancelled: &[u8], passed_on: &[u8], open: &[u8]| {
        with(T2_FIGURES, &[executed, broken, cancelled, passed_on, open].concat())
    };
    let three = |elder: u8| {
        let third = [&SAVED[T2..T2_ELDER.start], &[elder], &SAVED[T2_FIGURES]].concat();
        with(ORDERS..ROW, &[b"\x03\x01", &SAVED[T1..ROW], &third].concat())
    };
    let rows = |id: &[u8]| [&SAVED[..ROWS], b"\x02", &SAVED[T1..], &SAVED[ROW..ROW + 6], id, &SAVED[ROW + 22..]].concat();
    vec![
        refuses("An order that is its own elder", with(T2_ELDER, &[2])),
        refuses("An elder that is later", with(T2_ELDER, &[3])),
        refuses("An elder of 2 to the 64 less 1", with(T2_ELDER, MOST)),
        loads("No elder", with(T2_ELDER, &[0])),
        refuses("Two orders with one elder", three(1)),
        refuses("An elder with something open", three(2)),
        loads("A repeated key", three(0)),
        refuses("An elder with one contract open", with(T1_OPEN, &[1])),
        refuses("A size of 0", t2(b"\0", b"\0", b"\0", b"\0", b"\0")),
        loads("A size of 999,999", t2(b"\0", b"\0", b"\0", b"\0", b"\xBF\x84\x3D")),
        refuses("A size of 1,000,000", t2(b"\0", b"\0", b"\0", b"\0", b"\xC0\x84\x3D")),
        refuses("A size of 999,999 and 1", t2(b"\x01", b"\0", b"\0", b"\0", b"\xBF\x84\x3D")),
        refuses("Twice 2 to the 63 and 60", t2(half, b"\0", half, b"\0", b"\x3C")),
        refuses("2 to the 64 less 1, and 61", t2(b"\0", b"\0", MOST, b"\0", b"\x3D")),
        loads("All broken", with(T1_BROKEN, b"\xAC\x02")),
        refuses("Broken above executed", with(T1_BROKEN, b"\xAD\x02")),
        refuses("A Source that begins with a space", with_byte(T1, b' ')),
        refuses("A token with a byte outside 20 to 7E", with_byte(T1 + 8, 0x7F)),
        refuses("A side of neither B nor S", with_byte(T1 + 26, b'b')),
        refuses("A month Y", with_byte(T1 + 33, b'Y')),
        refuses("A date 32", with(T1 + 34..T1 + 36, b"32")),
        refuses("A year with a space", with_byte(T1 + 36, b' ')),
        refuses("A strike of five digits under C", with_byte(T1 + 39, b'0')),
        loads("A price of 999,999.9999", with(T1_PRICE, b"\xFF\xC7\xAF\xA0\x25")),
        refuses("A price of 1,000,000 dollars", with(T1_PRICE, b"\x80\xC8\xAF\xA0\x25")),
        refuses("Two rows alike", rows(b"00000000000000A1")),
        loads("Two rows of two ids", rows(b"00000000000000A2")),
        refuses("An id with a lower case letter", rows(b"00000000000000a2")),
        refuses("A row's Source that begins with a space", with_byte(ROW, b' ')),
        refuses("A row's denominator F", with_byte(ROW + 34, b'F')),
        loads("A row's executed of 4,294,967,295", with(ROW_EXECUTED, b"\xFF\xFF\xFF\xFF\x0F")),
        refuses("A row's executed of 4,294,967,296", with(ROW_EXECUTED, b"\x80\x80\x80\x80\x10")),
        refuses("A row's executed of 0", with(ROW_EXECUTED.start..ROW_BROKEN.end, &[0, 0])),
        loads("A row's broken of all its executed", with(ROW_BROKEN, b"\xC8\x01")),
        refuses("A row's broken above its executed", with(ROW_BROKEN, b"\xC9\x01")),
    ]
}

/// A buffer is tried before the bytes.
#[rustfmt::skip]
fn lengths() -> Vec<Vector> {
    vec![
        says("A buffer of 8 bytes", b't', vec![0; 8], "table 8 sum 524289"),
        says("is too short to load into", b'g', SAVED.to_vec(), "load refused 4 sum 524289"),
        says("whatever the bytes are", b'g', vec![], "load refused 4 sum 524289"),
        sums("and no table to save", b'v', room(200), "save 200 refused 5 left 7", " []"),
    ]
}
