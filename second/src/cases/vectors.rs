//! The vectors of the papers, and a few for records as bytes, tables and texts, each with its answer written by hand.
//! Those about quote rows are in `quotes`, those about saved days in `saved_vectors`.

use std::io::Write;

use crate::cases::case::{
    capture_payload, order_payload, patch_payload, piece_payload, put, room_payload, strike_payload, Written,
};
use crate::cases::quotes::quotes;
use crate::cases::shorthand::{capture, executed, key, piece, untraded, EXECUTED, WHOLE_CASE};
use crate::rules::table::{slot, BROKEN, ELDER, SIZE, TABLE};

/// All that the trial shows of it.
const EXECUTED_SHOWN: &str = "read record 1[34293104] 2[E] 3[175C] 4[F] 5[O] 6[A] 7[BSI ] 8[00009] 9[00003] \
    10[ABCD01] 11[T1                  ] 12[                    ] 13[000836AFF] 14[B] 15[    30] 16[MSFT  ] 17[G] \
    18[27] 19[09] 20[C] 21[205750] 22[  12875000] 23[   122853] 24[   122001]\n";

/// The same as a record's bytes.
const EXECUTED_STORED: &[u8; 138] = b"\x70\x45\x0B\x02\0\0\0\0E175CFOABSI 0000900003ABCD01\
    T1                                      000836AFFB\x1E\0\0\0\0\0MSFT  G\x1B\0\x09\0C\xB6\x23\x03\0\0\0\
    \xF8\x74\xC4\0\0\0\0\0\0\0\xE5\xDF\x01\0\0\0\0\0\0\x91\xDC\x01\0\0\0\0\0\0";

const T1: &str = "T1                  ";
const T2: &str = "T2                  ";

/// What the trial must say to a case.
pub enum Says {
    Words(Vec<u8>),
    /// A sum between these words.
    Sum(&'static str, String),
    /// A record that shows these parts, and whose line is the piece itself.
    Record(&'static [&'static str]),
}

pub struct Vector {
    pub name: &'static str,
    pub kind: u8,
    pub payload: Vec<u8>,
    pub says: Says,
}

pub fn reads(name: &'static str, piece: Vec<u8>, parts: &'static [&'static str]) -> Vector {
    Vector { name, kind: b'r', payload: piece, says: Says::Record(parts) }
}

pub fn says(name: &'static str, kind: u8, payload: Vec<u8>, words: impl AsRef<[u8]>) -> Vector {
    Vector { name, kind, payload, says: Says::Words(words.as_ref().to_vec()) }
}

pub fn sums(name: &'static str, kind: u8, payload: Vec<u8>, before: &'static str, after: &str) -> Vector {
    Vector { name, kind, payload, says: Says::Sum(before, after.to_string()) }
}

fn books(words: &'static str, before: &'static str) -> Vector {
    sums(words, b'b', piece(words), before, "")
}

/// Bytes put into the table, what the damage check says then, and the bytes that stood there again.
pub fn patched(name: &'static str, at: usize, [bytes, before]: [Vec<u8>; 2], words: &str) -> [Vector; 3] {
    let patch = |name, bytes: &[u8]| sums(name, b'p', patch_payload(at as u32, bytes), "patch", "");
    [patch(name, &bytes), says(name, b'd', vec![], words), patch("As it was", &before)]
}

pub fn refused_field(name: &'static str, piece: Vec<u8>, field: usize) -> Vector {
    says(name, b'r', piece, format!("read refused 3 field {field}"))
}

fn of_number(name: &'static str, kind: u8, number: u64, words: &str) -> Vector {
    says(name, kind, number.to_le_bytes().to_vec(), words)
}

fn of_strike(name: &'static str, code: u8, digits: u64, words: &str) -> Vector {
    says(name, b's', strike_payload(code, digits), words)
}

/// 01, Both sides of each bound, and the plain words of 01, The line.
#[rustfmt::skip]
fn papers() -> Vec<Vector> {
    let too_long = [&EXECUTED.as_bytes()[..138], b" \r\n"].concat();
    let foreign_byte = executed(&[(11, "T1\t                 ")]);
    vec![
        of_number("Timestamp 34293104 is 09:31:33.104", b'k', 34_293_104, "clock 09:31:33.104"),
        of_number("Timestamp 86399999 is 23:59:59.999", b'k', 86_399_999, "clock 23:59:59.999"),
        of_number("Timestamp 86400000 has no clock", b'k', 86_400_000, "clock refused 3 field 1 left 7 8 9 10"),
        reads("86399999 reads", executed(&[(1, "86399999")]), &[" 1[86399999] "]),
        refused_field("86400000 is 3, field 1", executed(&[(1, "86400000")]), 1),
        refused_field("00000012 is 3, field 1", executed(&[(1, "00000012")]), 1),
        reads("Contracts of five spaces and 1 reads", executed(&[(15, "     1")]), &[" 15[     1] "]),
        refused_field("Contracts of five spaces and 0 is 3, field 15", executed(&[(15, "     0")]), 15),
        of_strike("E 550000 is 550,000", b'E', 550_000, "strike value 550000"),
        of_strike("C 205750 is 20,575,000", b'C', 205_750, "strike value 20575000"),
        of_strike("B 002532 is 3, field 21", b'B', 2_532, "strike refused 3 field 21 left 7"),
        refused_field("B 002532 on a line is 3, field 21", executed(&[(20, "B"), (21, "002532")]), 21),
        of_strike("E 000000 is 3, field 21", b'E', 0, "strike refused 3 field 21 left 7"),
        of_strike("F 550000 is 3, field 20", b'F', 550_000, "strike refused 3 field 20 left 7"),
        of_strike("A bad code is named before its digits", b'F', 0, "strike refused 3 field 20 left 7"),
        of_strike("A number of seven digits is 3, field 21", b'A', 1_000_000, "strike refused 3 field 21 left 7"),
        of_number("Value 1,000,000 is D 100000", b'f', 1_000_000, "strike form D 100000"),
        of_number("Value 999,999 is E 999999", b'f', 999_999, "strike form E 999999"),
        of_number("Value 1,000,005 has no form", b'f', 1_000_005, "form refused 3 field 21 left 7 8"),
        of_number("Value 0 has no form", b'f', 0, "form refused 3 field 21 left 7 8"),
        of_number("Value 10,000,000,000 has no form", b'f', 10_000_000_000, "form refused 3 field 21 left 7 8"),
        reads("`  12875000` is the price 1287.5000", executed(&[(22, "  12875000")]), &[" 22[  12875000] "]),
        reads("Five cents is five spaces, `0`, `0500`", executed(&[(22, "     00500")]), &[" 22[       500] "]),
        refused_field("A price of ten spaces is 3, field 22", executed(&[(22, "          ")]), 22),
        refused_field("A price with an empty whole part is 3, field 22", executed(&[(22, "      0500")]), 22),
        refused_field("Lowercase in the Reference is 3, field 13", executed(&[(13, "000836aff")]), 13),
        reads("An inner space in a text is allowed", executed(&[(3, "1 5C")]), &[" 3[1 5C] "]),
        says("139 bytes and CR LF is 1", b'r', too_long, "read refused 1"),
        says("138 bytes without CR LF is 1", b'r', EXECUTED.as_bytes()[..138].to_vec(), "read refused 1"),
        says("CR LF alone is end of day", b'r', b"\r\n".to_vec(), "read end of day"),
        says("A byte outside 20 to 7E is 2", b'r', foreign_byte, "read refused 2"),
        reads("A: a new order of 100 reads", untraded("A", &[(15, "   100")]),
            &[" 2[A] ", " 6[ ] ", " 15[   100] ", " 23[         ] 24[         ]\n"]),
        reads("E: an execution of 30 reads", executed(&[]), &[EXECUTED_SHOWN]),
        reads("X: a cancel of 10 reads", untraded("X", &[(11, T2), (15, "    10")]),
            &[" 2[X] ", " 11[T2                  ] ", " 15[    10] "]),
        reads("C: a break of 30 reads", executed(&[(2, "C"), (6, "r")]),
            &[" 2[C] ", " 6[r] ", " 23[   122853] 24[   122001]\n"]),
        reads("U: T2 for T1 reads", untraded("U", &[(11, T2), (12, T1)]),
            &[" 2[U] ", " 11[T2                  ] 12[T1                  ] "]),
        reads("R: a new price reads", untraded("R", &[(22, "     00001")]), &[" 2[R] ", " 22[         1] "]),
    ]
}

/// The bytes of the record with others in some places.
fn stored(changes: &[(usize, &[u8])]) -> Vec<u8> {
    let mut stored = EXECUTED_STORED.to_vec();
    for (at, bytes) in changes {
        stored[*at..at + bytes.len()].copy_from_slice(bytes);
    }
    stored
}

/// The record as that of an A, without liquidity and ids, and with other bytes in some places.
fn accepted(changes: &[(usize, &[u8])]) -> Vec<u8> {
    stored(&[&[(8, b"A".as_slice()), (15, b" "), (120, &[0; 18])], changes].concat())
}

/// A record, given as bytes, that is not written, its field being named.
pub fn unwritten(name: &'static str, stored: Vec<u8>, field: usize) -> Vector {
    let words = format!("write 140 refused 3 field {field} [{}]", ".".repeat(140));
    says(name, b'w', room_payload(140, &stored), words)
}

/// A piece read as a record into so many bytes, of which none is written.
fn unread(name: &'static str, room: usize, piece: &[u8], outcome: &str) -> Vector {
    let words = format!("record {room} {outcome} [{}]", ".".repeat(room));
    says(name, b'i', room_payload(room as u16, piece), words)
}

/// Records as bytes (TRIAL, A record as bytes, and LAYOUT, A record).
#[rustfmt::skip]
fn records() -> Vec<Vector> {
    let line = executed(&[]);
    let read = |room: u16, rest: &[u8]| {
        [format!("record {room} done kind 1 [").as_bytes(), EXECUTED_STORED, rest, b"]"].concat()
    };
    let written = |line: &str| format!("write 140 done [{line}]");
    let accepted_line = String::from_utf8(untraded("A", &[])).expect("a line is printable");
    let untouched = format!("write 139 refused 4 [{}]", ".".repeat(139));
    let longer = [EXECUTED_STORED.as_slice(), b"\0"].concat();
    let bad_timestamp: (usize, &[u8]) = (0, &[0xFF; 8]);
    let bad_date: (usize, &[u8]) = (99, &[0]);
    let ten_digits: &[u8] = &[0x00, 0xCA, 0x9A, 0x3B];
    vec![
        says("A record of 138 bytes", b'i', room_payload(138, &line), read(138, b"")),
        says("Only its bytes change", b'i', room_payload(140, &line), read(140, b"..")),
        unread("A record needs 138 bytes", 137, &line, "refused 4 kind 7"),
        unread("An end of day is no record", 138, b"\r\n", "done kind 0"),
        unread("but needs its room", 137, b"\r\n", "refused 4 kind 7"),
        unread("Reading refuses 4 before 1", 0, b"", "refused 4 kind 7"),
        unread("An empty piece is 1", 138, b"", "refused 1 kind 7"),
        unread("A byte outside 20 to 7E is 2, also as a record", 139, &executed(&[(3, "17\tC")]), "refused 2 kind 7"),
        unread("A broken field is 3, also as a record", 138, &executed(&[(15, "     0")]), "refused 3 field 15 kind 7"),
        says("The record of an E is written", b'w', room_payload(140, EXECUTED_STORED), written(EXECUTED)),
        says("The record of an A is written", b'w', room_payload(140, &accepted(&[])), written(&accepted_line)),
        says("Writing refuses 4 before 3", b'w', room_payload(139, &stored(&[(86, &[0])])), &untouched),
        says("and before another length", b'w', room_payload(139, b""), &untouched),
        unwritten("A record of no bytes is 3, field 24", vec![], 24),
        unwritten("A record of 137 bytes is 3, field 24", EXECUTED_STORED[..137].to_vec(), 24),
        unwritten("A record of 139 bytes is 3, field 24", longer, 24),
        unwritten("A length comes before a type", stored(&[(8, b"B")])[..137].to_vec(), 24),
        unwritten("and before a broken rule", stored(&[bad_timestamp])[..137].to_vec(), 24),
        unwritten("A type B is 3, field 2", stored(&[(8, b"B")]), 2),
        unwritten("Liquidity in the record of an A is 3, field 6", accepted(&[(15, b"A")]), 6),
        unwritten("A last byte but one of the price", stored(&[(118, &[1])]), 22),
        unwritten("A last byte of the price", stored(&[(119, &[1])]), 22),
        unwritten("A last byte of the Match Id", stored(&[(128, &[1])]), 23),
        unwritten("A Match Id in the record of an A is 3, field 23", accepted(&[(120, &[1])]), 23),
        unwritten("A last byte of the Cross Id", stored(&[(137, &[1])]), 24),
        unwritten("A Cross Id in the record of an A is 3, field 24", accepted(&[(136, &[1])]), 24),
        unwritten("A type comes before liquidity", accepted(&[(8, b"a"), (15, b"A"), (119, &[1])]), 2),
        unwritten("Liquidity comes before a price", accepted(&[(15, b"A"), (119, &[1])]), 6),
        unwritten("The first broken rule is named", stored(&[bad_timestamp, (15, b" "), bad_date]), 1),
        unwritten("Liquidity on an E has a meaning and breaks its rule", stored(&[(15, b" "), bad_date]), 6),
        unwritten("A broken rule comes before a later byte without meaning", stored(&[bad_timestamp, (137, &[1])]), 1),
        unwritten("also before a type without meaning", stored(&[bad_timestamp, (8, b"B")]), 1),
        unwritten("and before liquidity without meaning", accepted(&[(13, b"X"), (15, b"A")]), 4),
        unwritten("A strike of 0 before a last byte of the price", stored(&[(104, &[0; 6]), (119, &[1])]), 21),
        unwritten("A Match Id of ten digits before a last byte of the Cross Id",
            stored(&[(120, ten_digits), (137, &[1])]), 23),
        unwritten("A type without meaning comes before a later broken rule", stored(&[(8, b"B"), (9, b" ")]), 2),
        unwritten("and liquidity without meaning", accepted(&[(15, b"A"), bad_date]), 6),
        unwritten("A last byte of the price before a Cross Id of ten digits",
            stored(&[(119, &[1]), (129, ten_digits)]), 22),
        unwritten("A Match Id in the record of an A before a last byte of the Cross Id",
            accepted(&[(120, &[1]), (137, &[1])]), 23),
        unwritten("A price that is both", stored(&[(110, &[0xFF; 10])]), 22),
        unwritten("A Match Id that is both", stored(&[(120, ten_digits), (128, &[1])]), 23),
        unwritten("A Cross Id that is both", stored(&[(129, &[0xFF; 9])]), 24),
        unwritten("Contracts of 2 to the 48 less 1", stored(&[(86, &[0xFF; 6])]), 15),
        unwritten("A Date of 65,535", stored(&[(99, &[0xFF; 2])]), 18),
        unwritten("A Date of 256 + 27", stored(&[(100, &[1])]), 18),
        unwritten("A price of 2 to the 64 less 1", stored(&[(110, &[0xFF; 8])]), 22),
        unwritten("A Match Id of 2 to the 64 less 1", stored(&[(120, &[0xFF; 8])]), 23),
        says("A buffer of 301 for a line is a bad case", b'w', room_payload(301, EXECUTED_STORED), "bad case"),
        says("A buffer of 301 for a record is a bad case", b'i', room_payload(301, &line), "bad case"),
        says("A write without the whole of N is a bad case", b'w', vec![140], "bad case"),
        says("A read without the whole of N is a bad case", b'i', vec![138], "bad case"),
    ]
}

/// The sheet of the whole case.
const WHOLE_SHEET: &str = "orders 3 families 2\n1.1 100 30 30 0 70 0 ABCD01 T1\n1.2 60 0 0 10 0 50 ABCD01 T2\n\
    2.1 5 0 0 0 0 5 ABCD01 T9\n";
/// T2 at the end of the whole case, as it stands in its slot: 60 contracts, of which 10 are cancelled
/// and 50 open, in the place of the first order.
const T2_STORED: &[u8; 80] = b"ABCD01T2                  BMSFT  G\x1B\x09C\xB6\x23\x03\0\xF8\x74\xC4\0\0\0\0\0\
    \x01\0\x3C\0\0\0\0\0\0\0\0\0\0\0\x0A\0\0\0\0\0\0\0\x32\0\0\0\0\0\0\0\0";
/// The sum of as many bytes of 0 as a table has.
const EMPTY_SUM: u64 = 47_240 * 65_536 + 1;

/// The whole case booked into a table from the empty one on, and what the table then answers.
#[rustfmt::skip]
fn tables() -> Vec<Vector> {
    let sheet = |room: u32| room.to_le_bytes().to_vec();
    let whole_sheet = format!(" [{WHOLE_SHEET}]");
    let t2 = key("T2");
    let stored = [b"order 82 done [".as_slice(), T2_STORED, b"..]"].concat();
    let in_slot = |place, part| slot(place).start + part;
    let number = |number: u32| number.to_le_bytes().to_vec();
    let elder = |stored: u16| stored.to_le_bytes().to_vec();
    let bytes = |bytes: &[u8]| bytes.to_vec();
    let undamaged = "undamaged";
    let damaged = "damaged";
    let mut all = vec![
        says("No table is in hand at the start", b'd', vec![], damaged),
        says("A table of 47,240 bytes", b't', vec![0; TABLE], format!("table 47240 sum {EMPTY_SUM}")),
        sums("A header without meaning", b'p', patch_payload(0, &[0xFF; 8]), "patch", ""),
        says("It is damaged", b'd', vec![], damaged),
        says("Making the empty table writes the header", b'e', vec![], format!("empty done sum {EMPTY_SUM}")),
        says("The empty table is undamaged", b'd', vec![], undamaged),
        sums("The empty sheet", b'h', sheet(20), "sheet 20 done 20", " [orders 0 families 0\n]"),
        books("A T1 100", "book done"),
        books("E T1 30", "book done"),
        books("U T2 for T1, 60", "book done"),
        books("A T9 5", "book done"),
        books("X T2 10", "book done"),
        books("C T1 30", "book done"),
        books("U T1 for T2, 50", "book refused 7"),
        books("A T3 0", "book refused 3 field 15"),
        books("end of day", "book done"),
        books("end of day", "book refused 6"),
        says("Every table reached from empty is undamaged", b'd', vec![], undamaged),
        sums("The whole case's sheet", b'h', sheet(106), "sheet 106 done 106", &whole_sheet),
        sums("Only the bytes it needs change", b'h', sheet(300), "sheet 300 done 106", &whole_sheet),
        sums("A buffer one byte too short", b'h', sheet(105), "sheet 105 refused 4 left 7", " []"),
        says("A lookup finds T2", b'l', t2.to_vec(), "lookup 1"),
        says("A key of 25 bytes is one that no order has", b'l', t2[..25].to_vec(), "lookup refused 8 left 7"),
        says("T3 isn't in the table", b'l', key("T3").to_vec(), "lookup refused 8 left 7"),
        says("T2 in its slot", b'o', order_payload(1, 82), stored),
        says("There is no fourth order", b'o', order_payload(3, 80), format!("order 80 refused 8 [{}]", ".".repeat(80))),
        says("79 bytes are too few", b'o', order_payload(3, 79), format!("order 79 refused 4 [{}]", ".".repeat(79))),
    ];
    all.extend(texts_at_once());
    for (name, at, [other, before], words) in [
        ("512 orders, of which most are none", 0, [number(512), number(3)], damaged),
        ("513 orders", 0, [number(513), number(3)], damaged),
        ("Two orders", 0, [number(2), number(3)], undamaged),
        ("A mark of 2", 4, [bytes(&[2]), bytes(&[1])], damaged),
        ("A byte of the header that must be 0", 7, [bytes(&[1]), bytes(&[0])], damaged),
        ("An order that is its own elder", in_slot(1, ELDER), [elder(2), elder(1)], damaged),
        ("An elder that is later", in_slot(1, ELDER), [elder(3), elder(1)], damaged),
        ("Two orders with one elder", in_slot(2, ELDER), [elder(1), elder(0)], damaged),
        ("An elder with something open", in_slot(2, ELDER), [elder(2), elder(0)], damaged),
        ("Broken above executed", in_slot(0, BROKEN), [number(31), number(30)], damaged),
        ("Broken below executed", in_slot(0, BROKEN), [number(29), number(30)], undamaged),
        ("A size that isn't the sum", in_slot(0, SIZE), [number(101), number(100)], damaged),
        ("A size of 0", in_slot(2, SIZE), [number(0), number(5)], damaged),
        ("A repeated key", in_slot(2, 6), [bytes(b"T1"), bytes(b"T9")], undamaged),
        ("A token with a byte outside 20 to 7E", in_slot(2, 6), [bytes(b"T\x7F"), bytes(b"T9")], damaged),
        ("A source that begins with a space", in_slot(2, 0), [bytes(b" "), bytes(b"A")], damaged),
        ("A byte of a slot that must be 0", in_slot(2, 79), [bytes(&[1]), bytes(&[0])], damaged),
        ("Anything in a free slot", in_slot(3, 0), [number(u32::MAX), number(0)], undamaged),
    ] {
        all.extend(patched(name, at, [other, before], words));
    }
    all.extend([
        sums("A damaged table", b'p', patch_payload(4, &[2]), "patch", ""),
        says("refuses a lookup", b'l', t2.to_vec(), "lookup refused 5 left 7"),
        says("and an order", b'o', order_payload(1, 4), "order 4 refused 5 [....]"),
        sums("and a sheet", b'h', sheet(0), "sheet 0 refused 5 left 7", " []"),
        sums("and any piece", b'b', vec![], "book refused 5", ""),
        sums("and any text, before anything", b'a', room_payload(2, &capture(WHOLE_CASE)), "all 2 refused 5 left 7 8", " [ 99999 99999]"),
        says("A table of 8 bytes", b't', vec![0; 8], "table 8 sum 524289"),
        says("is too short to be made empty", b'e', vec![], "empty refused 4 sum 524289"),
        says("and damaged", b'd', vec![], damaged),
        says("A patch past the end is a bad case", b'p', patch_payload(5, &[0; 4]), "bad case"),
    ]);
    all
}

/// Texts in one call into the table of the whole case, whose day is over: 6, but an unlawful piece is still 1, 2 or 3.
#[rustfmt::skip]
fn texts_at_once() -> Vec<Vector> {
    let mixed = [&piece("A T3 5")[..], b"\r\n", b"x\n", &piece("A T3 0"), b"\n"].concat();
    let at_once = |name, room, text: &[u8], said, answers: &str| sums(name, b'a', room_payload(room, text), said, answers);
    vec![
        at_once("A text of five pieces in one call", 5, &mixed, "all 5 done 285 5", " [ 6 6 1 3843 1]"),
        at_once("More room than pieces: the rest stays", 7, &mixed, "all 7 done 285 5", " [ 6 6 1 3843 1 99999 99999]"),
        at_once("Room for two: the first two pieces", 2, &mixed, "all 2 done 142 2", " [ 6 6]"),
        at_once("A last piece that is cut", 3, b"x\nA", "all 3 done 3 2", " [ 1 1 99999]"),
        at_once("No room: nothing is used", 0, &mixed, "all 0 done 0 0", " []"),
        at_once("No text: nothing is used", 1, b"", "all 1 done 0 0", " [ 99999]"),
        says("Room for 1,001 answers is a bad case", b'a', room_payload(1_001, b""), "bad case"),
        says("Room of one byte is a bad case", b'a', vec![0], "bad case"),
    ]
}

/// What a reader gives as the piece with a number, counted from 0.
fn gives(name: &'static str, number: u64, text: &[u8], piece: &[u8]) -> Vector {
    says(name, b'z', piece_payload(number, text), [b"given [", piece, b"]"].concat())
}

#[rustfmt::skip]
fn pieces_by_number() -> Vec<Vector> {
    let whole = capture(WHOLE_CASE);
    let many = [&[b'\n'; 256][..], b"A"].concat();
    vec![
        gives("The first piece has the number 0", 0, b"AB\nC\nDEF", b"AB\n"),
        gives("The piece in the middle", 1, b"AB\nC\nDEF", b"C\n"),
        gives("The last piece", 2, b"AB\nC\nDEF", b"DEF"),
        gives("One past the last there is no piece", 3, b"AB\nC\nDEF", b""),
        gives("nor two past it", 4, b"AB\nC\nDEF", b""),
        gives("nor at 2 to the 32", 1 << 32, b"AB\nC\nDEF", b""),
        gives("nor at 2 to the 32 and 1", (1 << 32) + 1, b"AB\nC\nDEF", b""),
        gives("nor at 2 to the 63", 1 << 63, b"AB\nC\nDEF", b""),
        gives("nor at 2 to the 64 less 1", u64::MAX, b"AB\nC\nDEF", b""),
        gives("256 LF and a byte, the last LF", 255, &many, b"\n"),
        gives("256 LF and a byte, the byte", 256, &many, b"A"),
        gives("256 LF and a byte, one past it", 257, &many, b""),
        gives("No text has no piece", 0, b"", b""),
        gives("nor far past", u64::MAX, b"", b""),
        gives("A text without LF is its only piece", 0, b"AB", b"AB"),
        gives("A text without LF has no other", 1, b"AB", b""),
        gives("LF alone is a piece", 0, b"\n", b"\n"),
        gives("LF alone has no other", 1, b"\n", b""),
        gives("Three LF in a row, the first", 0, b"\n\n\n", b"\n"),
        gives("Three LF in a row, the last", 2, b"\n\n\n", b"\n"),
        gives("Three LF in a row, one past the last", 3, b"\n\n\n", b""),
        gives("LF in a row inside a text, before them", 0, b"A\n\n\nB", b"A\n"),
        gives("LF in a row inside a text, one of them", 2, b"A\n\n\nB", b"\n"),
        gives("LF in a row inside a text, behind them", 3, b"A\n\n\nB", b"B"),
        gives("CR LF is one piece", 0, b"\r\n", b"\r\n"),
        gives("CR LF has no other", 1, b"\r\n", b""),
        gives("A line that ends in CR LF", 1, b"A\r\nB\r\nC", b"B\r\n"),
        gives("CR alone ends no piece", 0, b"A\rB", b"A\rB"),
        gives("CR behind LF begins the next", 1, b"A\n\rB", b"\rB"),
        gives("The last piece of a text that ends with LF", 1, b"A\nB\n", b"B\n"),
        gives("One past the last of a text that ends with LF", 2, b"A\nB\n", b""),
        gives("The last piece of a text that ends without LF", 1, b"A\nB", b"B"),
        gives("One past the last of a text that ends without LF", 2, b"A\nB", b""),
        gives("A piece of any bytes", 1, b"\x0B\x85\n\0]\xFF[\n\n", b"\0]\xFF[\n"),
        gives("The first line of the whole case", 0, &whole, &piece("A T1 100")),
        gives("A line of the whole case", 3, &whole, &piece("A T9 5")),
        gives("The end of day of the whole case", 7, &whole, b"\r\n"),
        gives("The end of day of the whole case but its last byte", 7, &whole[..whole.len() - 1], b"\r"),
        gives("One past the end of day of the whole case", 8, &whole, b""),
        says("A piece's number of no byte is a bad case", b'z', vec![], "bad case"),
        says("A piece's number of one byte is a bad case", b'z', vec![0], "bad case"),
        says("A piece's number of seven bytes is a bad case", b'z', b"\0\0\0\0\0\0\n".to_vec(), "bad case"),
        says("A piece's number of eight bytes has no text", b'z', b"\0\0\0\0\0\0\0\n".to_vec(), "given []"),
    ]
}

/// Pieces of texts, and the sheet program's steps.
#[rustfmt::skip]
fn texts() -> Vec<Vector> {
    let whole = capture(WHOLE_CASE);
    let printed = format!("fed [line 7 refused 7\n{WHOLE_SHEET}]");
    let mut all = vec![
        says("A piece runs up to and including the next LF", b'x', piece_payload(0, b"A\nB"), "piece 0 2"),
        says("or to the end of the text", b'x', piece_payload(2, b"A\nB"), "piece 2 3"),
        says("from any place", b'x', piece_payload(1, b"A\nB"), "piece 1 2"),
        says("At the end nothing is left", b'x', piece_payload(3, b"A\nB"), "piece none"),
        says("nor past it", b'x', piece_payload(u64::MAX, b"A\nB"), "piece none"),
        says("An empty text has no piece", b'x', piece_payload(0, b""), "piece none"),
        says("A reader over no text", b'y', vec![], "pieces 0"),
        says("A reader over a text without LF", b'y', b"AB".to_vec(), "pieces 1"),
        says("A reader over LF alone", b'y', b"\n".to_vec(), "pieces 1"),
        says("A reader over CR alone", b'y', b"\r".to_vec(), "pieces 1"),
        says("A reader over CR LF", b'y', b"\r\n".to_vec(), "pieces 1"),
        says("A reader over LF CR", b'y', b"\n\r".to_vec(), "pieces 2"),
        says("A reader over three LF in a row", b'y', b"\n\n\n".to_vec(), "pieces 3"),
        says("A reader over a text that ends with LF", b'y', b"A\nB\n".to_vec(), "pieces 2"),
        says("A reader over a text that ends without LF", b'y', b"A\nB\nC".to_vec(), "pieces 3"),
        says("A reader over LF in a row inside a text", b'y', b"A\n\n\nB".to_vec(), "pieces 4"),
        says("A reader over the whole case", b'y', whole.clone(), "pieces 8"),
        says("A reader over the whole case but its last byte", b'y', whole[..whole.len() - 1].to_vec(), "pieces 8"),
        says("A reader over the whole case and one byte more", b'y', [&whole[..], b"\0"].concat(), "pieces 9"),
        says("The whole case in chunks of 1", b'c', capture_payload(64, &[1], &whole), &printed),
        says("The whole case in chunks of 139 and 2", b'c', capture_payload(65, &[139, 2], &whole), &printed),
        says("The whole case in one chunk", b'c', capture_payload(60_000, &[2_000], &whole), &printed),
        says("Empty input", b'c', capture_payload(64, &[1], b""), "fed [orders 0 families 0\n]"),
        says("A last piece without LF", b'c', capture_payload(64, &[1], &whole[..139]),
            "fed [line 1 refused 1\norders 0 families 0\n]"),
        says("A piece above 140 bytes", b'c', capture_payload(64, &[140], &[b'x'; 1_000]),
            "fed [line 1 refused 1\norders 0 families 0\n]"),
        says("No size is a bad case", b'c', capture_payload(64, &[], &whole), "bad case"),
        says("A size of 0 is a bad case", b'c', capture_payload(64, &[1, 0], &whole), "bad case"),
        says("A room of 63 is a bad case", b'c', capture_payload(63, &[1], &whole), "bad case"),
    ];
    all.extend(pieces_by_number());
    all
}

/// All of them, in the order of their cases: the table in hand goes from one to the next.
pub fn all() -> Vec<Vector> {
    papers().into_iter().chain(records()).chain(tables()).chain(texts()).chain(quotes()).collect()
}

/// Writes their cases.
pub fn write(out: &mut impl Write) -> Written {
    for vector in all() {
        put(out, b'n', vector.name.as_bytes())?;
        put(out, vector.kind, &vector.payload)?;
    }
    Ok(())
}
