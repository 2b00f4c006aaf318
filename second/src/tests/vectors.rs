//! The vectors as tests: whether the trial says what they want, and more of them about lines, records and cases.

use crate::cases::case::room_payload;
use crate::cases::saved_vectors::{saved_days, SAVED};
use crate::cases::shorthand::{executed, untraded, EXECUTED, NO_TOKEN};
use crate::cases::vectors::{self, reads, refused_field, says, unwritten, Says, Vector};
use crate::rules::record::Record;
use crate::rules::trial::Trial;

/// The vectors that are cases too, and those that are tests alone: those about saved days until the proved trial has such
/// cases.
pub fn all() -> Vec<Vector> {
    vectors::all().into_iter().chain(saved_days()).chain(more()).collect()
}

/// Whether the trial says what the vector wants. It keeps the table in hand for the next vector.
pub fn holds(vector: &Vector, trial: &mut Trial) -> bool {
    let mut said = Vec::new();
    trial.answer(vector.kind, &vector.payload, &mut said);
    let shown = String::from_utf8_lossy(&said);
    match &vector.says {
        Says::Words(words) => said.strip_suffix(b"\n") == Some(words),
        Says::Sum(before, after) => {
            let sum = shown.strip_prefix(before).and_then(|rest| rest.strip_suffix("\n")?.strip_suffix(after.as_str()));
            sum.is_some_and(|sum| sum.strip_prefix(" sum ").is_some_and(|digits| digits.parse::<u32>().is_ok()))
        }
        Says::Record(parts) => {
            let written = written_back(&String::from_utf8_lossy(&vector.payload));
            shown
                .strip_suffix(&written)
                .is_some_and(|shown| shown.starts_with("read record ") && parts.iter().all(|part| shown.contains(part)))
        }
    }
}

/// The four writes that follow a record, when its line is the given one.
fn written_back(line: &str) -> String {
    let dots = ".".repeat(139);
    let tail = ".".repeat(12);
    format!(
        "write 0 refused 4 []\nwrite 139 refused 4 [{dots}]\nwrite 140 done [{line}]\nwrite 152 done [{line}{tail}]\n"
    )
}

/// The record of a line with another number in one field, as bytes.
fn with_number(line: &[u8], field: usize, number: u64) -> Vec<u8> {
    let mut record = Record::of_line(line);
    record.set_number(field, number);
    record.stored().to_vec()
}

/// The same with other bytes.
fn with_bytes(line: &[u8], field: usize, content: &[u8]) -> Vec<u8> {
    let mut record = Record::of_line(line);
    record.set(field, content);
    record.stored().to_vec()
}

#[rustfmt::skip]
fn more() -> Vec<Vector> {
    let line = executed(&[]);
    let replaced = untraded("U", &[]);
    let record = Record::of_line(&line);
    let whole_line = format!("write 300 done [{}{}]", EXECUTED, ".".repeat(160));
    vec![
        refused_field("Liquidity on an A is 3, field 6", untraded("A", &[(6, "A")]), 6),
        refused_field("A blank Liquidity on an E is 3, field 6", executed(&[(6, " ")]), 6),
        refused_field("A Clearing Account that begins with a space is 3, field 7", executed(&[(7, " BSI")]), 7),
        refused_field("A Replaced Token on an A is 3, field 12", untraded("A", &[(12, "T                   ")]), 12),
        refused_field("A blank Replaced Token on a U is 3, field 12", untraded("U", &[]), 12),
        refused_field("A Match Id on an X is 3, field 23", untraded("X", &[(23, "        1")]), 23),
        refused_field("A blank Cross Id on a C is 3, field 24", executed(&[(2, "C"), (24, "         ")]), 24),
        refused_field("The first of two broken fields is named", executed(&[(24, "        x"), (3, " 75C")]), 3),
        refused_field("The type is broken before the fields it rules", executed(&[(2, "B"), (6, " ")]), 2),
        refused_field("Date 00 is 3, field 18", executed(&[(18, "00")]), 18),
        refused_field("Date 32 is 3, field 18", executed(&[(18, "32")]), 18),
        refused_field("A strike of six 0 under E is 3, field 21", executed(&[(20, "E"), (21, "000000")]), 21),
        refused_field("A whole part with a leading zero is 3, field 22", executed(&[(22, "    010500")]), 22),
        reads("The Date isn't checked against its month", executed(&[(17, "B"), (18, "31")]), &[" 17[B] 18[31] "]),
        reads("Fields 7, 8 and 9 may be blank", executed(&[(7, "    "), (8, "     "), (9, "     ")]),
            &[" 7[    ] 8[     ] 9[     ] "]),
        reads("E 000001 is the least strike", executed(&[(20, "E"), (21, "000001")]), &[" 20[E] 21[000001] "]),
        reads("An id of 0 is one digit 0", executed(&[(23, "        0")]), &[" 23[        0] "]),
        unwritten("Timestamp 86400000 isn't written", with_number(&line, 1, 86_400_000), 1),
        unwritten("A bad text byte counts as its field", with_bytes(&line, 3, b"17\x7FC"), 3),
        unwritten("A Replaced Token on an E isn't written", with_bytes(&line, 12, b"T                   "), 12),
        unwritten("A blank Replaced Token on a U isn't written", with_bytes(&replaced, 12, NO_TOKEN.as_bytes()), 12),
        unwritten("Contracts of 1,000,000 aren't written", with_number(&line, 15, 1_000_000), 15),
        unwritten("A strike below six digits under C isn't written", with_number(&line, 21, 99_999), 21),
        unwritten("A price of 1,000,000 dollars isn't written", with_number(&line, 22, 10_000_000_000), 22),
        unwritten("An id of ten digits isn't written", with_number(&line, 24, 1_000_000_000), 24),
        unwritten("A year of three digits isn't written", with_number(&line, 19, 100), 19),
        says("Writing changes only the first 140 bytes", b'w', room_payload(300, record.stored()), &whole_line),
        says("A name with LF is a bad case", b'n', b"a\nb".to_vec(), "bad case"),
        says("A kind that is not listed is a bad case", b'?', vec![], "bad case"),
        says("A timestamp of 2 to the 64 less 1 leaves four numbers", b'k', vec![0xFF; 8],
            "clock refused 3 field 1 left 7 8 9 10"),
        says("A value of 2 to the 64 less 1 leaves two numbers", b'f', vec![0xFF; 8], "form refused 3 field 21 left 7 8"),
        says("A strike of 2 to the 64 less 1 leaves one number", b's', [&b"E"[..], &[0xFF; 8]].concat(),
            "strike refused 3 field 21 left 7"),
        says("A strike without its number is a bad case", b's', b"A".to_vec(), "bad case"),
        says("A table of 40,968 bytes, without quote rows", b't', vec![0; 40_968], format!("table 40968 sum {}", 40_968 * 65_536_u64 + 1)),
        says("is damaged", b'd', vec![], "damaged"),
        says("and too short to be made empty", b'e', vec![], format!("empty refused 4 sum {}", 40_968 * 65_536_u64 + 1)),
        says("or to be loaded into", b'g', SAVED.to_vec(), format!("load refused 4 sum {}", 40_968 * 65_536_u64 + 1)),
        says("A table of 47,241 bytes", b't', vec![0; 47_241], format!("table 47241 sum {}", 47_241 * 65_536_u64 + 1)),
        says("is damaged too", b'd', vec![], "damaged"),
        says("and too long to be made empty", b'e', vec![], format!("empty refused 5 sum {}", 47_241 * 65_536_u64 + 1)),
        says("or to be loaded into, whatever the bytes are", b'g', vec![], format!("load refused 5 sum {}", 47_241 * 65_536_u64 + 1)),
        says("A table of 47,400 bytes", b't', vec![0; 47_400], format!("table 47400 sum {}", 47_400 * 65_536_u64 + 1)),
        says("A table of 47,401 bytes is a bad case", b't', vec![0; 47_401], "bad case"),
    ]
}
