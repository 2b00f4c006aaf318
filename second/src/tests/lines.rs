//! The tests of lines, strikes and records.

use std::ops::Range;

use crate::cases::contents::{broken, lawful_line, with};
use crate::cases::random::Random;
use crate::cases::shorthand::{executed, EXECUTED};
use crate::rules::fields::{BODY, CR_LF, FIELDS, LETTERS, LINE, TIMESTAMP};
use crate::rules::line;
use crate::rules::record::{Record, STORED};
use crate::rules::refusal::Refusal;
use crate::rules::strike;
use crate::tests::law::Law;

pub fn laws() -> [Law; 11] {
    [
        ("The fields lie one behind another over 138 bytes", fields_lie_in_a_row),
        ("Each code is one of its list, each hex digit one of 0-9 A-F", codes_are_of_their_lists),
        ("Of any two broken fields the first is named", first_fields_are_named),
        ("Every length but 2 and 140 is 1", other_lengths_are_refused),
        ("Each strike value has one form", strikes_have_one_form),
        ("A thousand random lawful lines of each type come back", lawful_lines_come_back),
        ("A record's bytes and numbers are those of its line", records_say_their_lines),
        ("A byte without meaning is named by its field, but a bad timestamp comes first", meaningless_bytes_are_named),
        ("Of a broken rule and a byte without meaning the first is named", first_flaws_are_named),
        ("What is written reads as the same record", written_records_come_back),
        ("A record of another length is 3, field 24", other_records_are_refused),
    ]
}

fn fields_lie_in_a_row() -> bool {
    let mut at = 0;
    FIELDS.iter().zip(1..).all(|(field, number)| {
        let follows = field.at == at && field.number == number;
        at += field.len;
        follows && (number < 24 || at == BODY)
    })
}

fn codes_are_of_their_lists() -> bool {
    let months = "ABCDEFGHIJKLMNOPQRSTUVWX";
    let lists = [(2, "AEXCUR"), (4, "CFMPBOJN"), (5, "OC"), (6, "AROarJ"), (14, "BS"), (17, months), (20, "ABCDE")];
    lists.iter().chain(&[(13, "0123456789ABCDEF")]).all(|(field, list)| {
        let at = FIELDS[field - 1].at;
        (0x20..=0x7E).all(|byte: u8| {
            let piece = with(EXECUTED.as_bytes(), at..at + 1, &[byte]);
            let refused = matches!(line::read(&piece), Err(Refusal::Field(named)) if named == *field);
            refused != list.as_bytes().contains(&byte)
        })
    })
}

fn first_fields_are_named() -> bool {
    FIELDS.iter().all(|first| {
        let line = with(EXECUTED.as_bytes(), first.places(), &broken(first));
        FIELDS[first.number..].iter().all(|second| {
            let piece = with(&line, second.places(), &broken(second));
            matches!(line::read(&piece), Err(Refusal::Field(named)) if named == first.number)
        })
    })
}

fn other_lengths_are_refused() -> bool {
    (0..=400).filter(|length| *length != CR_LF.len() && *length != LINE).all(|length| {
        let mut piece = vec![b' '; length];
        if let Some(start) = length.checked_sub(CR_LF.len()) {
            piece[start..].copy_from_slice(CR_LF);
        }
        matches!(line::read(&piece), Err(Refusal::Piece))
    })
}

fn strikes_have_one_form() -> bool {
    (b'A'..=b'E').all(|code| {
        let least = if code == b'E' { 1 } else { 100_000 };
        (least..=999_999).all(|digits| strike::value(code, digits).and_then(strike::form) == Ok((code, digits)))
    })
}

/// A thousand random lawful lines of each type.
fn lawful_lines() -> impl Iterator<Item = Vec<u8>> {
    let mut random = Random::new(1);
    LETTERS.iter().flat_map(|letter| [letter; 1_000]).map(move |letter| lawful_line(*letter, &mut random))
}

fn lawful_lines_come_back() -> bool {
    lawful_lines().all(|piece| {
        let mut record = [0; STORED];
        let mut buffer = [0; LINE];
        let read = line::read_into(&piece, &mut record);
        read.is_ok() && line::write(&record, &mut buffer).is_ok() && buffer[..] == piece[..]
    })
}

/// Whether each field is its bytes, or its digits as a number, by the places that 01 prints.
fn records_say_their_lines() -> bool {
    let numbers = [0..8, 86..92, 99..101, 101..103, 104..110, 110..120, 120..129, 129..138];
    lawful_lines().all(|piece| {
        let mut record = [0; STORED];
        let read = line::read_into(&piece, &mut record).is_ok();
        let is_number = |place: &Range<usize>| {
            let little_end_first = record[place.clone()].iter().rev();
            let number = little_end_first.fold(0, |number, byte| number << 8 | u128::from(*byte));
            let digits = String::from_utf8_lossy(&piece[place.clone()]);
            digits.trim().parse().unwrap_or(0_u128) == number
        };
        let others = (0..STORED).filter(|place| !numbers.iter().any(|number| number.contains(place)));
        read && numbers.iter().all(is_number) && others.into_iter().all(|place| record[place] == piece[place])
    })
}

/// The field of the first byte without meaning, as LAYOUT lists them.
fn meaningless(record: &[u8; STORED]) -> Option<usize> {
    let trades = matches!(record[8], b'E' | b'C');
    let holds = |places: Range<usize>| record[places].iter().any(|byte| *byte != 0);
    let listed = [
        (2, !b"AEXCUR".contains(&record[8])),
        (6, !trades && record[15] != b' '),
        (22, holds(118..120)),
        (23, holds(128..129) || !trades && holds(120..128)),
        (24, holds(137..138) || !trades && holds(129..137)),
    ];
    listed.into_iter().find(|(_, without)| *without).map(|(field, _)| field)
}

/// Whether writing these bytes names a field.
fn names(stored: &[u8], field: usize) -> bool {
    line::write(stored, &mut [0; LINE]) == Err(Refusal::Field(field))
}

/// Every byte at every place of lawful records, and of the same with the first of all rules broken.
fn meaningless_bytes_are_named() -> bool {
    let mut random = Random::new(2);
    LETTERS.iter().all(|letter| {
        let lawful = Record::of_line(&lawful_line(*letter, &mut random));
        let mut late = lawful.clone();
        late.set_number(TIMESTAMP, u64::MAX);
        (0..STORED).all(|place| {
            let (mut lawful, mut late) = (*lawful.stored(), *late.stored());
            (0..=255).all(|byte| {
                lawful[place] = byte;
                late[place] = byte;
                meaningless(&lawful).is_none_or(|field| names(&lawful, field)) && names(&late, TIMESTAMP)
            })
        })
    })
}

/// Bytes that break a field's rule on every type, by the field and their place (01, The line).
/// Liquidity and the ids stand apart: only an E and a C have them.
#[rustfmt::skip]
const UNLAWFUL: [(usize, usize, &[u8]); 20] = [
    (1, 0, &[0x00, 0x5C, 0x26, 0x05]), (3, 9, b" "), (4, 13, b"X"), (5, 14, b"A"), (7, 16, b" B"), (8, 20, b"x"),
    (9, 25, b" 1"), (10, 30, b" "), (11, 36, b" "), (12, 56, b"\x7F"), (13, 76, b"a"), (14, 85, b"A"),
    (15, 86, &[0; 6]), (16, 92, b" "), (17, 98, b"Y"), (18, 99, &[32]), (19, 101, &[100]), (20, 103, b"F"),
    (21, 104, &[0; 6]), (22, 110, &[0x00, 0xE4, 0x0B, 0x54, 0x02]),
];
const UNLAWFUL_TRADE: [(usize, usize, &[u8]); 3] =
    [(6, 15, b" "), (23, 120, &[0x00, 0xCA, 0x9A, 0x3B]), (24, 129, &[0x00, 0xCA, 0x9A, 0x3B])];
/// Bytes without meaning, on every type and where the type has no liquidity and no ids.
const MEANINGLESS: [(usize, usize, &[u8]); 5] =
    [(2, 8, b"B"), (22, 118, &[1]), (22, 119, &[1]), (23, 128, &[1]), (24, 137, &[1])];
const MEANINGLESS_UNTRADED: [(usize, usize, &[u8]); 3] = [(6, 15, b"A"), (23, 120, &[1]), (24, 129, &[1])];

/// Every broken rule with every byte without meaning, on each type.
fn first_flaws_are_named() -> bool {
    let mut random = Random::new(3);
    LETTERS.iter().all(|letter| {
        let lawful = *Record::of_line(&lawful_line(*letter, &mut random)).stored();
        let trades = matches!(letter, b'E' | b'C');
        let unlawful = [&UNLAWFUL[..], if trades { &UNLAWFUL_TRADE } else { &[] }].concat();
        let meaningless = [&MEANINGLESS[..], if trades { &[] } else { &MEANINGLESS_UNTRADED }].concat();
        unlawful.iter().all(|(broken, at, content)| {
            let stored = with(&lawful, *at..at + content.len(), content);
            names(&stored, *broken)
                && meaningless.iter().all(|(without, at, content)| {
                    let stored = with(&stored, *at..at + content.len(), content);
                    names(&stored, *broken.min(without))
                })
        })
    })
}

/// Every byte at every place of lawful records: a line is written for one record alone.
fn written_records_come_back() -> bool {
    let mut random = Random::new(4);
    LETTERS.iter().all(|letter| {
        let lawful = *Record::of_line(&lawful_line(*letter, &mut random)).stored();
        (0..STORED).all(|place| {
            (0..=255).all(|byte| {
                let stored = with(&lawful, place..place + 1, &[byte]);
                let (mut line, mut again) = ([0; LINE], [0; STORED]);
                let written = line::write(&stored, &mut line).is_ok();
                !written || line::read_into(&line, &mut again).is_ok() && again[..] == stored
            })
        })
    })
}

fn other_records_are_refused() -> bool {
    let stored = Record::of_line(&executed(&[])).stored().repeat(3);
    (0..=stored.len()).filter(|length| *length != STORED).all(|length| {
        names(&stored[..length], 24)
            && names(&vec![0xFF; length], 24)
            && line::write(&stored[..length], &mut [0; LINE - 1]) == Err(Refusal::Buffer)
    })
}
