//! The tests of texts and of whole runs of the trial.

use crate::cases::case::{piece_payload, put};
use crate::cases::random::Random;
use crate::cases::texts::{pieces, random_text};
use crate::rules::trial::{self, Trial};
use crate::tests::law::Law;

pub fn laws() -> [Law; 5] {
    [
        ("A reader gives a piece for each LF and one for a rest", readers_give_all_pieces),
        ("The pieces by number, one behind another, are the text", numbers_give_all_pieces),
        ("Input that ends inside a case ends the run", cut_input_ends_the_run),
        ("A payload of 65,537 bytes ends the run", a_long_case_ends_the_run),
        ("No generator writes a payload of 65,537 bytes", no_long_case_is_written),
    ]
}

/// What the trial says to one case.
fn answer(kind: u8, payload: &[u8]) -> Vec<u8> {
    let mut said = Vec::new();
    Trial::default().answer(kind, payload, &mut said);
    said
}

/// How many pieces follow one another, each asked for at the end of the one before. None is empty.
fn pieces_in_turn(text: &[u8]) -> Option<u64> {
    let mut place: u64 = 0;
    for count in 0..=text.len() as u64 {
        let said = String::from_utf8(answer(b'x', &piece_payload(place, text))).ok()?;
        if said == "piece none\n" {
            return (place == text.len() as u64).then_some(count);
        }
        let (start, end) = said.strip_prefix("piece ")?.trim_end().split_once(' ')?;
        if start != place.to_string() {
            return None;
        }
        place = end.parse().ok()?;
    }
    None
}

fn readers_give_all_pieces() -> bool {
    let mut random = Random::new(5);
    (0..200).all(|_| {
        let mut text = random_text(&mut random);
        text.truncate(2_000);
        let count = pieces(&text);
        answer(b'y', &text) == format!("pieces {count}\n").as_bytes() && pieces_in_turn(&text) == Some(count)
    })
}

/// Whether a reader gives this piece as the one with the number.
fn gives(number: u64, text: &[u8], piece: &[u8]) -> bool {
    answer(b'z', &piece_payload(number, text)) == [b"given [", piece, b"]\n"].concat()
}

fn numbers_give_all_pieces() -> bool {
    let mut random = Random::new(6);
    (0..200).all(|_| {
        let mut text = random_text(&mut random);
        text.truncate(500);
        let (mut number, mut rest) = (0, text.as_slice());
        while !rest.is_empty() {
            let end = rest.iter().position(|byte| *byte == b'\n').map_or(rest.len(), |at| at + 1);
            if !gives(number, &text, &rest[..end]) {
                return false;
            }
            number += 1;
            rest = &rest[end..];
        }
        [number, number + 1, u64::MAX].into_iter().all(|past| gives(past, &text, b""))
    })
}

fn trial_of(cases: &[u8]) -> Vec<u8> {
    let mut said = Vec::new();
    trial::run(&mut &*cases, &mut said).expect("memory takes every byte");
    said
}

fn two_names() -> Vec<u8> {
    let mut two = Vec::new();
    put(&mut two, b'n', b"one").expect("memory takes every byte");
    put(&mut two, b'n', b"two").expect("memory takes every byte");
    two
}

fn cut_input_ends_the_run() -> bool {
    let two = two_names();
    (8..two.len()).all(|end| trial_of(&two[..end]) == b"== one\n") && trial_of(&two) == b"== one\n== two\n"
}

fn a_long_case_ends_the_run() -> bool {
    let long = [&b"n"[..], &(trial::LONGEST as u32 + 1).to_le_bytes(), &[b'x'; trial::LONGEST + 1]].concat();
    trial_of(&[two_names(), long, two_names()].concat()) == b"== one\n== two\ncase too long\n"
}

fn no_long_case_is_written() -> bool {
    let (mut longest, mut longer) = (vec![], vec![]);
    put(&mut longest, b'n', &[b'x'; trial::LONGEST]).is_ok()
        && trial_of(&longest).len() == trial::LONGEST + b"== \n".len()
        && put(&mut longer, b'n', &[b'x'; trial::LONGEST + 1]).is_err()
        && longer.is_empty()
}
