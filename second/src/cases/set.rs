//! The whole set of cases: both sides of every bound, and random ones.

use std::io::Write;

use crate::cases::case::{put, room_payload, Written};
use crate::cases::contents::{contents, lawful_line, mutate};
use crate::cases::hand::Hand;
use crate::cases::lines;
use crate::cases::random::Random;
use crate::cases::records::{self, Changes};
use crate::cases::saved;
use crate::cases::tables;
use crate::cases::texts;
use crate::rules::fields::{FIELDS, LETTERS};
use crate::rules::record::Record;

/// Writes the whole set: both sides of every bound, and random cases.
pub fn write(seed: u64, count: u64, out: &mut impl Write) -> Written {
    let random = &mut Random::new(seed);
    bounds(random, out)?;
    by_chance(count, random, out)
}

/// Writes the random cases alone.
pub fn write_random(seed: u64, count: u64, out: &mut impl Write) -> Written {
    by_chance(count, &mut Random::new(seed), out)
}

/// Writes the cases of saved days alone: the proved trial has no such kinds yet.
pub fn write_saved(seed: u64, count: u64, out: &mut impl Write) -> Written {
    let random = &mut Random::new(seed);
    saved::bounds(random, &mut Hand::new(out))?;
    saved::by_chance(count, random, &mut Hand::new(out))
}

/// The names between the parts help to find a difference.
fn bounds(random: &mut Random, out: &mut impl Write) -> Written {
    for letter in LETTERS {
        let line = lawful_line(*letter, random);
        put(out, b'n', &[b"lines of ".as_slice(), &[*letter]].concat())?;
        lines::lines(&line, out)?;
        put(out, b'n', &[b"records of ".as_slice(), &[*letter]].concat())?;
        records::writes(&line, out)?;
        records::reads(&line, out)?;
    }
    put(out, b'n', b"numbers of records")?;
    records::numbers_read(&lawful_line(b'E', random), out)?;
    put(out, b'n', b"every byte at every place")?;
    lines::every_byte(&lawful_line(b'E', random), out)?;
    lines::every_byte(&lawful_line(b'U', random), out)?;
    put(out, b'n', b"lengths and ends")?;
    lines::lengths(&lawful_line(b'E', random), out)?;
    put(out, b'n', b"strikes and clocks")?;
    lines::strikes_and_clocks(out)?;
    put(out, b'n', b"bad cases")?;
    bad_cases(&lawful_line(b'E', random), out)?;
    tables::bounds(random, &mut Hand::new(out))?;
    texts::bounds(random, out)
}

/// As many lines as the count says, and other cases to go with them.
fn by_chance(count: u64, random: &mut Random, out: &mut impl Write) -> Written {
    put(out, b'n', b"random lines and records")?;
    random_lines(count, random, out)?;
    put(out, b'n', b"random strikes and clocks")?;
    lines::random_numbers(count / 20, random, out)?;
    tables::by_chance(count, random, &mut Hand::new(out))?;
    texts::by_chance(random, out)
}

/// Kinds and payloads that are no case. None of them ends the run.
fn bad_cases(line: &[u8], out: &mut impl Write) -> Written {
    for kind in *b"nriwsfktpedloqbahxyzc?Z\0\xFF" {
        for length in [0, 1, 2, 7, 8, 9, 10, 138, 139, 140, 141, 4_096] {
            put(out, kind, &vec![0; length])?;
        }
    }
    for name in [b"\n".as_slice(), b"two\nlines", b"ends\n", b"\r", b"any byte \x00\xFF"] {
        put(out, b'n', name)?;
    }
    for room in [301, 302, 556, 65_535] {
        put(out, b'i', &room_payload(room, line))?;
        put(out, b'w', &room_payload(room, Record::of_line(line).stored()))?;
        put(out, b'w', &room_payload(room, b""))?;
    }
    Ok(())
}

/// Lawful lines changed up to three times; each fourth also as a record, its bytes being changed
/// before it is written, or the line before its record is read.
fn random_lines(count: u64, random: &mut Random, out: &mut impl Write) -> Written {
    let known: Vec<_> = FIELDS.iter().map(contents).collect();
    let changes = Changes::all();
    for case in 0..count {
        let mut line = lawful_line(*random.pick(LETTERS), random);
        let as_record = case % 4 == 0;
        if as_record {
            records::random_write(&line, &changes, random, out)?;
        }
        for _ in 0..random.below(4) {
            mutate(&mut line, &known, random);
        }
        put(out, b'r', &line)?;
        if as_record {
            records::random_read(&line, random, out)?;
        }
    }
    Ok(())
}
