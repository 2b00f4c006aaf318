//! Cases about records as bytes: written into buffers of every size, and read from pieces.

use std::io::Write;
use std::ops::Range;

use crate::cases::case::{put, room_payload, Written};
use crate::cases::contents::{broken, contents, numbers_around, spoiled, with, EDGES};
use crate::cases::random::Random;
use crate::rules::fields::{Field, BODY, CROSS_ID, CR_LF, DENOMINATOR, FIELDS, LINE, MATCH_ID, PRICE, STRIKE};
use crate::rules::record::{Record, NUMBER, STORED};
use crate::rules::trial::LONGEST;

/// Buffers for a line, and for a record.
const LINE_ROOMS: [u16; 6] = [0, 1, 139, 140, 141, 300];
const RECORD_ROOMS: [u16; 7] = [0, 1, 137, 138, 139, 140, 300];
/// Lengths that no record has: it ends before its type, behind it or before its last field, or it is
/// followed by more, once by another record.
const LENGTHS: [usize; 11] = [0, 1, 2, 8, 9, 129, STORED - 1, STORED + 1, LINE, 2 * STORED, 298];
/// Bytes for every place of a number: none, the least, a space, and around a sign.
const PARTS: &[u8] = b"\x00\x01\x20\x7F\x80\xFF";

/// Writes the case of a record, given as bytes, that is written into so many bytes.
fn put_write(room: u16, stored: &[u8], out: &mut impl Write) -> Written {
    put(out, b'w', &room_payload(room, stored))
}

// Writing.

/// Every field of a lawful line's record with each of its contents, into buffers of every size; the
/// strike also under each code and its neighbours; other lengths; and every two flaws at once.
pub fn writes(line: &[u8], out: &mut impl Write) -> Written {
    let record = Record::of_line(line);
    let stored = record.stored();
    let mut rooms = LINE_ROOMS.iter().cycle();
    for room in LINE_ROOMS {
        put_write(room, stored, out)?;
    }
    for field in &FIELDS {
        for (content, room) in stored_contents(field).iter().zip(&mut rooms) {
            let changed = with(stored, field.places(), content);
            put_write(140, &changed, out)?;
            put_write(*room, &changed, out)?;
        }
    }
    let (denominator, strike) = (&FIELDS[DENOMINATOR - 1], &FIELDS[STRIKE - 1]);
    for code in b'@'..=b'F' {
        let stored = with(stored, denominator.places(), &[code]);
        for content in stored_contents(strike) {
            put_write(140, &with(&stored, strike.places(), &content), out)?;
        }
    }
    lengths(stored, out)?;
    flaws_at_once(stored, out)
}

/// Contents for a field of a record, of its width.
fn stored_contents(field: &Field) -> Vec<Vec<u8>> {
    if !field.holds_number() {
        return contents(field);
    }
    let most = most(field);
    let wide = [most, most - 1, most / 2, most / 2 + 1];
    let numbers = numbers_around(field).into_iter().filter(|number| *number <= most).chain(wide);
    let mut all: Vec<_> = numbers.map(|number| stored_number(number, field.len)).collect();
    all.extend(spoiled(&stored_number(1, field.len), PARTS));
    all.push(vec![0xFF; field.len]);
    all
}

/// The largest number that a field of a record can hold.
fn most(field: &Field) -> u64 {
    u64::MAX >> (8 * (NUMBER - field.len.min(NUMBER)))
}

/// A number in so many bytes, which must hold it.
fn stored_number(number: u64, len: usize) -> Vec<u8> {
    let mut stored = number.to_le_bytes().to_vec();
    stored.resize(len, 0);
    stored
}

/// Records cut short and longer ones, lawful as far as they go or with another flaw, which is not
/// named then.
fn lengths(stored: &[u8], out: &mut impl Write) -> Written {
    let endless = stored.repeat(LONGEST / STORED + 1);
    for length in LENGTHS {
        for room in [139, 140] {
            put_write(room, &endless[..length], out)?;
        }
        let mut filled = stored.to_vec();
        filled.resize(length, 0);
        put_write(140, &filled, out)?;
        filled.fill(b'~');
        put_write(140, &filled, out)?;
    }
    put_write(140, &endless[..LONGEST - 2], out)
}

/// What is wrong with a record: the bytes that it has in some places.
type Flaw = (Range<usize>, Vec<u8>);

/// Every field unlawful, then those bytes of numbers that mean nothing.
fn flaws() -> Vec<Flaw> {
    let unlawful = |field: &Field| {
        if field.holds_number() {
            return stored_number(most(field), field.len);
        }
        broken(field)
    };
    let fields = FIELDS.iter().map(|field| (field.places(), unlawful(field)));
    let behind_numbers = [PRICE, MATCH_ID, CROSS_ID].iter().flat_map(|field| {
        let places = FIELDS[field - 1].places();
        (places.start + NUMBER..places.end).map(|place| (place..place + 1, vec![1]))
    });
    fields.chain(behind_numbers).collect()
}

/// Every two flaws, of which the first must be named: two broken rules, two bytes without meaning, or
/// one of each, also in one field.
fn flaws_at_once(stored: &[u8], out: &mut impl Write) -> Written {
    let flaws = flaws();
    for (number, (places, content)) in flaws.iter().enumerate() {
        let stored = with(stored, places.clone(), content);
        put_write(139, &stored, out)?;
        for (places, content) in &flaws[number..] {
            put_write(140, &with(&stored, places.clone(), content), out)?;
        }
    }
    Ok(())
}

// Reading.

/// A lawful line, an end of day and pieces that are refused, into buffers of every size.
pub fn reads(line: &[u8], out: &mut impl Write) -> Written {
    let first_and_last = [&FIELDS[0], &FIELDS[CROSS_ID - 1]].map(|field| with(line, field.places(), &broken(field)));
    let pieces = [
        line,
        CR_LF,
        b"",
        &line[..BODY],
        &line[..LINE - 1],
        &[line, b" "].concat(),
        &with(line, 60..61, b"\x7F"),
        &with(&first_and_last[1], 0..1, b"\x1F"),
        &first_and_last[0],
        &first_and_last[1],
    ];
    for piece in pieces {
        for room in RECORD_ROOMS {
            put(out, b'i', &room_payload(room, piece))?;
        }
    }
    Ok(())
}

/// Every field that is kept as a number, with each of its contents.
pub fn numbers_read(line: &[u8], out: &mut impl Write) -> Written {
    for field in FIELDS.iter().filter(|field| field.holds_number()) {
        for content in contents(field) {
            put(out, b'i', &room_payload(138, &with(line, field.places(), &content)))?;
        }
    }
    Ok(())
}

// Random cases.

/// What a record may be changed to: for each field its known contents, and the flaws.
pub struct Changes {
    contents: Vec<Vec<Vec<u8>>>,
    flaws: Vec<Flaw>,
}

impl Changes {
    pub fn all() -> Changes {
        Changes { contents: FIELDS.iter().map(stored_contents).collect(), flaws: flaws() }
    }

    fn make_one(&self, stored: &mut [u8], random: &mut Random) {
        match random.below(4) {
            0 => {
                let byte = if random.once_in(2) { *random.pick(EDGES) } else { random.any() as u8 };
                stored[random.below(STORED)] = byte;
            }
            1 => {
                let (places, content) = random.pick(&self.flaws);
                stored[places.clone()].copy_from_slice(content);
            }
            _ => {
                let field = random.pick(&FIELDS);
                stored[field.places()].copy_from_slice(random.pick::<Vec<u8>>(&self.contents[field.number - 1]));
            }
        }
    }
}

/// The record of a lawful line, changed up to three times.
pub fn random_write(line: &[u8], changes: &Changes, random: &mut Random, out: &mut impl Write) -> Written {
    let mut stored = Record::of_line(line).stored().to_vec();
    for _ in 0..random.below(4) {
        changes.make_one(&mut stored, random);
    }
    if random.once_in(32) {
        stored.resize(random.below(2 * LINE), 0);
    }
    put_write(random_room(&LINE_ROOMS, 140, random), &stored, out)
}

/// A piece read as a record's bytes.
pub fn random_read(piece: &[u8], random: &mut Random, out: &mut impl Write) -> Written {
    let room = random_room(&RECORD_ROOMS, 138, random);
    put(out, b'i', &room_payload(room, piece))
}

/// Most often a buffer that is just long enough.
fn random_room(rooms: &[u16], enough: u16, random: &mut Random) -> u16 {
    if random.once_in(4) {
        return *random.pick(rooms);
    }
    enough
}
