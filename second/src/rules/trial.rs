//! The trial: reads cases and prints the answers (TRIAL).

use std::io::{self, ErrorKind, Read, Write};
use std::ops::RangeInclusive;

use crate::rules::clock;
use crate::rules::fields::{FIELDS, LF};
use crate::rules::line::{self, Reading};
use crate::rules::record::Record;
use crate::rules::refusal::Refusal;
use crate::rules::saved;
use crate::rules::sheet;
use crate::rules::strike;
use crate::rules::sum::sum;
use crate::rules::table;

/// The longest payload.
pub const LONGEST: usize = 65_536;
/// The longest buffer that an `i`, `w`, `o` or `q` case may ask for, and the longest for a sheet or a saved day.
const WIDEST: usize = 300;
pub const WIDEST_OUTPUT: usize = 60_000;
/// The most answers that an `a` case may ask for.
pub const MOST_ANSWERS: usize = 1_000;
/// The longest table in hand.
pub const LONGEST_TABLE: usize = 47_400;
/// What a step of the sheet program may write.
const ROOMS: RangeInclusive<u32> = 64..=60_000;
/// The buffers that a record is written back into after it was read.
const WRITTEN_BACK: [usize; 4] = [0, 139, 140, 152];
/// What a buffer is filled with before an entry is called, what the kind of a piece is before, and what
/// the lent numbers are.
const UNTOUCHED: u8 = b'.';
const UNTOLD: u8 = 7;
const LENT: [&str; 4] = ["7", "8", "9", "10"];
const UNANSWERED: u32 = 99_999;

/// Answers case after case until the input ends, or a case is too long.
pub fn run(input: &mut impl Read, output: &mut impl Write) -> io::Result<()> {
    let mut trial = Trial::default();
    let mut payload = vec![0; LONGEST];
    let mut said = Vec::new();
    let mut head = [0; 5];
    while filled(input, &mut head)? {
        let [kind, length @ ..] = head;
        let length = u32::from_le_bytes(length) as usize;
        if length > LONGEST {
            output.write_all(b"case too long\n")?;
            break;
        }
        if !filled(input, &mut payload[..length])? {
            break;
        }
        said.clear();
        trial.answer(kind, &payload[..length], &mut said);
        output.write_all(&said)?;
    }
    output.flush()
}

/// Reads as many bytes as there are places; false if the input ends before.
fn filled(input: &mut impl Read, place: &mut [u8]) -> io::Result<bool> {
    match input.read_exact(place) {
        Ok(()) => Ok(true),
        Err(error) if error.kind() == ErrorKind::UnexpectedEof => Ok(false),
        Err(error) => Err(error),
    }
}

/// What goes from case to case.
#[derive(Default)]
pub struct Trial {
    /// The table in hand.
    table: Vec<u8>,
}

impl Trial {
    /// Prints the answer to one case. Each kind says nothing to a payload that it cannot understand.
    pub fn answer(&mut self, kind: u8, payload: &[u8], out: &mut Vec<u8>) {
        let understood = match kind {
            b'n' => name(payload, out),
            b'r' => read(payload, out),
            b'i' => read_into(payload, out),
            b'w' => write(payload, out),
            b's' => strike_value(payload, out),
            b'f' => strike_form(payload, out),
            b'k' => clock_time(payload, out),
            b't' => self.take(payload, out),
            b'p' => self.patch(payload, out),
            b'e' => self.make_empty(payload, out),
            b'd' => self.damage(payload, out),
            b'l' => self.look_up(payload, out),
            b'o' => self.order(payload, out),
            b'q' => self.quote(payload, out),
            b'b' => self.book(payload, out),
            b'a' => self.book_all(payload, out),
            b'h' => self.sheet(payload, out),
            b'v' => self.save(payload, out),
            b'g' => self.load(payload, out),
            b'x' => next_piece(payload, out),
            b'y' => pieces(payload, out),
            b'z' => given(payload, out),
            b'c' => fed(payload, out),
            _ => None,
        };
        if understood.is_none() {
            say(out, "bad case\n");
        }
    }
}

fn say(out: &mut Vec<u8>, words: &str) {
    out.extend_from_slice(words.as_bytes());
}

/// What an entry that answers no value says.
fn outcome(result: Result<(), Refusal>) -> String {
    result.map_or_else(|refusal| refusal.to_string(), |()| "done".to_string())
}

/// What an entry says that was lent so many numbers: a refusal leaves them as they were.
fn refused(refusal: Refusal, lent: usize) -> String {
    format!("{refusal} left {}", LENT[..lent].join(" "))
}

/// Says some words, and in square brackets all that a buffer holds.
fn say_buffer(out: &mut Vec<u8>, words: &str, buffer: &[u8]) {
    say(out, words);
    say(out, " [");
    out.extend_from_slice(buffer);
    say(out, "]\n");
}

/// The length of a buffer at the front of a payload, and what follows it.
fn room(payload: &[u8]) -> Option<(usize, &[u8])> {
    let (room, rest) = payload.split_first_chunk()?;
    let room = usize::from(u16::from_le_bytes(*room));
    (room <= WIDEST).then_some((room, rest))
}

/// A payload that is one number, little end first.
fn number(payload: &[u8]) -> Option<u64> {
    Some(u64::from_le_bytes(payload.try_into().ok()?))
}

fn name(payload: &[u8], out: &mut Vec<u8>) -> Option<()> {
    if payload.contains(&b'\n') {
        return None;
    }
    say(out, "== ");
    out.extend_from_slice(payload);
    out.push(b'\n');
    Some(())
}

fn read(piece: &[u8], out: &mut Vec<u8>) -> Option<()> {
    match line::read(piece) {
        Ok(Reading::EndOfDay) => say(out, "read end of day\n"),
        Ok(Reading::Record(record)) => {
            show_record(&record, out);
            for room in WRITTEN_BACK {
                show_write(record.stored(), room, out);
            }
        }
        Err(refusal) => say(out, &format!("read {refusal}\n")),
    }
    Some(())
}

fn show_record(record: &Record, out: &mut Vec<u8>) {
    say(out, "read record");
    for field in &FIELDS {
        say(out, &format!(" {}[", field.number));
        let start = out.len();
        out.resize(start + field.len, b' ');
        field.show(record, &mut out[start..]);
        out.push(b']');
    }
    out.push(b'\n');
}

fn show_write(record: &[u8], room: usize, out: &mut Vec<u8>) {
    let mut buffer = [UNTOUCHED; WIDEST];
    let buffer = &mut buffer[..room];
    let outcome = outcome(line::write(record, buffer));
    say_buffer(out, &format!("write {room} {outcome}"), buffer);
}

fn write(payload: &[u8], out: &mut Vec<u8>) -> Option<()> {
    let (room, record) = room(payload)?;
    show_write(record, room, out);
    Some(())
}

/// Reads a record as bytes, and shows what kind of piece was told beside it.
fn read_into(payload: &[u8], out: &mut Vec<u8>) -> Option<()> {
    let (room, piece) = room(payload)?;
    let mut buffer = [UNTOUCHED; WIDEST];
    let buffer = &mut buffer[..room];
    let result = line::read_into(piece, buffer);
    let kind = match result {
        Ok(Reading::EndOfDay) => 0,
        Ok(Reading::Record(_)) => 1,
        Err(_) => UNTOLD,
    };
    let outcome = outcome(result.map(|_| ()));
    say_buffer(out, &format!("record {room} {outcome} kind {kind}"), buffer);
    Some(())
}

fn strike_value(payload: &[u8], out: &mut Vec<u8>) -> Option<()> {
    let (code, digits) = payload.split_first()?;
    match strike::value(*code, number(digits)?) {
        Ok(value) => say(out, &format!("strike value {value}\n")),
        Err(refusal) => say(out, &format!("strike {}\n", refused(refusal, 1))),
    }
    Some(())
}

fn strike_form(payload: &[u8], out: &mut Vec<u8>) -> Option<()> {
    match strike::form(number(payload)?) {
        Ok((code, digits)) => say(out, &format!("strike form {} {digits:06}\n", char::from(code))),
        Err(refusal) => say(out, &format!("form {}\n", refused(refusal, 2))),
    }
    Some(())
}

fn clock_time(payload: &[u8], out: &mut Vec<u8>) -> Option<()> {
    match clock::time(number(payload)?) {
        Ok([hours, minutes, seconds, rest]) => {
            say(out, &format!("clock {hours:02}:{minutes:02}:{seconds:02}.{rest:03}\n"));
        }
        Err(refusal) => say(out, &format!("clock {}\n", refused(refusal, 4))),
    }
    Some(())
}

// Tables.

/// An entry that copies what stands at a place of a table to the front of a buffer.
type Copying = fn(&[u8], u64, &mut [u8]) -> Result<(), Refusal>;
/// An entry that writes what a table says to the front of a buffer, and tells how much.
type Writing = fn(&[u8], &mut [u8]) -> Result<usize, Refusal>;

impl Trial {
    fn sum(&self) -> u64 {
        sum(&self.table)
    }

    fn take(&mut self, bytes: &[u8], out: &mut Vec<u8>) -> Option<()> {
        if bytes.len() > LONGEST_TABLE {
            return None;
        }
        self.table.clear();
        self.table.extend_from_slice(bytes);
        say(out, &format!("table {} sum {}\n", bytes.len(), self.sum()));
        Some(())
    }

    fn patch(&mut self, payload: &[u8], out: &mut Vec<u8>) -> Option<()> {
        let (place, bytes) = payload.split_first_chunk()?;
        let place = u32::from_le_bytes(*place) as usize;
        self.table.get_mut(place..)?.get_mut(..bytes.len())?.copy_from_slice(bytes);
        say(out, &format!("patch sum {}\n", self.sum()));
        Some(())
    }

    fn make_empty(&mut self, payload: &[u8], out: &mut Vec<u8>) -> Option<()> {
        nothing(payload)?;
        let outcome = outcome(table::make_empty(&mut self.table));
        say(out, &format!("empty {outcome} sum {}\n", self.sum()));
        Some(())
    }

    fn damage(&self, payload: &[u8], out: &mut Vec<u8>) -> Option<()> {
        nothing(payload)?;
        say(out, if table::load(&self.table).is_ok() { "undamaged\n" } else { "damaged\n" });
        Some(())
    }

    fn look_up(&self, key: &[u8], out: &mut Vec<u8>) -> Option<()> {
        match table::look_up(&self.table, key) {
            Ok(place) => say(out, &format!("lookup {place}\n")),
            Err(refusal) => say(out, &format!("lookup {}\n", refused(refusal, 1))),
        }
        Some(())
    }

    fn order(&self, payload: &[u8], out: &mut Vec<u8>) -> Option<()> {
        self.copied("order", table::write_order, payload, out)
    }

    fn quote(&self, payload: &[u8], out: &mut Vec<u8>) -> Option<()> {
        self.copied("quote", table::write_row, payload, out)
    }

    /// Has an entry copy what stands at a place of the table, and shows it.
    fn copied(&self, word: &str, entry: Copying, payload: &[u8], out: &mut Vec<u8>) -> Option<()> {
        let (place, rest) = payload.split_first_chunk()?;
        let (room, rest) = room(rest)?;
        nothing(rest)?;
        let mut buffer = [UNTOUCHED; WIDEST];
        let buffer = &mut buffer[..room];
        let outcome = outcome(entry(&self.table, u64::from_le_bytes(*place), buffer));
        say_buffer(out, &format!("{word} {room} {outcome}"), buffer);
        Some(())
    }

    fn book(&mut self, piece: &[u8], out: &mut Vec<u8>) -> Option<()> {
        let outcome = outcome(table::book(&mut self.table, piece));
        say(out, &format!("book {outcome} sum {}\n", self.sum()));
        Some(())
    }

    /// Books a text in one call, and shows every answer.
    fn book_all(&mut self, payload: &[u8], out: &mut Vec<u8>) -> Option<()> {
        let (room, text) = payload.split_first_chunk()?;
        let room = usize::from(u16::from_le_bytes(*room));
        if room > MOST_ANSWERS {
            return None;
        }
        let mut answers = vec![UNANSWERED; room];
        let outcome = match table::book_all(&mut self.table, text, &mut answers) {
            Ok((bytes, pieces)) => format!("done {bytes} {pieces}"),
            Err(refusal) => refused(refusal, 2),
        };
        let answers: String = answers.iter().map(|answer| format!(" {answer}")).collect();
        say(out, &format!("all {room} {outcome} sum {} [{answers}]\n", self.sum()));
        Some(())
    }

    fn sheet(&self, payload: &[u8], out: &mut Vec<u8>) -> Option<()> {
        let (words, written) = self.output("sheet", table::write_sheet, payload)?;
        say_buffer(out, &words, &written);
        Some(())
    }

    fn save(&self, payload: &[u8], out: &mut Vec<u8>) -> Option<()> {
        let (words, written) = self.output("save", saved::save, payload)?;
        say_buffer(out, &words, in_hex(&written).as_bytes());
        Some(())
    }

    /// Has an entry write to a buffer. The words for it, and the bytes that were written.
    fn output(&self, word: &str, entry: Writing, payload: &[u8]) -> Option<(String, Vec<u8>)> {
        let room = u32::from_le_bytes(payload.try_into().ok()?) as usize;
        if room > WIDEST_OUTPUT {
            return None;
        }
        let mut buffer = vec![UNTOUCHED; room];
        let result = entry(&self.table, &mut buffer);
        let sum = sum(&buffer);
        buffer.truncate(result.unwrap_or(0));
        let outcome = result.map_or_else(|refusal| refused(refusal, 1), |length| format!("done {length}"));
        Some((format!("{word} {room} {outcome} sum {sum}"), buffer))
    }

    fn load(&mut self, bytes: &[u8], out: &mut Vec<u8>) -> Option<()> {
        let outcome = outcome(saved::load(bytes, &mut self.table));
        say(out, &format!("load {outcome} sum {}\n", self.sum()));
        Some(())
    }
}

/// Two digits for each byte.
pub fn in_hex(bytes: &[u8]) -> String {
    bytes.iter().map(|byte| format!("{byte:02x}")).collect()
}

fn nothing(payload: &[u8]) -> Option<()> {
    payload.is_empty().then_some(())
}

// Texts.

fn next_piece(payload: &[u8], out: &mut Vec<u8>) -> Option<()> {
    let (place, text) = payload.split_first_chunk()?;
    let start = usize::try_from(u64::from_le_bytes(*place)).unwrap_or(usize::MAX).min(text.len());
    match text[start..].split_inclusive(|byte| *byte == LF).next() {
        Some(piece) => say(out, &format!("piece {start} {}\n", start + piece.len())),
        None => say(out, "piece none\n"),
    }
    Some(())
}

/// How many pieces there are until nothing is left.
fn pieces(text: &[u8], out: &mut Vec<u8>) -> Option<()> {
    let count = text.split_inclusive(|byte| *byte == LF).count();
    say(out, &format!("pieces {count}\n"));
    Some(())
}

/// The piece with a number, counted from 0. No byte says that there is none: no piece is empty.
fn given(payload: &[u8], out: &mut Vec<u8>) -> Option<()> {
    let (number, text) = payload.split_first_chunk()?;
    let number = usize::try_from(u64::from_le_bytes(*number)).unwrap_or(usize::MAX);
    let piece = text.split_inclusive(|byte| *byte == LF).nth(number).unwrap_or_default();
    say_buffer(out, "given", piece);
    Some(())
}

/// Books the text at one go: what the steps write depends neither on the chunks nor on the room.
fn fed(payload: &[u8], out: &mut Vec<u8>) -> Option<()> {
    let (room, rest) = payload.split_first_chunk()?;
    let (count, rest) = rest.split_first_chunk()?;
    let count = usize::from(u16::from_le_bytes(*count));
    let (sizes, text) = rest.split_at_checked(2 * count)?;
    let none_is_0 = count > 0 && sizes.chunks_exact(2).all(|size| size != [0, 0]);
    if !none_is_0 || !ROOMS.contains(&u32::from_le_bytes(*room)) {
        return None;
    }
    say(out, "fed [");
    sheet::run(&mut &*text, out).expect("memory takes every byte");
    say(out, "]\n");
    Some(())
}
