//! Writes cases about one table, and keeps it as the trial will hold it.

use std::io::Write;

use crate::cases::case::{order_payload, patch_payload, put, room_payload, Written};
use crate::cases::shorthand::{capture, key, piece};
use crate::rules::saved;
use crate::rules::table::{self, SLOT};

/// A sheet's buffer with room for a few orders.
const ROOM: u32 = 2_000;
/// How many questions `ask` has.
pub const ENTRIES: usize = 10;

pub struct Hand<'a> {
    table: Vec<u8>,
    out: &'a mut dyn Write,
}

impl Hand<'_> {
    pub fn new(out: &mut dyn Write) -> Hand<'_> {
        Hand { table: vec![], out }
    }

    pub fn table(&self) -> &[u8] {
        &self.table
    }

    pub fn put(&mut self, kind: u8, payload: &[u8]) -> Written {
        put(&mut self.out, kind, payload)
    }

    pub fn name(&mut self, words: &str) -> Written {
        self.put(b'n', words.as_bytes())
    }

    pub fn take(&mut self, table: Vec<u8>) -> Written {
        self.table = table;
        put(&mut self.out, b't', &self.table)
    }

    /// Puts bytes into the table, all inside it.
    pub fn patch(&mut self, at: usize, bytes: &[u8]) -> Written {
        self.table[at..at + bytes.len()].copy_from_slice(bytes);
        self.put(b'p', &patch_payload(at as u32, bytes))
    }

    /// Makes the table what it was, by patches about as long as a slot.
    pub fn restore(&mut self, before: &[u8]) -> Written {
        for (at, run) in (0..).step_by(SLOT).zip(before.chunks(SLOT)) {
            if self.table[at..at + run.len()] != *run {
                self.patch(at, run)?;
            }
        }
        Ok(())
    }

    pub fn make_empty(&mut self) -> Written {
        // Refused or not, the answer is the trial's to give.
        let _ = table::make_empty(&mut self.table);
        self.put(b'e', b"")
    }

    pub fn check(&mut self) -> Written {
        self.put(b'd', b"")
    }

    pub fn look_up(&mut self, key: &[u8]) -> Written {
        self.put(b'l', key)
    }

    pub fn show(&mut self, place: u64, room: u16) -> Written {
        self.put(b'o', &order_payload(place, room))
    }

    pub fn show_row(&mut self, place: u64, room: u16) -> Written {
        self.put(b'q', &order_payload(place, room))
    }

    pub fn book(&mut self, piece: &[u8]) -> Written {
        let _ = table::book(&mut self.table, piece);
        self.put(b'b', piece)
    }

    /// Books a text in one call, with room for so many answers.
    pub fn book_all(&mut self, room: u16, text: &[u8]) -> Written {
        let _ = table::book_all(&mut self.table, text, &mut vec![0; room.into()]);
        self.put(b'a', &room_payload(room, text))
    }

    pub fn sheet(&mut self, room: u32) -> Written {
        self.put(b'h', &room.to_le_bytes())
    }

    pub fn save(&mut self, room: u32) -> Written {
        self.put(b'v', &room.to_le_bytes())
    }

    /// Loads a saved day into the table.
    pub fn load(&mut self, bytes: &[u8]) -> Written {
        let _ = saved::load(bytes, &mut self.table);
        self.put(b'g', bytes)
    }

    /// Loads bytes that may be no saved day. What could be loaded is saved again, and the table put back.
    pub fn try_load(&mut self, bytes: &[u8]) -> Written {
        let before = self.table.clone();
        self.load(bytes)?;
        if self.table != before {
            self.save(bytes.len() as u32)?;
            self.restore(&before)?;
        }
        Ok(())
    }

    /// One of the entries that refuse a damaged table, by a number that may be any.
    pub fn ask(&mut self, entry: usize) -> Written {
        match entry % ENTRIES {
            0 => self.look_up(&key("T9")),
            1 => self.show(0, 80),
            2 => self.book(&piece("E T4 1")),
            3 => self.sheet(ROOM),
            4 => self.book(&piece("A T10 5")),
            5 => self.book_all(3, &capture("E T4 1; A T10 5; A T10 5")),
            6 => self.show_row(0, 49),
            7 => self.book(&piece("E QA1 1")),
            8 => self.book(&piece("C QA2 50")),
            // Even what is no piece is refused by its table first.
            _ => self.book(b"A"),
        }
    }

    pub fn ask_all(&mut self) -> Written {
        (0..ENTRIES).try_for_each(|entry| self.ask(entry))
    }
}
