//! One case of the trial, and the payloads of its kinds (TRIAL).

use std::io::{self, Write};

use crate::rules::trial::LONGEST;

pub type Written = io::Result<()>;

/// Writes one case. One that is too long would end the run, and with it the comparison: it is an error.
pub fn put(out: &mut impl Write, kind: u8, payload: &[u8]) -> Written {
    if payload.len() > LONGEST {
        return Err(io::Error::other("a generated case is too long"));
    }
    let length = payload.len() as u32;
    out.write_all(&[kind])?;
    out.write_all(&length.to_le_bytes())?;
    out.write_all(payload)
}

/// The length of a buffer, and what an entry is given beside it.
pub fn room_payload(room: u16, given: &[u8]) -> Vec<u8> {
    [&room.to_le_bytes(), given].concat()
}

pub fn strike_payload(code: u8, digits: u64) -> Vec<u8> {
    [&[code][..], &digits.to_le_bytes()].concat()
}

pub fn patch_payload(at: u32, bytes: &[u8]) -> Vec<u8> {
    [&at.to_le_bytes(), bytes].concat()
}

pub fn order_payload(place: u64, room: u16) -> Vec<u8> {
    [&place.to_le_bytes()[..], &room.to_le_bytes()].concat()
}

/// The place or the number of a piece, and a text.
pub fn piece_payload(number: u64, text: &[u8]) -> Vec<u8> {
    [&number.to_le_bytes(), text].concat()
}

pub fn capture_payload(room: u32, sizes: &[u16], text: &[u8]) -> Vec<u8> {
    let count = sizes.len() as u16;
    let sizes: Vec<_> = sizes.iter().flat_map(|size| size.to_le_bytes()).collect();
    [&room.to_le_bytes()[..], &count.to_le_bytes(), &sizes, text].concat()
}
