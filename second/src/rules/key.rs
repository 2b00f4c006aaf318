//! What tells orders and quote rows apart: the key, the side and the series of a line (01, Orders and their figures).

use crate::rules::fields::{places, BODY, ROOT, SIDE, SOURCE, STRIKE, TOKEN};
use crate::rules::line::Line;

pub const SOURCE_BYTES: usize = 6;
const TOKEN_BYTES: usize = 20;

/// The six Source bytes, then the twenty Token bytes.
pub type Key = [u8; SOURCE_BYTES + TOKEN_BYTES];
/// Fields 16 to 21 as they stand on the line. Each lawful value has one form, so that two series
/// are the same exactly when their bytes are.
pub type Series = [u8; 18];

/// The line's Source with one of its two tokens.
pub fn key_of(line: Line, token: usize) -> Key {
    let mut key = [0; SOURCE_BYTES + TOKEN_BYTES];
    key[..SOURCE_BYTES].copy_from_slice(line.field(SOURCE));
    key[SOURCE_BYTES..].copy_from_slice(line.field(token));
    key
}

pub fn side_of(line: Line) -> u8 {
    line.field(SIDE)[0]
}

pub fn series_of(line: Line) -> Series {
    let mut series = [0; 18];
    series.copy_from_slice(line.fields(ROOT, STRIKE));
    series
}

/// These three where a line has them, and nothing else.
pub fn on_line(key: &Key, side: u8, series: &Series) -> [u8; BODY] {
    let mut line = [b' '; BODY];
    line[places(SOURCE, TOKEN)].copy_from_slice(key);
    line[places(SIDE, SIDE)].fill(side);
    line[places(ROOT, STRIKE)].copy_from_slice(series);
    line
}
