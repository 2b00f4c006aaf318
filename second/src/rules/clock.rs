//! The clock: a Timestamp as a time of day (01, The line, field 1).

use crate::rules::refusal::Refusal;

/// The last millisecond of the day. 01 decides for milliseconds where 001 also says seconds.
pub const LAST: u64 = 86_399_999;

/// Hours, minutes, seconds and milliseconds since midnight.
pub fn time(timestamp: u64) -> Result<[u64; 4], Refusal> {
    if timestamp > LAST {
        return Err(Refusal::Field(1));
    }
    let seconds = timestamp / 1000;
    Ok([seconds / 3600, seconds / 60 % 60, seconds % 60, timestamp % 1000])
}
