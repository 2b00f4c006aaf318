//! Numbers in groups of seven bits, low group first, in the fewest groups (02, Ticket 2).

/// What all groups but the last have beside their seven bits.
const MORE: u8 = 0x80;
/// The most groups of a number of 64 bits.
const MOST_GROUPS: usize = 10;

/// Writes a number behind other bytes.
pub fn put(mut number: u64, out: &mut Vec<u8>) {
    while number >= MORE.into() {
        out.push(number as u8 | MORE);
        number >>= 7;
    }
    out.push(number as u8);
}

/// Takes a number from the front of the bytes. Nothing if its groups don't end, if fewer could say it, or if it needs
/// more than 64 bits.
pub fn take(bytes: &mut &[u8]) -> Option<u64> {
    let last = bytes.iter().take(MOST_GROUPS).position(|byte| byte & MORE == 0)?;
    let (groups, rest) = bytes.split_at(last + 1);
    if last > 0 && groups[last] == 0 {
        return None;
    }
    *bytes = rest;
    let number = groups.iter().rev().fold(0, |number: u128, group| number << 7 | u128::from(group & !MORE));
    number.try_into().ok()
}
