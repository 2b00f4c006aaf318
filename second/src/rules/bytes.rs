//! What a run of a line's bytes is: printable, blank, digits or a number (01, The line).

/// Looks at every byte even after a bad one, which lets the compiler take many at a time.
fn each(bytes: &[u8], good: impl Fn(u8) -> bool) -> bool {
    bytes.iter().fold(true, |all, byte| all & good(*byte))
}

pub fn printable(bytes: &[u8]) -> bool {
    each(bytes, |byte| (0x20..=0x7E).contains(&byte))
}

pub fn blank(bytes: &[u8]) -> bool {
    each(bytes, |byte| byte == b' ')
}

pub fn digits(bytes: &[u8]) -> bool {
    each(bytes, |byte| byte.is_ascii_digit())
}

pub fn hex(bytes: &[u8]) -> bool {
    each(bytes, |byte| matches!(byte, b'0'..=b'9' | b'A'..=b'F'))
}

/// A number in fewest digits behind spaces; zero is one digit 0. Inlined, so that the compiler knows how many bytes.
#[inline(always)]
pub fn number(bytes: &[u8]) -> Option<u64> {
    let start = bytes.iter().position(|byte| *byte != b' ')?;
    let shown = &bytes[start..];
    if shown.len() > 1 && shown[0] == b'0' {
        return None;
    }
    shown.iter().try_fold(0, |number, byte| byte.is_ascii_digit().then(|| 10 * number + u64::from(byte - b'0')))
}

/// The number that the digits say, spaces before them counting for nothing.
pub fn decimal(bytes: &[u8]) -> u64 {
    let shown = bytes.iter().filter(|byte| **byte != b' ');
    shown.fold(0, |number, byte| number * 10 + u64::from(byte - b'0'))
}

/// Right justifies a number in its fewest digits. False if it has more digits than places.
pub fn justify(mut number: u64, fill: u8, place: &mut [u8]) -> bool {
    place.fill(fill);
    for byte in place.iter_mut().rev() {
        *byte = b'0' + (number % 10) as u8;
        number /= 10;
        if number == 0 {
            return true;
        }
    }
    false
}
