//! Lawful lines, and contents of one field, lawful and unlawful.

use std::ops::Range;

use crate::cases::random::Random;
use crate::rules::bytes::justify;
use crate::rules::fields::{Field, Rule, BODY, CR_LF, DENOMINATOR, FIELDS, LINE, STRIKE, TYPE};

/// Bytes that spoil digits: the neighbours of 0 and 9, signs, a point, letters, a space; and 0,
/// which is unlawful only where it leads.
const SPOILING: &[u8] = b" 0/:+-.Aa~";
/// Both sides of the bounds of text, the bytes that end a line, and the ends of a byte.
pub const EDGES: &[u8] = b"\x00\x09\x0A\x0D\x1F\x20\x21\x7E\x7F\x80\xFF";

/// The bytes of a line or of a stored record with other contents in some places.
pub fn with(bytes: &[u8], places: Range<usize>, content: &[u8]) -> Vec<u8> {
    let mut bytes = bytes.to_vec();
    bytes[places].copy_from_slice(content);
    bytes
}

pub fn field(number: usize) -> &'static Field {
    &FIELDS[number - 1]
}

// Lawful lines.

/// A random lawful line of a type, made field by field without the line writer.
pub fn lawful_line(letter: u8, random: &mut Random) -> Vec<u8> {
    let mut line = Vec::with_capacity(LINE);
    for field in &FIELDS {
        line.extend(match field.number {
            TYPE => vec![letter],
            _ if !field.on.carries(letter) => vec![b' '; field.len],
            _ => lawful_content(field, random),
        });
    }
    // Six full digits are lawful under every code; only E goes lower.
    if line[field(DENOMINATOR).at] == b'E' && random.once_in(2) {
        line[field(STRIKE).places()].copy_from_slice(&right(random.between(1, 999_999), b'0', 6));
    }
    line.extend(CR_LF);
    line
}

pub fn lawful_content(field: &Field, random: &mut Random) -> Vec<u8> {
    let optional = matches!(field.rule, Rule::TextOrBlank | Rule::DigitsOrBlank);
    if optional && random.once_in(3) {
        return vec![b' '; field.len];
    }
    match field.rule {
        Rule::Number(least, most) => right(random.between(least, most), b' ', field.len),
        Rule::Digits(least, most) => right(random.between(least, most), b'0', field.len),
        Rule::DigitsOrBlank => right(random.between(0, 99_999), b'0', field.len),
        Rule::Hex => (0..field.len).map(|_| *random.pick(b"0123456789ABCDEF")).collect(),
        Rule::Code(list) => vec![*random.pick(list)],
        Rule::Text | Rule::TextOrBlank => lawful_text(field.len, random),
        Rule::Strike => right(random.between(100_000, 999_999), b'0', field.len),
        Rule::Price => price(random.between(0, 9_999_999_999)),
    }
}

fn lawful_text(len: usize, random: &mut Random) -> Vec<u8> {
    let mut text = vec![b' '; len];
    let used = 1 + random.below(len);
    text[0] = random.between(0x21, 0x7E) as u8;
    text[1..used].fill_with(|| random.between(0x20, 0x7E) as u8);
    text
}

/// A number right justified; of a longer one, as many of its last digits as there is room for.
pub fn right(number: u64, fill: u8, len: usize) -> Vec<u8> {
    let mut place = vec![fill; len];
    justify(number, fill, &mut place);
    place
}

/// The text at the front, spaces behind it.
pub fn left(text: &str, len: usize) -> Vec<u8> {
    format!("{text:<len$}").into_bytes()
}

fn price(ten_thousandths: u64) -> Vec<u8> {
    [right(ten_thousandths / 10_000, b' ', 6), right(ten_thousandths % 10_000, b'0', 4)].concat()
}

// Contents of one field, lawful and unlawful.

/// The content with each of its places given each of the bytes in turn.
pub fn spoiled<'a>(content: &'a [u8], bytes: &'a [u8]) -> impl Iterator<Item = Vec<u8>> + 'a {
    let places = 0..content.len();
    places.flat_map(move |at| bytes.iter().map(move |byte| with(content, at..at + 1, &[*byte])))
}

/// Both sides of the bounds of a field, of each length, of 32 and of 64 bits.
pub fn numbers_around(field: &Field) -> Vec<u64> {
    let (least, most) = match field.rule {
        Rule::Number(least, most) | Rule::Digits(least, most) => (least, most),
        Rule::Price => (0, 9_999_999_999),
        _ => (0, 999_999),
    };
    let wide = 1 << 32;
    let mut numbers = vec![0, 1, 9, 500, least, least.saturating_sub(1), least + 1, most - 1, most, most + 1];
    for digits in 1..=field.len as u32 {
        let power = 10_u64.pow(digits);
        numbers.extend([power - 1, power, power + 1]);
    }
    numbers.extend([wide - 1, wide, wide + least, wide + most, 1 << 63, u64::MAX - 1, u64::MAX]);
    numbers
}

/// Contents for a field on a line, of its width.
pub fn contents(field: &Field) -> Vec<Vec<u8>> {
    let len = field.len;
    let mut all = vec![vec![b' '; len]];
    match field.rule {
        Rule::Number(_, most) => {
            for number in numbers_around(field).into_iter().filter(|number| *number < 10_u64.pow(len as u32)) {
                all.extend([right(number, b' ', len), right(number, b'0', len), left(&number.to_string(), len)]);
            }
            all.extend(spoiled(&right(12, b' ', len), SPOILING));
            all.extend(spoiled(&right(most, b' ', len), SPOILING));
        }
        Rule::Digits(..) => {
            for number in 0..100 {
                all.extend([right(number, b'0', len), right(number, b' ', len), left(&number.to_string(), len)]);
            }
            all.extend(spoiled(b"12", SPOILING));
        }
        Rule::DigitsOrBlank | Rule::Strike => {
            for number in [0, 1, 9, 2_532, 10_000, 99_999, 100_000, 100_001, 550_000, 999_999] {
                all.extend([right(number, b'0', len), right(number, b' ', len)]);
            }
            all.extend(spoiled(&right(123_456, b'0', len), SPOILING));
            all.extend(spoiled(&vec![b' '; len], b"0"));
        }
        Rule::Hex => {
            all.extend([vec![b'0'; len], vec![b'F'; len], left("836AFF", len)]);
            all.extend(spoiled(b"000836AFF", b" /09:@AFGZ`afgz"));
        }
        Rule::Code(_) => {
            all.extend((0x1F..=0x7F).chain([0x00, 0x0A, 0x0D, 0x80, 0xC1, 0xFF]).map(|byte| vec![byte]));
        }
        Rule::Text | Rule::TextOrBlank => {
            all.extend([left("A", len), left("A B", len), left(" A", len), left("a1~!", len)]);
            all.extend([vec![b'~'; len], vec![b'!'; len], right(1, b' ', len), right(1, b'A', len)]);
            all.extend(spoiled(&vec![b'A'; len], EDGES));
        }
        Rule::Price => {
            for number in [0, 1, 500, 9_999, 10_000, 12_875_000, 100_000_000, 9_999_999_999] {
                all.extend([price(number), right(number, b' ', len), right(number, b'0', len)]);
            }
            for odd in ["      0500", "    010500", "     1   5", "     1 500", "     1500 ", "1     0500", "0.05"] {
                all.push(left(odd, len));
            }
            all.extend(spoiled(&price(500), SPOILING));
            all.extend(spoiled(&price(9_999_999_999), SPOILING));
        }
    }
    all
}

/// A content that breaks the field's rule on any type of line, and holds no foreign byte.
pub fn broken(field: &Field) -> Vec<u8> {
    let mut content = vec![b'~'; field.len];
    if matches!(field.rule, Rule::Text | Rule::TextOrBlank) {
        content[0] = b' ';
    }
    content
}

// A line changed by chance.

pub fn mutate(line: &mut Vec<u8>, known: &[Vec<Vec<u8>>], random: &mut Random) {
    let whole = line.len() >= BODY;
    let field = random.pick(&FIELDS);
    match random.below(16) {
        0 => line.truncate(random.below(line.len() + 1)),
        1 => line.extend((0..=random.below(4)).map(|_| *random.pick(b"A \r\n0"))),
        _ if line.is_empty() => {}
        2..=4 => {
            let (one, other) = (random.below(line.len()), random.below(line.len()));
            line.swap(one, other);
        }
        5..=8 if whole => {
            // Another field's bytes, cut or filled up to this field's width.
            let mut content = line[random.pick(&FIELDS).places()].to_vec();
            content.resize(field.len, b' ');
            line[field.places()].copy_from_slice(&content);
        }
        9..=12 if whole => {
            line[field.places()].copy_from_slice(random.pick::<Vec<u8>>(&known[field.number - 1]));
        }
        _ => {
            let place = random.below(line.len());
            line[place] = if random.once_in(4) { random.any() as u8 } else { random.between(0x20, 0x7E) as u8 };
        }
    }
}
