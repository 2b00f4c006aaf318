//! Cases about texts: the next piece, all pieces, pieces by number, and the steps of the sheet program.

use std::io::Write;

use crate::cases::case::{capture_payload, piece_payload, put, Written};
use crate::cases::random::Random;
use crate::cases::shorthand::{capture, piece, WHOLE_CASE};
use crate::cases::stream::Stream;
use crate::rules::day::Day;
use crate::rules::fields::{BODY, CR_LF, LF, LINE};
use crate::rules::trial::LONGEST;

/// What a step may write.
const ROOMS: [u32; 4] = [64, 65, 100, 60_000];
/// Places and numbers far past the end of a text, some of them low in their last 16 or 32 bits.
const FAR_PAST: [u64; 6] = [1 << 16, 1 << 32, (1 << 32) + 1, 1 << 63, u64::MAX - 1, u64::MAX];
/// The longest text that has a number before it.
const LONGEST_NUMBERED: usize = LONGEST - 8;
/// How many random texts are cut into pieces.
const RANDOM_TEXTS: usize = 12;
/// The pieces of a random capture.
const PIECES: usize = 40;
/// The longest piece of a random capture, or little less.
const LONGEST_PIECE: usize = 1_500;

/// Writes those that are no random ones.
pub fn bounds(random: &mut Random, out: &mut impl Write) -> Written {
    put(out, b'n', b"next pieces")?;
    next_pieces(random, out)?;
    put(out, b'n', b"all pieces")?;
    all_pieces(random, out)?;
    put(out, b'n', b"pieces by number")?;
    numbered_pieces(random, out)?;
    put(out, b'n', b"captures by name")?;
    named_captures(random, out)?;
    put(out, b'n', b"bad cases of texts")?;
    bad_cases(out)
}

/// Writes the random ones.
pub fn by_chance(random: &mut Random, out: &mut impl Write) -> Written {
    put(out, b'n', b"pieces of random texts")?;
    for _ in 0..RANDOM_TEXTS {
        let mut text = random_text(random);
        put(out, b'y', &text)?;
        text.truncate(LONGEST_NUMBERED);
        some_numbers(&text, random, out)?;
    }
    put(out, b'n', b"random captures")?;
    random_captures(random, out)
}

// The next piece.

/// Texts with and without LF, inside them and at their ends.
fn short_texts(random: &mut Random) -> Vec<Vec<u8>> {
    let two = [piece("A T1 5"), piece("E T1 1")].concat();
    let unfinished = two[..two.len() - 1].to_vec();
    let noise = (0..80).map(|_| *random.pick(b"\nA\r\0\x0B\xFF")).collect();
    let short: [&[u8]; 9] =
        [b"", b"\n", b"A", b"\n\n\n", CR_LF, b"A\nB", b"A\n\nB\n", b"\r\n\r\n\r", b"\n\r\0\xFF\x0B\x85"];
    short.into_iter().map(<[u8]>::to_vec).chain([noise, two, unfinished]).collect()
}

/// From every place of short texts, and far past their end; and from some places of a long one.
fn next_pieces(random: &mut Random, out: &mut impl Write) -> Written {
    for text in short_texts(random) {
        let end = text.len() as u64;
        for place in (0..=end + 2).chain(FAR_PAST) {
            put(out, b'x', &piece_payload(place, &text))?;
        }
    }
    let mut long = vec![b'A'; LONGEST_NUMBERED];
    put(out, b'x', &piece_payload(0, &long))?;
    long[60_000] = b'\n';
    for place in [1, 60_000, 60_001] {
        put(out, b'x', &piece_payload(place, &long))?;
    }
    Ok(())
}

// All pieces.

/// Of short texts, and of the longest: with no LF, with nothing else, after each CR, and at the ends.
fn all_pieces(random: &mut Random, out: &mut impl Write) -> Written {
    for text in short_texts(random) {
        put(out, b'y', &text)?;
    }
    let mut long = vec![b'A'; LONGEST];
    for text in [&long, &vec![b'\n'; LONGEST], &CR_LF.repeat(LONGEST / CR_LF.len())] {
        put(out, b'y', text)?;
    }
    for at in [LONGEST - 1, LONGEST - 2, 0] {
        long[at] = b'\n';
        put(out, b'y', &long)?;
    }
    Ok(())
}

// Pieces by number.

/// Every piece of short texts, and far past their last; and some of the longest.
fn numbered_pieces(random: &mut Random, out: &mut impl Write) -> Written {
    for text in short_texts(random) {
        for number in (0..=pieces(&text) + 1).chain(FAR_PAST) {
            put(out, b'z', &piece_payload(number, &text))?;
        }
    }
    let mut long = vec![b'A'; LONGEST_NUMBERED];
    for text in [&long, &vec![LF; LONGEST_NUMBERED], &CR_LF.repeat(LONGEST_NUMBERED / CR_LF.len())] {
        some_numbers(text, random, out)?;
    }
    for at in [LONGEST_NUMBERED - 1, LONGEST_NUMBERED - 2, 0] {
        long[at] = LF;
        some_numbers(&long, random, out)?;
    }
    Ok(())
}

/// The first piece, one between, the last, one past it, one anywhere and one far past.
fn some_numbers(text: &[u8], random: &mut Random, out: &mut impl Write) -> Written {
    let end = pieces(text);
    let last = end.saturating_sub(1);
    for number in [0, random.between(0, last), last, end, random.any(), u64::MAX] {
        put(out, b'z', &piece_payload(number, text))?;
    }
    Ok(())
}

/// How many there are: one for each LF, and one for a rest.
pub fn pieces(text: &[u8]) -> u64 {
    let ends = text.iter().filter(|byte| **byte == LF).count() as u64;
    ends + u64::from(text.last().is_some_and(|byte| *byte != LF))
}

/// Any bytes, LF being frequent or rare among them.
pub fn random_text(random: &mut Random) -> Vec<u8> {
    let length = random.between(0, LONGEST as u64);
    let apart = *random.pick(&[1, 2, 10, 140, 1_000, 20_000]);
    (0..length).map(|_| if random.once_in(apart) { b'\n' } else { random.next() as u8 }).collect()
}

// The sheet program's steps.

/// A random capture, now and then broken off in its last piece.
fn random_capture(random: &mut Random) -> Vec<u8> {
    let mut stream = Stream::on(Day::default(), random.next(), PIECES, LONGEST_PIECE);
    let mut text: Vec<_> = stream.by_ref().flatten().collect();
    text.extend(stream.rest());
    text
}

/// Chunks around the length of a line, and lists of them.
fn lists_of_sizes(random: &mut Random) -> Vec<Vec<u16>> {
    let mut lists =
        vec![vec![1], vec![2], vec![139], vec![140], vec![141], vec![1, 139], vec![140, 2, 138], vec![65_535]];
    let mut by_chance = |most: u64| (0..10).map(|_| random.between(1, most) as u16).collect();
    lists.extend([by_chance(5), by_chance(300), by_chance(10_000)]);
    lists
}

fn named_captures(random: &mut Random, out: &mut impl Write) -> Written {
    let whole = capture(WHOLE_CASE);
    let line = piece("A T1 5");
    let huge = [vec![b'x'; 20_000], CR_LF.to_vec(), line.clone(), line[..BODY].repeat(60), line.clone()].concat();
    let families: Vec<_> =
        (1..=60).flat_map(|number| piece(&format!("U T{} for T{number}, {number}", number + 1))).collect();
    let texts = [
        vec![],
        b"\n".to_vec(),
        CR_LF.to_vec(),
        b"\r".to_vec(),
        [CR_LF, CR_LF, b"\n\r"].concat(),
        vec![b'\n'; 300],
        vec![b'x'; 141],
        line.clone(),
        line[..LINE - 1].to_vec(),
        line[..BODY].to_vec(),
        [&line[..], &line[..1]].concat(),
        [b" ", &line[..]].concat(),
        [&line[..], &whole[LINE..], CR_LF].concat(),
        [piece("A T1 1"), families].concat(),
        whole,
        huge,
    ];
    let lists = lists_of_sizes(random);
    for (number, text) in texts.iter().enumerate() {
        put(out, b'y', text)?;
        for turn in 0..4 {
            let room = ROOMS[turn];
            let sizes = &lists[(number + 3 * turn) % lists.len()];
            put(out, b'c', &capture_payload(room, sizes, text))?;
        }
    }
    let many: Vec<_> = (1..=460).flat_map(|number| piece(&format!("A T{number} {number}"))).collect();
    put(out, b'c', &capture_payload(64, &[4_096], &many))?;
    put(out, b'c', &capture_payload(60_000, &vec![3; 500], &many))?;
    // More quote rows than there are, with the longest lines of a section that a capture of this length can make.
    let quotes: Vec<_> = (1..=130).flat_map(|number| piece(&format!("E Q{number:X} 999999"))).collect();
    let broken: Vec<_> = (1..=130).flat_map(|number| piece(&format!("C Q{number:X} 999999"))).collect();
    let text = [quotes.clone(), quotes, broken, piece("A T1 5")].concat();
    ROOMS.iter().try_for_each(|room| put(out, b'c', &capture_payload(*room, &[1_000, 1], &text)))
}

/// One for each room and each list of sizes.
fn random_captures(random: &mut Random, out: &mut impl Write) -> Written {
    for sizes in lists_of_sizes(random) {
        for room in ROOMS {
            put(out, b'c', &capture_payload(room, &sizes, &random_capture(random)))?;
        }
    }
    Ok(())
}

// Cases that are none.

fn bad_cases(out: &mut impl Write) -> Written {
    let text = capture(WHOLE_CASE);
    for room in [0, 1, 63, 60_001, 65_536, 1 << 16 | 64, u32::MAX] {
        put(out, b'c', &capture_payload(room, &[140], &text))?;
    }
    for sizes in [[].as_slice(), &[0], &[0, 1], &[1, 0], &[1, 2, 0, 3]] {
        put(out, b'c', &capture_payload(64, sizes, &text))?;
    }
    // Cut short in the room, the number of sizes, the sizes; whole, with an empty text.
    let whole = capture_payload(64, &[1, 2, 3], b"");
    for length in 0..=whole.len() {
        put(out, b'c', &whole[..length])?;
    }
    let endless = [&64_u32.to_le_bytes()[..], &[0xFF; 2], &[1; 1_000]].concat();
    put(out, b'c', &endless)?;
    for length in 0..=8 {
        put(out, b'x', &vec![0; length])?;
        put(out, b'z', &vec![0; length])?;
    }
    Ok(())
}
