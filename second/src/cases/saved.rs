//! Cases about saved days: saving and loading, and bytes that are no saved day (02, Ticket 2).

use crate::cases::case::Written;
use crate::cases::hand::Hand;
use crate::cases::random::Random;
use crate::cases::saved_damages;
use crate::cases::saved_parts::{above, apply, number, padded, Change, Parts, FORM, ORDERS, OVER, ROWS};
use crate::cases::shorthand::capture;
use crate::cases::sound_tables::{
    day_of, junk, longest_day, random_day, random_day_with, rich_day, rich_table, small_day, stored, tiny_day,
    RICH_ORDERS,
};
use crate::cases::stream::Stream;
use crate::rules::day::{Day, MOST};
use crate::rules::fields::LF;
use crate::rules::quotes::MOST_ROWS;
use crate::rules::saved;
use crate::rules::table::{row, slot, HEADER, MARK, SLOT, TABLE};
use crate::rules::trial::{LONGEST, LONGEST_TABLE, WIDEST_OUTPUT};

/// Lines for the small day, lawful and refused.
const AFTERNOON: &str = "A T1 5; E T2 61; E T2 60; U T5 for T4, 9; X T4 1; C T1 21; C T1 20; A T6 1; U T7 for T3, 1; \
    R T5 1; E QA1 1; C QA1 22; C QA1 21; E QA9 5; C QA8 1; A QA2 4; E QA2 4; end of day; E T5 1";
/// How many orders the random days have.
const GIVEN: [usize; 6] = [0, 3, 40, 200, MOST - 1, MOST];
/// The pieces that are booked between loading and saving one of them, and the longest, or little less.
const PIECES: usize = 40;
const LONGEST_PIECE: usize = 500;

/// Writes those that are no random ones.
pub fn bounds(random: &mut Random, hand: &mut Hand) -> Written {
    savings(random, hand)?;
    damaged_tables(random, hand)?;
    lengths(random, hand)?;
    full_days(random, hand)?;
    afternoons(random, hand)?;
    hand.take(junk(random, TABLE))?;
    heads(hand)?;
    numbers(hand)?;
    rough_bytes(random, hand)?;
    saved_damages::bounds(hand)?;
    bad_cases(hand)
}

/// Writes the random ones, and a fortieth as many spoiled days as the count says.
pub fn by_chance(count: u64, random: &mut Random, hand: &mut Hand) -> Written {
    hand.name("random days saved, loaded and booked on")?;
    for given in GIVEN {
        let day = random_day(given, random);
        restarted(day, random, hand)?;
    }
    hand.name("saved days spoiled by chance")?;
    hand.take(junk(random, TABLE))?;
    let rich = saved::bytes(&rich_day());
    for _ in 0..count / 40 {
        hand.try_load(&by_chance_spoiled(&rich, random))?;
    }
    Ok(())
}

// Saving.

/// The empty day, a day over, a few orders, and as many as there can be, into buffers around what they need.
fn savings(random: &mut Random, hand: &mut Hand) -> Written {
    let ended = day_of(&capture("A T1 5; E QA1 5; end of day"));
    let over = day_of(&capture("end of day"));
    for day in
        [Day::default(), over, ended, tiny_day(), rich_day(), random_day_with(MOST, MOST_ROWS, random), longest_day()]
    {
        let length = saved::bytes(&day).len() as u32;
        hand.name(&format!("a saved day of {length} bytes"))?;
        hand.take(stored(&day, random))?;
        for room in [0, 1, length - 1, length, length + 1, WIDEST_OUTPUT as u32] {
            hand.save(room)?;
        }
    }
    Ok(())
}

/// A damaged table is refused by 5 before 4; any bytes in free slots and rows are no damage.
fn damaged_tables(random: &mut Random, hand: &mut Hand) -> Written {
    hand.name("saving damaged tables")?;
    hand.take(rich_table(random))?;
    let free = [slot(RICH_ORDERS).start, row(0).start - SLOT, TABLE - SLOT];
    let used = [0, MARK, HEADER, slot(RICH_ORDERS).start - 1, row(0).start, row(1).start - 1];
    let before = hand.table().to_vec();
    for (at, length) in free.map(|at| (at, SLOT)).into_iter().chain(used.map(|at| (at, 1))) {
        for byte in [0, b' ', 0xFF] {
            hand.patch(at, &vec![byte; length])?;
            for room in [0, 10, 2_000] {
                hand.save(room)?;
            }
            hand.restore(&before)?;
        }
    }
    Ok(())
}

/// Tables of other lengths: saving is 5; loading is 4 or 5, before 14.
fn lengths(random: &mut Random, hand: &mut Hand) -> Written {
    let (small, rich) = (saved::bytes(&small_day()), rich_table(random));
    for length in [0, 1, HEADER, row(0).start, TABLE - 1, TABLE, TABLE + 1, LONGEST_TABLE] {
        hand.name(&format!("saved days and a table of {length} bytes"))?;
        let mut table = rich.clone();
        table.resize(length, 0);
        hand.take(table)?;
        hand.save(0)?;
        hand.save(2_000)?;
        for bytes in [b"".as_slice(), b"\x01", &small[..small.len() - 1], b"\x01\0\0\0", &small] {
            hand.load(bytes)?;
            hand.check()?;
            hand.save(2_000)?;
        }
    }
    Ok(())
}

// Loading.

/// 512 orders and 128 rows load, and one more of either doesn't.
fn full_days(random: &mut Random, hand: &mut Hand) -> Written {
    hand.name("full days loaded")?;
    let full = random_day_with(MOST, MOST_ROWS, random);
    hand.take(junk(random, TABLE))?;
    hand.load(&saved::bytes(&longest_day()))?;
    hand.check()?;
    hand.load(&saved::bytes(&full))?;
    hand.save(WIDEST_OUTPUT as u32)?;
    hand.sheet(WIDEST_OUTPUT as u32)?;
    let parts = Parts::of(&full);
    let tiny = Parts::of(&tiny_day());
    let one_more = |at: usize, added: &[Vec<u8>], (part, count): (usize, usize)| {
        let mut more = parts.clone();
        more.all.splice(at..at, added.to_vec());
        more.with(&[(part, number(count as u64))])
    };
    hand.load(&one_more(parts.row(0), &tiny.all[tiny.order(0)..tiny.order(1)], (ORDERS, MOST + 1)))?;
    hand.load(&one_more(parts.all.len(), &tiny.all[tiny.row(0)..], (ROWS, MOST_ROWS + 1)))
}

/// Days loaded over any bytes, then booked on.
fn afternoons(random: &mut Random, hand: &mut Hand) -> Written {
    for (name, day) in [("the empty day", Day::default()), ("a small day", small_day()), ("a rich day", rich_day())] {
        hand.name(&format!("{name} loaded and booked on"))?;
        hand.take(junk(random, TABLE))?;
        hand.load(&saved::bytes(&day))?;
        hand.ask_all()?;
        for piece in capture(AFTERNOON).split_inclusive(|byte| *byte == LF) {
            hand.book(piece)?;
            hand.save(2_000)?;
        }
        hand.check()?;
        hand.sheet(2_000)?;
        // A day that is over, over the one that has gone on.
        let over = saved::bytes(&day_of(&capture("A T1 5; end of day")));
        hand.load(&over)?;
        hand.ask_all()?;
    }
    Ok(())
}

/// A random day loaded over any bytes, booked on, saved, and loaded over any bytes once more.
fn restarted(day: Day, random: &mut Random, hand: &mut Hand) -> Written {
    hand.take(junk(random, TABLE))?;
    hand.load(&saved::bytes(&day))?;
    hand.check()?;
    let mut stream = Stream::on(day, random.next(), PIECES, LONGEST_PIECE);
    for bytes in &mut stream {
        bytes.split_inclusive(|byte| *byte == LF).try_for_each(|piece| hand.book(piece))?;
    }
    hand.save(WIDEST_OUTPUT as u32)?;
    let saved = saved::bytes(stream.day());
    hand.patch(0, &junk(random, HEADER))?;
    hand.load(&saved)?;
    let room = *random.pick(&[0, saved.len() - 1, saved.len(), saved.len() + 1]);
    hand.save(room as u32)?;
    hand.sheet(WIDEST_OUTPUT as u32)
}

// Bytes that are no saved day.

/// Forms, marks and counts, with what follows them as it was.
fn heads(hand: &mut Hand) -> Written {
    let parts = Parts::of(&small_day());
    let one = |part: usize, numbers: &[u64]| -> Vec<Change> {
        numbers.iter().map(|other| vec![(part, number(*other))]).collect()
    };
    let wide = [127, 128, 129, 255, 256, 257, 1 << 16 | 1, 1 << 32, 1 << 32 | 1, 1 << 32 | 4, 1 << 63, u64::MAX];
    let low: Vec<_> = (0..8).chain(wide).collect();
    let orders: Vec<_> = low.iter().copied().chain([511, 512, 513, 514, 1 << 16 | 4, 1 << 63 | 4]).collect();
    let rows: Vec<_> = low.iter().copied().chain([130, 1 << 8 | 3, 1 << 32 | 3, 1 << 63 | 3]).collect();
    apply("forms", &parts, &one(FORM, &low), hand)?;
    apply("marks", &parts, &one(OVER, &low), hand)?;
    apply("counts of orders", &parts, &one(ORDERS, &orders), hand)?;
    apply("counts of quote rows", &parts, &one(ROWS, &rows), hand)?;
    let empty = Parts::of(&Day::default());
    apply("heads alone", &empty, &(0..=255).map(|byte| vec![(OVER, vec![byte])]).collect::<Vec<_>>(), hand)?;
    for part in [FORM, ORDERS, ROWS] {
        apply("heads alone", &empty, &one(part, &orders), hand)?;
    }
    Ok(())
}

/// Each number in too many groups, with a bit too many, and as groups that do not end.
fn numbers(hand: &mut Hand) -> Written {
    let parts = Parts::of(&small_day());
    let endless = vec![0xFF; 400];
    for part in parts.numbers() {
        let number = &parts.all[part];
        let more = [1, 2].map(|more| padded(number, number.len() + more));
        let long = [9, 10, 11, 19, 20].map(|groups| padded(number, groups));
        let high = [32, 35, 63, 64, 65, 69, 70, 77, 128].map(|bit| above(number, bit));
        let most = [0x01, 0x02, 0x7F, 0x81].map(|last| [&[0xFF; 9][..], &[last]].concat());
        let rough = [vec![], vec![0x80], vec![0x80, 0], vec![0x80; 10], vec![0xFF; 11], endless.clone()];
        let all = more.into_iter().chain(long).chain(high).chain(most).chain(rough);
        let changes: Vec<_> = all.map(|other| vec![(part, other)]).collect();
        apply(&format!("part {part} in other groups"), &parts, &changes, hand)?;
    }
    Ok(())
}

/// Every bit of a saved day changed, every length, bytes behind the end, and any bytes.
fn rough_bytes(random: &mut Random, hand: &mut Hand) -> Written {
    let tiny = saved::bytes(&tiny_day());
    hand.name("every bit of a saved day changed")?;
    for at in 0..tiny.len() {
        for bit in 0..8 {
            let mut changed = tiny.clone();
            changed[at] ^= 1 << bit;
            hand.try_load(&changed)?;
        }
    }
    hand.name("a saved day of every length")?;
    for length in 0..=tiny.len() {
        hand.try_load(&tiny[..length])?;
        hand.try_load(&tiny[length..])?;
    }
    hand.name("bytes behind and before a saved day")?;
    for more in [&[0][..], &[1], &[0x80], b"\n", b"\r\n", &[0; 45], &tiny, &[0xFF; 1_000]] {
        hand.try_load(&[&tiny, more].concat())?;
        hand.try_load(&[more, &tiny].concat())?;
        hand.try_load(&[b"\x01\0\0\0", more].concat())?;
    }
    hand.name("any bytes as a saved day")?;
    for byte in [0, 1, 0x7F, 0x80, 0xFF] {
        [1, 3, 4, 5, 10, 11, 300].into_iter().try_for_each(|length| hand.try_load(&vec![byte; length]))?;
    }
    hand.try_load(&vec![0xFF; LONGEST])?;
    for length in [1, 4, 10, 100, 1_000] {
        let any = junk(random, length);
        hand.try_load(&any)?;
        hand.try_load(&[b"\x01\0\x01\0", &any[..]].concat())?;
    }
    Ok(())
}

/// Up to three bytes changed, left out or put in.
fn by_chance_spoiled(bytes: &[u8], random: &mut Random) -> Vec<u8> {
    let mut spoiled = bytes.to_vec();
    for _ in 0..=random.below(3) {
        let at = random.below(spoiled.len());
        match random.below(8) {
            0 => drop(spoiled.remove(at)),
            1 => spoiled.insert(at, random.any() as u8),
            2 | 3 => spoiled[at] = random.any() as u8,
            4 => spoiled.swap(at, bytes.len() / 2),
            _ => spoiled[at] ^= 1 << random.below(8),
        }
    }
    spoiled
}

// Cases that are none.

fn bad_cases(hand: &mut Hand) -> Written {
    hand.name("bad cases of saved days")?;
    for length in [0, 1, 3, 5, 8] {
        hand.put(b'v', &vec![0; length])?;
    }
    [60_001, 65_536, 1 << 16 | 600, u32::MAX].into_iter().try_for_each(|room| hand.save(room))
}
