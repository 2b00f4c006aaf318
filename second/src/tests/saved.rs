//! The tests of saved days: numbers in groups by hand, a day by hand, and saving held against loading and the damage check.

use crate::cases::random::Random;
use crate::cases::saved_vectors::{MORNING, SAVED};
use crate::cases::shorthand::capture;
use crate::cases::sound_tables::{day_of, junk, longest_day, random_day, rich_day, stored};
use crate::cases::stream::Stream;
use crate::rules::day::{Day, MOST};
use crate::rules::groups;
use crate::rules::quotes::MOST_ROWS;
use crate::rules::refusal::Refusal;
use crate::rules::saved;
use crate::rules::table::{
    self, row, slot, BROKEN, CANCELLED, ELDER, EXECUTED, HEADER, MARK, OPEN, PASSED_ON, REST, ROW_BROKEN, ROW_EXECUTED,
    SIZE, TABLE,
};
use crate::tests::law::Law;

pub fn laws() -> [Law; 12] {
    [
        ("Numbers in groups of seven bits, worked out by hand", numbers_have_their_groups),
        ("Padded, endless and too large groups are no number", other_groups_are_none),
        ("Every number has one form", numbers_have_one_form),
        ("A saved day worked out by hand", a_morning_is_saved),
        ("Saving then loading gives the same orders, rows and mark, and leaves what is free", saved_days_load),
        ("Loading then saving gives the bytes", loaded_days_save),
        ("A saved day is refused exactly when it describes a damaged table", damage_is_described),
        ("A refused load changes nothing: 4, 5, then 14", refused_loads_change_nothing),
        ("Saving is refused by 5, then by 4, and changes only the bytes it needs", rooms_are_needed),
        ("No saved day is longer than 40,326 bytes", the_longest_is_known),
        ("512 orders and 128 rows load, one more of either doesn't", one_more_is_refused),
        ("A day that was saved and loaded goes on as the other", days_go_on),
    ]
}

// Numbers.

#[rustfmt::skip]
const NUMBERS: [(u64, &[u8]); 14] = [
    (0, b"\0"),
    (1, b"\x01"),
    (127, b"\x7F"),
    (128, b"\x80\x01"),
    (300, b"\xAC\x02"),
    (16_383, b"\xFF\x7F"),
    (16_384, b"\x80\x80\x01"),
    (999_999, b"\xBF\x84\x3D"),
    (4_294_967_295, b"\xFF\xFF\xFF\xFF\x0F"),
    (9_999_999_999, b"\xFF\xC7\xAF\xA0\x25"),
    (1 << 35, b"\x80\x80\x80\x80\x80\x01"),
    ((1 << 63) - 1, b"\xFF\xFF\xFF\xFF\xFF\xFF\xFF\xFF\x7F"),
    (1 << 63, b"\x80\x80\x80\x80\x80\x80\x80\x80\x80\x01"),
    (u64::MAX, b"\xFF\xFF\xFF\xFF\xFF\xFF\xFF\xFF\xFF\x01"),
];

fn put(number: u64) -> Vec<u8> {
    let mut groups = vec![];
    groups::put(number, &mut groups);
    groups
}

/// The number at the front, and how many bytes follow it.
fn taken(mut bytes: &[u8]) -> Option<(u64, usize)> {
    let number = groups::take(&mut bytes)?;
    Some((number, bytes.len()))
}

fn numbers_have_their_groups() -> bool {
    NUMBERS.iter().all(|(number, groups)| {
        put(*number) == *groups
            && taken(groups) == Some((*number, 0))
            && taken(&[groups, &b"\xFF\0"[..]].concat()) == Some((*number, 2))
    })
}

fn other_groups_are_none() -> bool {
    let padded = NUMBERS.iter().all(|(_, groups)| {
        let (last, first) = groups.split_last().expect("a number has a group");
        let more = |fill: usize| [first, &[last | 0x80], &vec![0x80; fill], &[0]].concat();
        (0..30).all(|fill| taken(&more(fill)).is_none()) && (0..groups.len()).all(|end| taken(&groups[..end]).is_none())
    });
    let ten = |last: u8| [&[0x80; 9][..], &[last]].concat();
    let eleven = |fill: u8, last: u8| [&[fill; 10][..], &[last]].concat();
    padded
        && (0..=255).all(|last| taken(&ten(last)).is_some() == (last == 1))
        && [0x80, 0xFF, 0x81].into_iter().all(|fill| (0..=255).all(|last| taken(&eleven(fill, last)).is_none()))
        && [1, 9, 10, 11, 1_000].into_iter().all(|length| taken(&vec![0xFF; length]).is_none())
}

/// Any bytes that are a number are those that the number is written as, and so is any number.
fn numbers_have_one_form() -> bool {
    let mut random = Random::new(1);
    (0..200_000).all(|_| {
        let number = random.any();
        let mut bytes: Vec<_> = (0..random.below(12)).map(|_| random.any() as u8 | 0x80).collect();
        bytes.push(random.any() as u8 & 0x7F);
        taken(&put(number)) == Some((number, 0)) && taken(&bytes).is_none_or(|(said, _)| put(said) == bytes)
    })
}

// Saving and loading.

fn a_morning_is_saved() -> bool {
    let day = day_of(&capture(MORNING));
    let over = day_of(&capture("end of day"));
    saved::bytes(&day) == SAVED
        && saved::day(SAVED) == Some(day)
        && saved::bytes(&Day::default()) == [1, 0, 0, 0]
        && saved::day(&[1, 0, 0, 0]) == Some(Day::default())
        && saved::bytes(&over) == [1, 1, 0, 0]
        && saved::day(&[1, 1, 0, 0]) == Some(over)
}

/// Random tables of many sizes.
fn random_days() -> impl Iterator<Item = Day> {
    let mut random = Random::new(2);
    (0..42).map(move |number| random_day([0, 1, 2, 9, 100, MOST - 1, MOST][number % 7], &mut random))
}

fn saved_days_load() -> bool {
    let mut random = Random::new(3);
    random_days().all(|day| {
        let table = stored(&day, &mut random);
        let mut buffer = vec![0; 60_000];
        let Ok(length) = saved::save(&table, &mut buffer) else { return false };
        let mut other = junk(&mut random, TABLE);
        let free = other.clone();
        let (slots, rows) = (slot(day.orders().len()).start, row(day.rows().len()).start);
        saved::load(&buffer[..length], &mut other) == Ok(())
            && table::load(&other) == Ok(day)
            && other[..slots] == table[..slots]
            && other[row(0).start..rows] == table[row(0).start..rows]
            && other[slots..row(0).start] == free[slots..row(0).start]
            && other[rows..] == free[rows..]
    })
}

/// Some bytes of saved days are changed: what loads then is saved as exactly these bytes.
fn loaded_days_save() -> bool {
    let mut random = Random::new(4);
    let (mut loaded, mut refused) = (0, 0);
    let same = random_days().filter(|day| day.orders().len() < 10).chain([rich_day()]).all(|day| {
        let bytes = saved::bytes(&day);
        (0..2_000).all(|_| {
            let mut changed = bytes.clone();
            let at = random.below(changed.len());
            changed[at] = if random.once_in(2) { changed[at] ^ 1 << random.below(8) } else { random.next() as u8 };
            let day = saved::day(&changed);
            *(if day.is_some() { &mut loaded } else { &mut refused }) += 1;
            day.is_none_or(|day| saved::bytes(&day) == changed)
        })
    });
    same && loaded > 1_000 && refused > 1_000
}

fn number_at(bytes: &[u8], at: usize, length: usize) -> u64 {
    bytes[at..at + length].iter().rev().fold(0, |number, byte| number << 8 | u64::from(*byte))
}

/// The saved day that says what a table's bytes say, damaged or not; nothing where none can.
fn described(table: &[u8]) -> Option<Vec<u8>> {
    let (orders, rows) = (usize::from(table[0]), usize::from(table[5]));
    if rows > MOST_ROWS || table[6..HEADER] != [0, 0] {
        return None;
    }
    let head = [1, table[4].into(), orders as u64, rows as u64].into_iter().flat_map(put).collect();
    let orders = (0..orders).map(|place| described_order(&table[slot(place)]));
    let rows = (0..rows).map(|place| described_row(&table[row(place)]));
    let parts: Option<Vec<Vec<u8>>> = [Some(head)].into_iter().chain(orders).chain(rows).collect();
    Some(parts?.concat())
}

fn described_order(slot: &[u8]) -> Option<Vec<u8>> {
    let figures = [EXECUTED, BROKEN, CANCELLED, PASSED_ON, OPEN].map(|part| number_at(slot, part, 4));
    let [executed, _, cancelled, passed_on, open] = figures;
    let whole = number_at(slot, SIZE, 4) == executed + cancelled + passed_on + open;
    if !whole || slot[REST..] != [0; 5] {
        return None;
    }
    let numbers = [number_at(slot, 41, 8), number_at(slot, ELDER, 2)].into_iter().chain(figures);
    Some([&slot[..26], &described_series(slot)?, &numbers.flat_map(put).collect::<Vec<_>>()].concat())
}

fn described_row(row: &[u8]) -> Option<Vec<u8>> {
    let figures = [ROW_EXECUTED, ROW_BROKEN].into_iter().flat_map(|part| put(number_at(row, part, 4)));
    let id = row[22..26] == *b"    ";
    id.then_some([&row[..22], &described_series(row)?, &figures.collect::<Vec<_>>()].concat())
}

/// The side and the series of a slot or a row as on a line.
fn described_series(bytes: &[u8]) -> Option<Vec<u8>> {
    let (date, year, strike) = (bytes[34], bytes[35], number_at(bytes, 37, 4));
    let (day, strike) = (format!("{date:02}{year:02}"), format!("{strike:06}"));
    let fits = day.len() == 4 && strike.len() == 6;
    fits.then_some([&bytes[26..34], day.as_bytes(), &bytes[36..37], strike.as_bytes()].concat())
}

/// Up to two bytes of tables are changed, and two figures so that their sum stays.
fn damage_is_described() -> bool {
    let mut random = Random::new(5);
    let (mut sound, mut damaged) = (0, 0);
    let tables = random_days().filter(|day| day.orders().len() < 10).chain([rich_day(), day_of(&capture(MORNING))]);
    let agree = tables.map(|day| (stored(&day, &mut Random::new(6)), day)).all(|(table, day)| {
        let used: Vec<_> =
            (MARK..slot(day.orders().len()).start).chain(row(0).start..row(day.rows().len()).start).collect();
        (0..1_000).all(|_| {
            let mut changed = table.clone();
            if !day.orders().is_empty() && random.once_in(3) {
                move_figure(&mut changed[slot(random.below(day.orders().len()))], &mut random);
            } else {
                (0..=random.below(2)).for_each(|_| changed[*random.pick(&used)] = random.any() as u8);
            }
            let Some(bytes) = described(&changed) else { return true };
            let read = table::load(&changed).ok();
            *(if read.is_some() { &mut sound } else { &mut damaged }) += 1;
            saved::day(&bytes) == read
        })
    });
    agree && sound > 3_000 && damaged > 3_000
}

/// Moves some contracts from one part of the size to another, or into the size; or changes the elder.
fn move_figure(slot: &mut [u8], random: &mut Random) {
    let parts = [SIZE, EXECUTED, CANCELLED, PASSED_ON, OPEN];
    let (one, other) = (*random.pick(&parts), *random.pick(&parts));
    if one == other {
        slot[ELDER] = random.below(12) as u8;
        return;
    }
    let number = |slot: &[u8], at: usize| u32::from_le_bytes(slot[at..at + 4].try_into().expect("four bytes"));
    let contracts = random.between(1, u64::from(number(slot, one)).max(1)) as u32;
    let grows = one == SIZE || other == SIZE;
    let less =
        if grows { number(slot, one).wrapping_add(contracts) } else { number(slot, one).wrapping_sub(contracts) };
    let more = number(slot, other).wrapping_add(contracts);
    slot[one..one + 4].copy_from_slice(&less.to_le_bytes());
    slot[other..other + 4].copy_from_slice(&more.to_le_bytes());
}

fn refused_loads_change_nothing() -> bool {
    let lengths = [0, 1, HEADER, row(0).start, TABLE - 1, TABLE, TABLE + 1, TABLE + 49];
    let mut random = Random::new(7);
    let bad = [b"".to_vec(), SAVED[..159].to_vec(), [SAVED.as_slice(), b"\0"].concat(), vec![0xFF; 1_000]];
    lengths.into_iter().all(|length| {
        let before = junk(&mut random, length);
        let refuses = |bytes: &[u8], refusal| {
            let mut table = before.clone();
            saved::load(bytes, &mut table) == Err(refusal) && table == before
        };
        let refusal = if length < TABLE { Refusal::Buffer } else { Refusal::Damaged };
        let whole = length == TABLE;
        bad.iter().all(|bytes| refuses(bytes, if whole { Refusal::NoSavedDay } else { refusal }))
            && (whole || refuses(SAVED, refusal))
    })
}

fn rooms_are_needed() -> bool {
    let mut random = Random::new(8);
    random_days().all(|day| {
        let table = stored(&day, &mut random);
        let whole = saved::bytes(&day);
        let length = whole.len();
        let mut buffer = vec![b'.'; length + 1];
        let mut damaged = table.clone();
        damaged[4] = 2;
        saved::save(&table, &mut buffer[..length - 1]) == Err(Refusal::Buffer)
            && saved::save(&table, &mut []) == Err(Refusal::Buffer)
            && saved::save(&damaged, &mut []) == Err(Refusal::Damaged)
            && saved::save(&damaged, &mut buffer) == Err(Refusal::Damaged)
            && saved::save(&table[..TABLE - 1], &mut buffer) == Err(Refusal::Damaged)
            && buffer.iter().all(|byte| *byte == b'.')
            && saved::save(&table, &mut buffer) == Ok(length)
            && buffer[..length] == whole
            && buffer[length] == b'.'
            && saved::save(&table, &mut buffer[..length]) == Ok(length)
    })
}

/// 6 for the head, 66 for each order and 51 for each row.
fn the_longest_is_known() -> bool {
    let day = longest_day();
    let bytes = saved::bytes(&day);
    bytes.len() == 6 + 512 * 66 + 128 * 51
        && bytes.len() == 40_326
        && saved::day(&bytes) == Some(day)
        && random_days().all(|day| saved::bytes(&day).len() <= 40_326)
}

/// The first order once more in front, or a row of another id behind.
fn one_more_is_refused() -> bool {
    let bytes = saved::bytes(&longest_day());
    let rest = &bytes[6..];
    let (order, row) = (&rest[..66], &rest[rest.len() - 51..]);
    let other_row = [&row[..6], b"F", &row[7..]].concat();
    let loads = |counts: &[u8; 4], order: &[u8], row: &[u8]| {
        saved::day(&[b"\x01\0", &counts[..], order, rest, row].concat()).is_some()
    };
    loads(b"\x80\x04\x80\x01", b"", b"")
        && !loads(b"\x81\x04\x80\x01", order, b"")
        && !loads(b"\x80\x04\x81\x01", b"", &other_row)
}

/// Half a capture, a restart, and the other half.
fn days_go_on() -> bool {
    let mut random = Random::new(9);
    random_days().step_by(3).all(|day| {
        let text: Vec<_> = Stream::on(day.clone(), random.next(), 200, 500).collect();
        let (morning, afternoon) = text.split_at(text.len() / 2);
        let mut straight = stored(&day, &mut random);
        let booked = table::book_all(&mut straight, &morning.concat(), &mut [0; 1_000]);
        let mut buffer = vec![0; 60_000];
        let (Ok(_), Ok(length)) = (booked, saved::save(&straight, &mut buffer)) else { return false };
        let mut restarted = junk(&mut random, TABLE);
        saved::load(&buffer[..length], &mut restarted) == Ok(())
            && afternoon.iter().all(|piece| table::book(&mut restarted, piece) == table::book(&mut straight, piece))
            && table::load(&restarted) == table::load(&straight)
    })
}
