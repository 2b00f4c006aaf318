//! The tests of the lent table: the layout, damage from both sides, and the bytes held against the day by value.

use std::sync::LazyLock;

use crate::cases::random::Random;
use crate::cases::shorthand::{capture, key, piece};
use crate::cases::sound_tables::{random_day, random_day_with, stored};
use crate::cases::stream::Stream;
use crate::rules::day::{Day, Order, MOST};
use crate::rules::fields::{LF, LINE};
use crate::rules::quotes::{Row, MOST_ROWS};
use crate::rules::refusal::Refusal;
use crate::rules::sheet;
use crate::rules::sum::sum;
use crate::rules::table::{
    self, kept_in_row, row, slot, BROKEN, CANCELLED, ELDER, EXECUTED, HEADER, KEPT, OPEN, PASSED_ON, REST, ROW,
    ROW_BROKEN, ROW_EXECUTED, SIZE, SLOT, TABLE,
};
use crate::tests::law::Law;

/// The streams of the laws, and the pieces of each.
const SEEDS: u64 = 8;
const PIECES: usize = 300;
/// What no answer is.
const UNANSWERED: u32 = u32::MAX;

pub fn laws() -> [Law; 23] {
    [
        ("The sum is Adler-32", sums_are_adler),
        ("A slot's parts lie one behind another over 80 bytes", parts_lie_in_a_row),
        (
            "A quote row's parts lie one behind another over 49 bytes, and the rows behind the slots",
            row_parts_lie_in_a_row,
        ),
        ("A random table that is stored loads again", stored_tables_load),
        ("A table that loads has one form", tables_have_one_form),
        ("A stream books the same into bytes as into the day", bytes_follow_the_day),
        (
            "A booking changes the header and two slots or one quote row at most, a refusal nothing",
            bookings_change_little,
        ),
        ("A text in one call is its pieces one after another, and may go on in the next", texts_are_their_pieces),
        ("Counts, the mark and the rest of the header", headers_are_judged),
        ("A stored text, code, date, year, strike or price is judged as on a line", fields_are_judged),
        ("Sizes, sums and broken, with numbers of 32 bits", figures_are_judged),
        ("Every byte at the end of a slot must be 0", rests_are_judged),
        ("An elder is earlier, has nothing open and one younger order", elders_are_judged),
        ("Free slots are never judged", free_slots_are_free),
        ("The fields of a quote row are judged as on a line, and its Token as an id", row_fields_are_judged),
        ("Executed is 1 to 4,294,967,295 in a quote row, and broken not above it", row_figures_are_judged),
        ("No two quote rows are alike in Source, id, side and series", alike_rows_are_damage),
        ("Free quote rows are never judged", free_rows_are_free),
        ("A table of another length is damaged, and can't be made empty", other_lengths_are_damaged),
        ("A damaged table refuses every entry with 5 and keeps its bytes", damaged_tables_refuse),
        ("The earliest order with a key is found and booked", the_earliest_is_found),
        ("Each order of a random table is listed once", random_tables_are_listed),
        ("A sheet, an order or a quote row needs its whole room", rooms_are_needed),
    ]
}

// The layout.

fn sums_are_adler() -> bool {
    let mut random = Random::new(1);
    let bytes: Vec<_> = (0..TABLE).map(|_| random.next() as u8 | 0xF0).collect();
    let (a, b) = bytes.iter().fold((1, 0), |(a, b), byte| {
        let a = (a + u64::from(*byte)) % 65_521;
        (a, (b + a) % 65_521)
    });
    sum(b"") == 1 && sum(b"Wikipedia") == 0x11E6_0398 && sum(&bytes) == b * 65_536 + a
}

fn parts_lie_in_a_row() -> bool {
    let fields = KEPT.into_iter().map(|(_, places)| (places.start, places.len()));
    let figures = [SIZE, EXECUTED, BROKEN, CANCELLED, PASSED_ON, OPEN].map(|at| (at, 4));
    let mut parts = fields.chain([(ELDER, 2)]).chain(figures).chain([(REST, 5)]);
    parts.try_fold(0, |end, (at, length)| (at == end).then_some(at + length)) == Some(SLOT)
}

fn row_parts_lie_in_a_row() -> bool {
    let fields = kept_in_row().iter().map(|(_, places)| (places.start, places.len()));
    let mut parts = fields.chain([(ROW_EXECUTED, 4), (ROW_BROKEN, 4)]);
    parts.try_fold(0, |end, (at, length)| (at == end).then_some(at + length)) == Some(ROW)
        && row(0) == (40_968..41_017)
        && row(MOST_ROWS - 1).end == TABLE
        && TABLE == 47_240
}

/// Random tables of many sizes, junk in their free slots.
fn random_tables() -> impl Iterator<Item = (Day, Vec<u8>)> {
    let mut random = Random::new(2);
    (0..60).map(move |number| {
        let day = random_day([0, 1, 2, 9, 100, MOST - 1, MOST][number % 7], &mut random);
        let table = stored(&day, &mut random);
        (day, table)
    })
}

fn stored_tables_load() -> bool {
    random_tables().all(|(day, table)| table::load(&table) == Ok(day))
}

/// Some bytes of sound tables are changed: what loads then is stored as exactly these bytes.
fn tables_have_one_form() -> bool {
    let mut random = Random::new(3);
    random_tables().filter(|(day, _)| day.orders().len() < 10).all(|(day, table)| {
        let used: Vec<_> =
            (0..slot(day.orders().len()).start).chain(row(0).start..row(day.rows().len()).start).collect();
        (0..400).all(|_| {
            let mut changed = table.clone();
            changed[*random.pick(&used)] = random.next() as u8;
            let Ok(day) = table::load(&changed) else { return true };
            let mut again = changed.clone();
            table::store(&day, &mut again);
            again == changed
        })
    })
}

// Booking.

/// Whether something holds before and after each piece of random streams on random tables: it is
/// given the table before, the table after, the piece, and what booking said.
fn at_each_booking(mut holds: impl FnMut(&[u8], &[u8], &[u8], Result<(), Refusal>) -> bool) -> bool {
    (1..=SEEDS).all(|seed| {
        let mut random = Random::new(seed);
        let given = if seed == 1 { 0 } else { random.below(MOST + 1) };
        let day = random_day(given, &mut random);
        let mut table = stored(&day, &mut random);
        Stream::on(day, seed, PIECES, 1_000).all(|bytes| {
            bytes.split_inclusive(|byte| *byte == LF).all(|piece| {
                let before = table.clone();
                let result = table::book(&mut table, piece);
                holds(&before, &table, piece, result)
            })
        })
    })
}

fn bytes_follow_the_day() -> bool {
    at_each_booking(|before, after, piece, result| {
        let (Ok(mut day), Ok(booked)) = (table::load(before), table::load(after)) else { return false };
        day.book(piece) == result && day == booked
    }) && empty_tables_follow_the_day()
}

/// From the empty table on, the day being kept beside it.
fn empty_tables_follow_the_day() -> bool {
    (1..=SEEDS).all(|seed| {
        let mut table = stored(&Day::default(), &mut Random::new(seed));
        table[..HEADER].fill(0xFF);
        let mut day = Day::default();
        let made = table::make_empty(&mut table).is_ok();
        made && Stream::on(Day::default(), seed, PIECES, 1_000).all(|bytes| {
            let mut pieces = bytes.split_inclusive(|byte| *byte == LF);
            pieces.all(|piece| table::book(&mut table, piece) == day.book(piece))
        }) && table::load(&table) == Ok(day)
    })
}

fn bookings_change_little() -> bool {
    at_each_booking(|before, after, _, result| {
        let slots: Vec<_> = (0..MOST).filter(|place| before[slot(*place)] != after[slot(*place)]).collect();
        let rows: Vec<_> = (0..MOST_ROWS).filter(|place| before[row(*place)] != after[row(*place)]).collect();
        let count = |table: &[u8]| usize::from(table[0]) + 256 * usize::from(table[1]);
        let in_use =
            slots.iter().all(|place| *place < count(after)) && rows.iter().all(|place| *place < after[5].into());
        match result {
            Ok(()) => in_use && (slots.len() <= 2 && rows.is_empty() || slots.is_empty() && rows.len() == 1),
            Err(_) => before == after,
        }
    })
}

/// Random traffic in calls of any number of answers against each piece by itself.
fn texts_are_their_pieces() -> bool {
    (0..SEEDS).all(|seed| {
        let mut random = Random::new(seed);
        let day = random_day(40, &mut random);
        let mut table = stored(&day, &mut random);
        let mut other = table.clone();
        let text: Vec<_> = Stream::on(day, seed, PIECES, 1_000).flatten().collect();
        let alone: Vec<_> = text
            .split_inclusive(|byte| *byte == LF)
            .map(|piece| table::book(&mut table, piece).map_or_else(Refusal::code, |()| 0))
            .collect();
        let mut rest = text.as_slice();
        let mut said = vec![];
        while !rest.is_empty() {
            let mut answers = vec![UNANSWERED; 1 + random.below(60)];
            let Ok((bytes, pieces)) = table::book_all(&mut other, rest, &mut answers) else { return false };
            if answers[pieces..].iter().any(|answer| *answer != UNANSWERED)
                || pieces < answers.len() && bytes < rest.len()
            {
                return false;
            }
            said.extend_from_slice(&answers[..pieces]);
            rest = &rest[bytes..];
        }
        said == alone && other == table
    })
}

// Damage.

/// Three orders: T1 (of 100, 30 executed, 10 broken, 5 cancelled, 65 passed on), T2 (7, all
/// cancelled), and T3, 60, in the place of T1; and three quote rows whose ids differ in more than one character.
static THREE_ORDERS: LazyLock<Vec<u8>> = LazyLock::new(|| {
    let mut table = stored(&Day::default(), &mut Random::new(4));
    let orders = capture("A T1 100; E T1 30; C T1 10; X T1 5; A T2 7; X T2 7; U T3 for T1, 60");
    let lines = [orders, capture("E Q11 5; E Q22 6; E Q33FF 7; C Q22 6")].concat();
    for line in lines.chunks(LINE) {
        table::book(&mut table, line).expect("the lines are lawful");
    }
    table
});

/// Whether the three orders are sound with other bytes in some places.
fn sound_with(changes: &[(usize, &[u8])]) -> bool {
    let mut table = THREE_ORDERS.clone();
    for (at, bytes) in changes {
        table[*at..at + bytes.len()].copy_from_slice(bytes);
    }
    table::load(&table).is_ok()
}

/// Whether the order at a place is sound with these bytes in one of its parts.
fn sound_at(place: usize, part: usize, bytes: &[u8]) -> bool {
    sound_with(&[(slot(place).start + part, bytes)])
}

/// Whether one of the three orders is sound with these figures.
fn sound_figures(place: usize, figures: &[(usize, u32)]) -> bool {
    let bytes: Vec<_> = figures.iter().map(|(part, figure)| (slot(place).start + part, figure.to_le_bytes())).collect();
    sound_with(&bytes.iter().map(|(at, bytes)| (*at, bytes.as_slice())).collect::<Vec<_>>())
}

fn headers_are_judged() -> bool {
    let count = |count: u32| sound_with(&[(0, &count.to_le_bytes())]);
    let mut full = stored(&random_day(MOST, &mut Random::new(5)), &mut Random::new(6));
    let full_loads = table::load(&full).is_ok();
    full[..2].copy_from_slice(&513_u16.to_le_bytes());
    let rests = (6..HEADER).all(|at| (0..=255).all(|byte| sound_with(&[(at, &[byte])]) == (byte == 0)));
    let row_counts = (0..=255).all(|count| sound_with(&[(5, &[count])]) == (count <= 3));
    let full_rows = stored(&random_day_with(2, MOST_ROWS, &mut Random::new(5)), &mut Random::new(6));
    let row_count_of_full = |count: u8| {
        let mut table = full_rows.clone();
        table[5] = count;
        table::load(&table).is_ok()
    };
    (0..=3).all(count)
        && ![4, 259, 512, 513, 1 << 16 | 3, 1 << 24 | 3, u32::MAX].into_iter().any(count)
        && full_loads
        && table::load(&full).is_err()
        && (0..=255).all(|mark| sound_with(&[(4, &[mark])]) == (mark < 2))
        && rests
        && row_counts
        && (0..=255).all(|count| row_count_of_full(count) == (count <= 128))
}

/// The rules that a slot and a quote row share. `sound` says whether a table is sound with other bytes from a place of one on; the
/// texts begin at these places.
fn shared_fields_are_judged(texts: &[usize], sound: impl Fn(usize, &[u8]) -> bool) -> bool {
    let texts = texts.iter().all(|part| {
        let first = |byte| sound(*part, &[byte]);
        let inner = |byte| sound(part + 1, &[byte]);
        (0..=255)
            .all(|byte| first(byte) == (0x21..=0x7E).contains(&byte) && inner(byte) == (0x20..=0x7E).contains(&byte))
    });
    let codes = [(26, b'B'..=b'B'), (33, b'A'..=b'X'), (34, 1..=31), (35, 0..=99)].into_iter().all(|(part, lawful)| {
        (0..=255).all(|byte| sound(part, &[byte]) == (lawful.contains(&byte) || part == 26 && byte == b'S'))
    });
    let strike = |code: u8, strike: u32| sound(36, &[&[code][..], &strike.to_le_bytes()].concat());
    let strikes = (0..=255).all(|code: u8| {
        let known = (b'A'..=b'E').contains(&code);
        let small = code == b'E';
        [1, 99_999].iter().all(|digits| strike(code, *digits) == small)
            && [100_000, 999_999].iter().all(|digits| strike(code, *digits) == known)
            && ![0, 1_000_000, 1 << 24 | 205_750, u32::MAX].iter().any(|digits| strike(code, *digits))
    });
    texts && codes && strikes
}

fn fields_are_judged() -> bool {
    let price = |price: u64| sound_at(2, 41, &price.to_le_bytes());
    shared_fields_are_judged(&[0, 6, 27], |part, bytes| sound_at(2, part, bytes))
        && [0, 1, 9_999_999_999].into_iter().all(price)
        && ![10_000_000_000, 1 << 63, u64::MAX].into_iter().any(price)
}

fn figures_are_judged() -> bool {
    let size = |size| sound_figures(2, &[(SIZE, size), (OPEN, size)]);
    let broken = |broken| sound_figures(0, &[(BROKEN, broken)]);
    let parts = |[executed, cancelled, passed_on, open]: [u32; 4]| {
        sound_figures(2, &[(EXECUTED, executed), (CANCELLED, cancelled), (PASSED_ON, passed_on), (OPEN, open)])
    };
    let half = 1 << 31;
    let off_by_one = [SIZE, EXECUTED, CANCELLED, PASSED_ON].iter().zip([100, 30, 5, 65]).all(|(part, figure)| {
        let with = |figure| sound_figures(0, &[(*part, figure)]);
        with(figure) && !with(figure - 1) && !with(figure + 1)
    });
    [1, 999_999].into_iter().all(size)
        && ![0, 1_000_000, u32::MAX].into_iter().any(size)
        && [0, 10, 30].into_iter().all(broken)
        && ![31, u32::MAX].into_iter().any(broken)
        && [[0, 0, 0, 60], [60, 0, 0, 0], [0, 60, 0, 0], [0, 0, 60, 0], [15; 4]].into_iter().all(parts)
        && ![[half, half, 0, 60], [u32::MAX, 1, 0, 60], [0, 0, 61, u32::MAX], [1, 0, 0, 60]].into_iter().any(parts)
        && off_by_one
}

fn rests_are_judged() -> bool {
    (REST..SLOT).all(|part| (0..=255).all(|byte| sound_at(1, part, &[byte]) == (byte == 0)))
}

fn elders_are_judged() -> bool {
    let elder = |place, stored: u16| sound_at(place, ELDER, &stored.to_le_bytes());
    let none_else =
        |place, sound: &[u16]| (0..=u16::from(u8::MAX)).all(|stored| elder(place, stored) == sound.contains(&stored));
    // T2, which has nothing open, may be the elder of T3 too; not T1 of T2, since it is that of T3.
    let shared = slot(1).start + ELDER;
    none_else(0, &[0])
        && none_else(1, &[0])
        && none_else(2, &[0, 1, 2])
        && !elder(2, 257)
        && !elder(2, 65_535)
        && sound_with(&[(shared, &[1, 0]), (slot(2).start + ELDER, &[2, 0])])
        && !sound_with(&[(shared, &[1, 0])])
        && !sound_figures(0, &[(OPEN, 1), (SIZE, 101)])
        && sound_figures(1, &[(OPEN, 7), (CANCELLED, 0)])
}

fn free_slots_are_free() -> bool {
    [0, b' ', 0xFF].iter().all(|byte| {
        let junk = vec![*byte; row(0).start - slot(3).start];
        sound_with(&[(slot(3).start, &junk)])
    })
}

/// Whether the table is sound with these bytes in one of its three quote rows.
fn sound_in_row(place: usize, part: usize, bytes: &[u8]) -> bool {
    sound_with(&[(row(place).start + part, bytes)])
}

fn row_fields_are_judged() -> bool {
    let hex = |byte: u8| byte.is_ascii_digit() || (b'A'..=b'F').contains(&byte);
    let ids = (6..26).all(|part| {
        (0..=255).all(|byte| sound_in_row(2, part, &[byte]) == if part < 22 { hex(byte) } else { byte == b' ' })
    });
    ids && shared_fields_are_judged(&[0, 27], |part, bytes| sound_in_row(2, part, bytes))
}

fn row_figures_are_judged() -> bool {
    let sound = |executed: u32, broken: u32| {
        sound_in_row(2, ROW_EXECUTED, &[executed.to_le_bytes(), broken.to_le_bytes()].concat())
    };
    let some = [0, 1, 2, 30, 999_999, 1_000_000, 1 << 24, 1 << 31, u32::MAX - 1, u32::MAX];
    some.into_iter()
        .all(|executed| some.into_iter().all(|broken| sound(executed, broken) == (executed > 0 && broken <= executed)))
}

/// Two rows of the three made alike, and then unlike again in one of the four.
fn alike_rows_are_damage() -> bool {
    let name = |place: usize| THREE_ORDERS[row(place)][..ROW_EXECUTED].to_vec();
    let pairs = [(0, 1), (0, 2), (1, 0), (1, 2), (2, 0), (2, 1)];
    let parts =
        [(0, b"X".as_slice()), (6, b"F"), (26, b"S"), (27, b"X"), (33, b"X"), (34, &[1]), (35, &[1]), (36, b"D")];
    pairs.into_iter().all(|(from, to)| {
        let alike = name(from);
        let unlike = |(at, byte): (usize, &[u8])| {
            let mut name = alike.clone();
            name[at..at + 1].copy_from_slice(byte);
            sound_in_row(to, 0, &name)
        };
        !sound_in_row(to, 0, &alike) && parts.into_iter().all(unlike) && unlike((37, &[0xB7]))
    })
}

fn free_rows_are_free() -> bool {
    [0, b' ', 0xFF].iter().all(|byte| {
        let junk = vec![*byte; TABLE - row(3).start];
        sound_with(&[(row(3).start, &junk)])
    })
}

fn other_lengths_are_damaged() -> bool {
    let table = THREE_ORDERS.clone();
    [0, 1, 7, 8, row(0).start, TABLE - ROW, TABLE - 1, TABLE + 1, TABLE + ROW].into_iter().all(|length| {
        let mut other = table.clone();
        other.resize(length, 0);
        let before = other.clone();
        let refusal = if length < TABLE { Refusal::Buffer } else { Refusal::Damaged };
        table::load(&other).is_err() && table::make_empty(&mut other) == Err(refusal) && other == before
    })
}

fn damaged_tables_refuse() -> bool {
    let mut table = THREE_ORDERS.clone();
    table[4] = 2;
    let before = table.clone();
    let damaged = Refusal::Damaged;
    let mut buffer = [0; 300];
    let pieces = [piece("E T3 1"), piece("A T1 5"), piece("end of day"), vec![]];
    let mut answers = [UNANSWERED; 2];
    pieces.iter().all(|piece| table::book(&mut table, piece) == Err(damaged))
        && table::book_all(&mut table, &pieces.concat(), &mut answers) == Err(damaged)
        && table::book_all(&mut table, b"", &mut []) == Err(damaged)
        && answers == [UNANSWERED; 2]
        && table == before
        && table::look_up(&table, &key("T1")) == Err(damaged)
        && table::look_up(&table, b"") == Err(damaged)
        && table::write_order(&table, 9, &mut buffer[..1]) == Err(damaged)
        && table::write_row(&table, 9, &mut buffer[..1]) == Err(damaged)
        && table::write_sheet(&table, &mut buffer[..1]) == Err(damaged)
        && table::write_sheet(&table, &mut buffer) == Err(damaged)
        && buffer == [0; 300]
}

// Entries.

fn the_earliest_is_found() -> bool {
    let mut table = THREE_ORDERS.clone();
    table[slot(1)][..26].copy_from_slice(&key("T3"));
    let after = table.clone();
    // T2, now T3 by its key, has nothing open; the later T3 has 60.
    table::look_up(&table, &key("T3")) == Ok(1)
        && table::look_up(&table, &key("T2")) == Err(Refusal::UnknownKey)
        && table::look_up(&table, &key("T3")[..25]) == Err(Refusal::UnknownKey)
        && table::book(&mut table, &piece("E T3 1")) == Err(Refusal::TooLittleOpen)
        && table::book(&mut table, &piece("A T3 1")) == Err(Refusal::KnownKey)
        && table::book(&mut table, &piece("U T4 for T3, 1")) == Err(Refusal::TooLittleOpen)
        && table == after
}

fn random_tables_are_listed() -> bool {
    random_tables().all(|(day, _)| {
        let text = String::from_utf8(sheet::text(&day)).expect("keys are printable");
        let (orders, quotes): (Vec<_>, Vec<_>) = text.lines().skip(1).partition(|line| !line.starts_with("quote "));
        let mut orders: Vec<_> = orders.into_iter().filter_map(|line| Some(line.split_once(' ')?.1)).collect();
        let mut told: Vec<_> = day.orders().iter().map(told_order).collect();
        orders.sort_unstable();
        told.sort_unstable();
        orders == told && quotes == day.rows().iter().map(told_row).collect::<Vec<_>>()
    })
}

/// What a line of the sheet says of a quote row.
fn told_row(row: &Row) -> String {
    let (source, id) = (String::from_utf8_lossy(row.quote.source()), String::from_utf8_lossy(row.quote.id()));
    format!("quote {id} {} {} {source}", row.executed, row.broken)
}

/// What a line says of an order behind its family and place.
fn told_order(order: &Order) -> String {
    let figures = order.figures;
    let (source, token) = (String::from_utf8_lossy(order.source()), String::from_utf8_lossy(order.token()));
    let parts = [figures.size, figures.executed, figures.broken, figures.cancelled, figures.passed_on, figures.open];
    let parts: Vec<_> = parts.iter().map(u32::to_string).collect();
    format!("{} {source} {}", parts.join(" "), token.trim_end())
}

fn rooms_are_needed() -> bool {
    random_tables().filter(|(day, _)| !day.orders().is_empty()).all(|(day, table)| {
        let text = sheet::text(&day);
        let mut buffer = vec![b'.'; text.len() + 1];
        let (short, whole) = (text.len() - 1, text.len());
        let refused = table::write_sheet(&table, &mut buffer[..short]) == Err(Refusal::Buffer);
        let kept = buffer.iter().all(|byte| *byte == b'.');
        let written = table::write_sheet(&table, &mut buffer) == Ok(whole);
        let orders = day.orders().len() as u64;
        let mut room = [b'.'; SLOT + 1];
        refused
            && kept
            && written
            && buffer[..whole] == text
            && buffer[whole] == b'.'
            && table::write_order(&table, orders, &mut room[..SLOT - 1]) == Err(Refusal::Buffer)
            && table::write_order(&table, orders, &mut room) == Err(Refusal::UnknownKey)
            && room == [b'.'; SLOT + 1]
            && table::write_order(&table, orders - 1, &mut room).is_ok()
            && room[..SLOT] == table[slot(day.orders().len() - 1)]
            && room[SLOT] == b'.'
            && row_room_is_needed(&day, &table)
    })
}

fn row_room_is_needed(day: &Day, table: &[u8]) -> bool {
    let rows = day.rows().len();
    let mut room = [b'.'; ROW + 1];
    let refused = table::write_row(table, rows as u64, &mut room[..ROW - 1]) == Err(Refusal::Buffer)
        && table::write_row(table, rows as u64, &mut room) == Err(Refusal::UnknownKey)
        && table::write_row(table, u64::MAX, &mut room) == Err(Refusal::UnknownKey)
        && room == [b'.'; ROW + 1];
    let whole = |place: usize| {
        let mut room = [b'.'; ROW + 1];
        table::write_row(table, place as u64, &mut room).is_ok()
            && room[..ROW] == table[row(place)]
            && room[ROW] == b'.'
    };
    refused && (0..rows).all(whole)
}
