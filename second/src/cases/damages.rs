//! Cases about damage: each rule broken alone, from both sides (01, *Damaged*, and 02, Ticket 1).

use std::ops::Range;

use crate::cases::case::Written;
use crate::cases::contents::EDGES;
use crate::cases::hand::Hand;
use crate::cases::random::Random;
use crate::cases::sound_tables::{full_table, rich_table, RICH_ORDERS, RICH_ROWS};
use crate::rules::day::MOST;
use crate::rules::fields::{DATE, DENOMINATOR, MONTH, PRICE, ROOT, SIDE, SOURCE, STRIKE, TOKEN, YEAR};
use crate::rules::quotes::MOST_ROWS;
use crate::rules::table::{
    row, slot, BROKEN, CANCELLED, ELDER, EXECUTED, HEADER, KEPT, MARK, OPEN, PASSED_ON, REST, ROW, ROW_BROKEN,
    ROW_COUNT, ROW_EXECUTED, SIZE, SLOT, SPARE, TABLE,
};

/// Places in the rich table: a family of three, and the last order, of which all is open.
const ELDEST: usize = 0;
const SECOND: usize = 2;
const YOUNGEST: usize = 3;
const LAST: usize = 8;
const LAST_SIZE: u32 = 50;
/// Quote rows of the rich table: three of one id, of which the second is of the other side and the third of another
/// series, one of that id under another Source, and the last.
const FIRST_ROW: usize = 0;
const OTHER_SIDE: usize = 1;
const OTHER_SERIES: usize = 2;
const OTHER_SOURCE: usize = 3;
const LAST_ROW: usize = 4;

/// Bytes for some places of the table.
type Change = Vec<(usize, Vec<u8>)>;

/// Writes the changes of every rule to the rich table, and the counts of a full one.
pub fn bounds(random: &mut Random, hand: &mut Hand) -> Written {
    hand.take(rich_table(random))?;
    apply("a sound table", &[vec![]], hand)?;
    for (name, changes) in groups() {
        apply(name, &changes, hand)?;
    }
    hand.take(full_table(random))?;
    apply("damage: counts of a full table", &counts(), hand)?;
    apply("damage: counts of the rows of a full table", &row_counts(), hand)?;
    apply("damage: two rows of a full table alike", &alike_when_full(hand.table()), hand)
}

/// Writes changes of the rich table by chance.
pub fn by_chance(count: u64, random: &mut Random, hand: &mut Hand) -> Written {
    hand.take(rich_table(random))?;
    let changes: Vec<_> = (0..count).map(|_| chance(random)).collect();
    apply("damage by chance", &changes, hand)
}

/// Each change is made, asked about, and taken back: the damage check always, of the other entries
/// all at the first change and one in turn at every other.
fn apply(name: &str, changes: &[Change], hand: &mut Hand) -> Written {
    hand.name(name)?;
    for (number, change) in changes.iter().enumerate() {
        let before = hand.table().to_vec();
        for (at, bytes) in change {
            hand.patch(*at, bytes)?;
        }
        hand.check()?;
        if number == 0 {
            hand.ask_all()?;
        } else {
            hand.ask(number)?;
        }
        hand.restore(&before)?;
    }
    Ok(())
}

fn groups() -> Vec<(&'static str, Vec<Change>)> {
    vec![
        ("damage: counts", counts()),
        ("damage: the mark of end of day", (0..=255).map(|mark| vec![(MARK, vec![mark])]).collect()),
        ("damage: counts of quote rows", row_counts()),
        ("damage: the rest of the header", rest(0, SPARE..HEADER)),
        ("damage: an elder that isn't an earlier order", elders()),
        ("damage: two orders with one elder", shared_elders()),
        ("damage: an elder with open not 0", open_elders()),
        ("damage: sizes", sizes()),
        ("damage: broken above executed", broken()),
        ("damage: the size is not the sum", sums()),
        ("damage: sums beyond 32 bits", wide_sums()),
        ("damage: texts", texts()),
        ("damage: codes", [SIDE, MONTH, DENOMINATOR].into_iter().flat_map(every_byte).collect()),
        ("damage: dates and years", [DATE, YEAR].into_iter().flat_map(every_byte).collect()),
        ("damage: strikes", strikes()),
        ("damage: prices", prices()),
        ("damage: the rest of a slot", rest(slot(LAST).start, REST..SLOT)),
        ("no damage: free slots", free_slots()),
        ("damage: two quote rows alike", alike_rows()),
        ("damage: ids of quote rows", ids()),
        ("damage: texts of quote rows", row_texts()),
        ("damage: codes of quote rows", [SIDE, MONTH, DENOMINATOR].into_iter().flat_map(every_row_byte).collect()),
        ("damage: dates and years of quote rows", [DATE, YEAR].into_iter().flat_map(every_row_byte).collect()),
        ("damage: strikes of quote rows", strikes_from(row_field(LAST_ROW, DENOMINATOR).start)),
        ("damage: executed of quote rows", row_executed()),
        ("damage: broken above executed in quote rows", row_broken()),
        ("no damage: free quote rows", free_rows()),
    ]
}

/// Where a part of a slot stands in the table.
fn at(place: usize, part: usize) -> usize {
    slot(place).start + part
}

/// Where a field of a slot stands in the table.
fn field(place: usize, number: usize) -> Range<usize> {
    field_from(slot(place).start, number)
}

/// Where a field of a quote row stands in the table.
fn row_field(place: usize, number: usize) -> Range<usize> {
    field_from(row(place).start, number)
}

/// The same of a slot or a row that begins at a place: both keep a field where the other does.
fn field_from(start: usize, number: usize) -> Range<usize> {
    let kept = KEPT.iter().find(|(field, _)| *field == number).map_or(0..0, |(_, kept)| kept.clone());
    start + kept.start..start + kept.end
}

/// Other figures for one order.
fn figures(place: usize, figures: &[(usize, u32)]) -> Change {
    figures.iter().map(|(part, figure)| (at(place, *part), figure.to_le_bytes().to_vec())).collect()
}

fn counts() -> Vec<Change> {
    let near = (0..=RICH_ORDERS as u32 + 1).chain([255, 256, 257, 510, 511, 512, 513, 514, 1_023, 1_024]);
    let high = [1, 9, 512].into_iter().flat_map(|low| [9, 10, 16, 24, 31].map(|bit| low | 1 << bit));
    let counts = near.chain(high).chain([u32::MAX - 1, u32::MAX]);
    counts.map(|count| vec![(0, count.to_le_bytes().to_vec())]).collect()
}

/// Each byte of a part that must be 0.
fn rest(start: usize, part: Range<usize>) -> Vec<Change> {
    part.flat_map(|place| [0, 1, 0x20, 0x80, 0xFF].map(|byte| vec![(start + place, vec![byte])])).collect()
}

/// One more than the elder's place.
fn elder(place: usize, stored: u16) -> Change {
    vec![(at(place, ELDER), stored.to_le_bytes().to_vec())]
}

/// For the last order every place up to its own and beyond, of which 6 and 7 may be its elder; for
/// the others none, its own, the next, and one that makes a ring.
fn elders() -> Vec<Change> {
    let own = |place: usize| place as u16 + 1;
    let of_last = (0..=own(LAST) + 2).chain([255, 256, 257, 511, 512, 513, 514, 0x0800, 0x8000, 0x8001, 65_535]);
    let mut all: Vec<_> = of_last.map(|stored| elder(LAST, stored)).collect();
    for place in [ELDEST, 1, SECOND, YOUNGEST] {
        all.extend([0, own(place), own(place) + 1, 512, 65_535].map(|stored| elder(place, stored)));
    }
    all.push(elder(SECOND, own(YOUNGEST)));
    all.push(elder(ELDEST, own(SECOND)));
    all
}

/// Orders that may have an elder given that of another; and two that share one nobody had.
fn shared_elders() -> Vec<Change> {
    let mut all: Vec<_> = [1, 3, 5].map(|stored| elder(LAST, stored)).into();
    all.extend([elder(YOUNGEST, 1), elder(5, 3), elder(7, 5)]);
    all.push([elder(7, 7), elder(LAST, 7)].concat());
    all.push([elder(7, 7), elder(LAST, 8)].concat());
    all
}

/// Something open in an elder, its size or what it passed on being made to fit.
fn open_elders() -> Vec<Change> {
    let eldest = |open: u32| figures(ELDEST, &[(OPEN, open), (SIZE, 100 + open)]);
    let mut all: Vec<_> = [0, 1, 2, 255, 256, 65_536, 999_899].map(eldest).into();
    all.push(figures(ELDEST, &[(OPEN, 1), (PASSED_ON, 64)]));
    all.push(figures(ELDEST, &[(OPEN, 65), (PASSED_ON, 0)]));
    all.push(figures(SECOND, &[(OPEN, 1), (SIZE, 61)]));
    // The same with nothing open, and in orders that are nobody's elder.
    all.push(figures(ELDEST, &[(CANCELLED, 70), (PASSED_ON, 0)]));
    all.push(figures(YOUNGEST, &[(OPEN, 1), (PASSED_ON, 19)]));
    all.push(figures(LAST, &[(OPEN, 0), (PASSED_ON, LAST_SIZE)]));
    all
}

fn sizes() -> Vec<Change> {
    let sizes = [0, 1, 2, 999_998, 999_999, 1_000_000, 1_000_001, 1 << 20, 1 << 24, 1 << 31, u32::MAX];
    let fitting = sizes.into_iter().flat_map(|size| {
        [OPEN, EXECUTED, CANCELLED, PASSED_ON].map(|part| figures(LAST, &[(SIZE, size), (OPEN, 0), (part, size)]))
    });
    fitting.chain(sizes.map(|size| figures(LAST, &[(SIZE, size)]))).collect()
}

fn broken() -> Vec<Change> {
    let of_eldest = [0, 29, 30, 31, 65, 256, 1 << 16, 1 << 24, 1 << 31, u32::MAX];
    let of_last = [0, 1, LAST_SIZE, u32::MAX];
    let eldest = of_eldest.into_iter().map(|broken| figures(ELDEST, &[(BROKEN, broken)]));
    eldest.chain(of_last.map(|broken| figures(LAST, &[(BROKEN, broken)]))).collect()
}

/// Each part one more and one less, and with each of its bits changed; and moved from part to part.
fn sums() -> Vec<Change> {
    let youngest = [(SIZE, 40), (EXECUTED, 5), (CANCELLED, 15), (PASSED_ON, 0), (OPEN, 20_u32)];
    let mut all = vec![];
    for (part, figure) in youngest {
        let near = [figure + 1, figure.wrapping_sub(1)];
        let flipped = (0..32).map(|bit| figure ^ 1 << bit);
        all.extend(near.into_iter().chain(flipped).map(|figure| figures(YOUNGEST, &[(part, figure)])));
        for (other, rest) in youngest.into_iter().filter(|(other, _)| *other != part) {
            all.push(figures(YOUNGEST, &[(part, figure + 1), (other, rest.wrapping_sub(1))]));
            all.push(figures(YOUNGEST, &[(part, figure + 1), (other, rest + 1)]));
        }
    }
    all
}

/// Parts whose sum is the size if only its last 32 bits are looked at.
fn wide_sums() -> Vec<Change> {
    let half = 1 << 31;
    let quarter = 1 << 30;
    let parts = [
        [half, half, 0, LAST_SIZE],
        [u32::MAX, 1, 0, LAST_SIZE],
        [0, u32::MAX, 1, LAST_SIZE],
        [0, 0, LAST_SIZE + 1, u32::MAX],
        [LAST_SIZE + 1, 0, 0, u32::MAX],
        [quarter, quarter, quarter, quarter + LAST_SIZE],
        [u32::MAX, u32::MAX, u32::MAX, LAST_SIZE + 3],
        [u32::MAX; 4],
    ];
    let order = |[executed, cancelled, passed_on, open]: [u32; 4]| {
        figures(LAST, &[(EXECUTED, executed), (CANCELLED, cancelled), (PASSED_ON, passed_on), (OPEN, open)])
    };
    let mut all: Vec<_> = parts.map(order).into();
    all.push(figures(LAST, &[(SIZE, u32::MAX), (EXECUTED, u32::MAX), (OPEN, 0)]));
    all.push(figures(LAST, &[(SIZE, 0), (EXECUTED, half), (OPEN, half)]));
    all
}

/// Every place of a text with both sides of its bounds, and a text of spaces alone.
fn texts() -> Vec<Change> {
    let mut all = vec![];
    for number in [SOURCE, TOKEN, ROOT] {
        for place in [YOUNGEST, LAST] {
            let places = field(place, number);
            all.push(vec![(places.start, vec![b' '; places.len()])]);
            all.push(vec![(places.start, vec![b'~'; places.len()])]);
            all.push(vec![(places.start, vec![0; places.len()])]);
            all.extend(places.flat_map(|at| EDGES.iter().map(move |byte| vec![(at, vec![*byte])])));
        }
    }
    all
}

fn every_byte(number: usize) -> Vec<Change> {
    (0..=255).map(|byte| vec![(field(LAST, number).start, vec![byte])]).collect()
}

fn strikes() -> Vec<Change> {
    strikes_from(field(LAST, DENOMINATOR).start)
}

/// A denominator at a place, and a strike right behind it.
fn strikes_from(code_at: usize) -> Vec<Change> {
    let bounds = [0, 1, 2, 99_999, 100_000, 100_001, 999_998, 999_999, 1_000_000];
    let wide = [1 << 24, 1 << 24 | 205_750, 1 << 31, u32::MAX];
    let change = move |code: u8, strike: u32| vec![(code_at, [&[code][..], &strike.to_le_bytes()].concat())];
    let codes = b"@ABCDEF";
    codes.iter().flat_map(|code| bounds.into_iter().chain(wide).map(move |strike| change(*code, strike))).collect()
}

fn prices() -> Vec<Change> {
    let bounds = [0, 1, 9_999, 10_000, 9_999_999_998, 9_999_999_999, 10_000_000_000, 10_000_000_001];
    let wide = [u64::from(u32::MAX), 1 << 32, 1 << 34, 1 << 40, 1 << 63, (1 << 63) + 500, u64::MAX - 1, u64::MAX];
    let change = |price: u64| vec![(field(LAST, PRICE).start, price.to_le_bytes().to_vec())];
    bounds.into_iter().chain(wide).map(change).collect()
}

/// What would be damage in an order is none in the first free slot, nor in the last.
fn free_slots() -> Vec<Change> {
    let mut all = vec![];
    for place in [RICH_ORDERS, MOST - 1] {
        all.extend([0, b' ', 0xFF].map(|byte| vec![(slot(place).start, vec![byte; SLOT])]));
        all.extend([elder(place, 1), elder(place, 65_535), figures(place, &[(SIZE, 0)])]);
        all.extend(rest(slot(place).start, REST..SLOT));
    }
    all
}

// Quote rows.

fn row_counts() -> Vec<Change> {
    (0..=255).map(|count| vec![(ROW_COUNT, vec![count])]).collect()
}

/// One figure of a quote row.
fn row_figure(place: usize, part: usize, figure: u32) -> Change {
    vec![(row(place).start + part, figure.to_le_bytes().to_vec())]
}

/// The side, the series or the Source that tells a row from the first one made the same, and near misses.
fn alike_rows() -> Vec<Change> {
    let side = |place, side: u8| (row_field(place, SIDE).start, vec![side]);
    let strike = |place, strike: u32| (row_field(place, STRIKE).start, strike.to_le_bytes().to_vec());
    let source = |place, source: &[u8; 6]| (row_field(place, SOURCE).start, source.to_vec());
    let id = |place, id: &[u8; 16]| (row_field(place, TOKEN).start, id.to_vec());
    let (first_id, last_id) = (b"00000000000000A1", b"00000000000000A2");
    vec![
        vec![side(OTHER_SIDE, b'B')],
        vec![strike(OTHER_SERIES, 205_750)],
        vec![source(OTHER_SOURCE, b"ABCD01")],
        vec![id(LAST_ROW, first_id)],
        vec![side(OTHER_SIDE, b'B'), strike(OTHER_SIDE, 205_751)],
        vec![side(FIRST_ROW, b'S')],
        vec![strike(FIRST_ROW, 205_751)],
        vec![source(FIRST_ROW, b"ABCD02")],
        vec![id(FIRST_ROW, last_id)],
        vec![id(LAST_ROW, first_id), side(LAST_ROW, b'S')],
        // Unlike again in something else.
        vec![side(OTHER_SIDE, b'B'), strike(OTHER_SIDE, 205_752)],
        vec![side(OTHER_SIDE, b'B'), source(OTHER_SIDE, b"ABCD03")],
        vec![id(LAST_ROW, first_id), source(LAST_ROW, b"ABCD03")],
        vec![strike(OTHER_SERIES, 205_750), side(OTHER_SERIES, b'S'), source(OTHER_SERIES, b"ABCD02")],
        vec![id(LAST_ROW, b"0000000000000A10")],
    ]
}

/// A row of the full table in the place of another, near and far.
fn alike_when_full(table: &[u8]) -> Vec<Change> {
    let pairs = [(0, 1), (1, 0), (0, MOST_ROWS - 1), (MOST_ROWS - 1, 0), (63, 64), (MOST_ROWS - 2, MOST_ROWS - 1)];
    let name = |place: usize| table[row(place)][..ROW_EXECUTED].to_vec();
    pairs.into_iter().map(|(from, to)| vec![(row(to).start, name(from))]).collect()
}

/// Every place of an id with both sides of its bounds, every place of its padding, and texts of other lengths.
fn ids() -> Vec<Change> {
    let places = row_field(LAST_ROW, TOKEN);
    let (id, padding) = (places.start..places.start + 16, places.start + 16..places.end);
    let byte = |at: usize, byte: u8| vec![(at, vec![byte])];
    let mut all: Vec<_> = id.flat_map(|at| b"/09:@AFG`afg ~\0\xFF".iter().map(move |other| byte(at, *other))).collect();
    all.extend(padding.flat_map(|at| b" 0A!\0\xFF".iter().map(move |other| byte(at, *other))));
    all.extend((0..=255).map(|other| byte(places.start + 15, other)));
    for token in ["T9", "0123456789ABCDE", "0123456789ABCDEF", "0123456789ABCDEF0", "01234567", "0123456789abcdef"] {
        all.push(vec![(places.start, format!("{token:<20}").into_bytes())]);
    }
    all.extend([b' ', b'0', b'F', 0].map(|other| vec![(places.start, vec![other; 20])]));
    all
}

fn row_texts() -> Vec<Change> {
    let mut all = vec![];
    for number in [SOURCE, ROOT] {
        for place in [FIRST_ROW, LAST_ROW] {
            let places = row_field(place, number);
            all.extend([b' ', b'~', 0].map(|byte| vec![(places.start, vec![byte; places.len()])]));
            all.extend(places.flat_map(|at| EDGES.iter().map(move |byte| vec![(at, vec![*byte])])));
        }
    }
    all
}

fn every_row_byte(number: usize) -> Vec<Change> {
    (0..=255).map(|byte| vec![(row_field(LAST_ROW, number).start, vec![byte])]).collect()
}

fn row_executed() -> Vec<Change> {
    let figures = [0, 1, 2, 49, 50, 999_999, 1_000_000, 1 << 24, 1 << 31, u32::MAX - 1, u32::MAX];
    let last = figures.into_iter().map(|executed| row_figure(LAST_ROW, ROW_EXECUTED, executed));
    // The first has 10 broken.
    let first = [0, 9, 10, 11, u32::MAX].map(|executed| row_figure(FIRST_ROW, ROW_EXECUTED, executed));
    let nothing = [row_figure(LAST_ROW, ROW_EXECUTED, 0), row_figure(LAST_ROW, ROW_BROKEN, 0)].concat();
    last.chain(first).chain([nothing]).collect()
}

fn row_broken() -> Vec<Change> {
    let first = [0, 9, 10, 11, 29, 30, 31, 256, 1 << 16, 1 << 24, 1 << 31, u32::MAX];
    let mut all: Vec<_> = first.map(|broken| row_figure(FIRST_ROW, ROW_BROKEN, broken)).into();
    all.extend([0, 1, 50, 51, u32::MAX].map(|broken| row_figure(LAST_ROW, ROW_BROKEN, broken)));
    for (executed, broken) in [(u32::MAX, u32::MAX), (u32::MAX, u32::MAX - 1), (u32::MAX - 1, u32::MAX), (1, 1), (1, 2)]
    {
        let both = [executed.to_le_bytes(), broken.to_le_bytes()].concat();
        all.push(vec![(row(LAST_ROW).start + ROW_EXECUTED, both)]);
    }
    all
}

/// What would be damage in a row is none in the first free one, nor in the last.
fn free_rows() -> Vec<Change> {
    let mut all = vec![];
    for place in [RICH_ROWS, MOST_ROWS - 1] {
        all.extend([0, b' ', 0xFF].map(|byte| vec![(row(place).start, vec![byte; ROW])]));
        all.push(row_figure(place, ROW_EXECUTED, 0));
        all.push(row_figure(place, ROW_BROKEN, u32::MAX));
    }
    all
}

/// Up to three bytes anywhere in the header, the orders and the quote rows, now and then in the whole table.
fn chance(random: &mut Random) -> Change {
    let rare = random.once_in(16);
    (0..=random.below(3))
        .map(|_| {
            let place = match random.below(4) {
                _ if rare => random.below(TABLE),
                0 => row(0).start + random.below(ROW * RICH_ROWS),
                _ => random.below(slot(LAST).end),
            };
            (place, vec![random.any() as u8])
        })
        .collect()
}
