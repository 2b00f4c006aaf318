//! Saved days that describe a damaged table, and near misses (02, Ticket 2).

use crate::cases::case::Written;
use crate::cases::contents::{contents, field, right, spoiled, EDGES};
use crate::cases::hand::Hand;
use crate::cases::saved_parts::{
    apply, number, Change, Parts, BROKEN, CANCELLED, ELDER, EXECUTED, ID, KEY, OPEN, ORDER_SERIES, ORDER_SIDE,
    PASSED_ON, PRICE, ROW_BROKEN, ROW_EXECUTED, ROW_SERIES, ROW_SIDE, ROW_SOURCE,
};
use crate::cases::sound_tables::{small_day, tiny_day};
use crate::rules::fields::{DATE, DENOMINATOR, MONTH, ROOT, SOURCE, STRIKE, TOKEN, YEAR};
use crate::rules::line::MOST_PRICE;

/// Orders of the small day: the elder of the next, one with something open, one of which all is cancelled, and the last.
const ELDEST: usize = 0;
const YOUNGER: usize = 1;
const CANCELLED_ONE: usize = 2;
const LAST: usize = 3;
const LAST_OPEN: u64 = 7;
/// Its rows: two ids, and the first once more for the other side.
const FIRST_ROW: usize = 0;
const OTHER_ID: usize = 1;
const OTHER_SIDE: usize = 2;

/// Each rule broken, and near misses.
pub fn bounds(hand: &mut Hand) -> Written {
    let parts = Parts::of(&small_day());
    for (name, changes) in [
        ("elders", elders(&parts)),
        ("elders with something open", open_elders(&parts)),
        ("sizes", sizes(&parts)),
        ("sums beyond their bits", wide_sums(&parts)),
        ("broken above executed", broken(&parts)),
        ("prices", prices(&parts)),
        ("repeated keys", vec![vec![(parts.order(LAST), parts.all[parts.order(ELDEST)].clone())]]),
        ("quote rows alike", alike_rows(&parts)),
        ("executed and broken of quote rows", row_figures(&parts)),
    ] {
        apply(&format!("described: {name}"), &parts, &changes, hand)?;
    }
    let parts = Parts::of(&tiny_day());
    apply("described: fields of an order", &parts, &order_fields(&parts), hand)?;
    apply("described: fields of a quote row", &parts, &row_fields(&parts), hand)
}

fn elder(parts: &Parts, place: usize, stored: u64) -> Change {
    vec![(parts.order(place) + ELDER, number(stored))]
}

fn elders(parts: &Parts) -> Vec<Change> {
    let far = [127, 128, 129, 255, 256, 257, 511, 512, 513, 514, 1 << 16 | 3, 1 << 32 | 3, 1 << 63 | 3, u64::MAX];
    let mut all: Vec<_> = (0..7).chain(far).map(|stored| elder(parts, LAST, stored)).collect();
    for place in [ELDEST, YOUNGER, CANCELLED_ONE] {
        all.extend((0..6).chain([1 << 32 | 1, u64::MAX]).map(|stored| elder(parts, place, stored)));
    }
    // Nobody's elder any more may be another's, but not that of two.
    let alone = elder(parts, YOUNGER, 0);
    all.push([alone.clone(), elder(parts, LAST, 1)].concat());
    all.push([alone, elder(parts, CANCELLED_ONE, 1), elder(parts, LAST, 1)].concat());
    all.push([elder(parts, CANCELLED_ONE, 1), elder(parts, LAST, 3)].concat());
    all
}

/// The figures of an order, without broken.
fn figures(parts: &Parts, place: usize, figures: [u64; 4]) -> Change {
    let at = [EXECUTED, CANCELLED, PASSED_ON, OPEN].map(|part| parts.order(place) + part);
    at.into_iter().zip(figures.map(number)).collect()
}

fn open_elders(parts: &Parts) -> Vec<Change> {
    let eldest = |open: u64| figures(parts, ELDEST, [30, 0, 70 - open, open]);
    let mut all: Vec<_> = [0, 1, 2, 70].map(eldest).into();
    all.push([eldest(1), elder(parts, YOUNGER, 0)].concat());
    all.push([figures(parts, YOUNGER, [0, 0, 0, 60]), elder(parts, LAST, 2)].concat());
    all.push([figures(parts, YOUNGER, [0, 60, 0, 0]), elder(parts, LAST, 2)].concat());
    all
}

/// A size of each part alone, and of several.
fn sizes(parts: &Parts) -> Vec<Change> {
    let sizes = [0, 1, 127, 128, 16_383, 16_384, 999_998, 999_999, 1_000_000, 1_000_001, 1 << 21, 1 << 24, 1 << 31];
    let wide = [u32::MAX.into(), 1 << 32, 1 << 32 | 1, 1 << 32 | LAST_OPEN, 1 << 63, u64::MAX];
    let mut all = vec![];
    for size in sizes.into_iter().chain(wide) {
        all.extend([[size, 0, 0, 0], [0, size, 0, 0], [0, 0, size, 0], [0, 0, 0, size]]);
    }
    let quarter = 250_000;
    all.extend([[quarter; 4], [quarter, quarter, quarter, quarter - 1], [500_000, 0, 499_999, 0]]);
    all.extend([[500_000, 500_000, 0, 0], [999_999, 0, 0, 1], [0, 1, 999_998, 1], [1, 1, 999_998, 0], [999_999; 4]]);
    all.into_iter().map(|parts_of_size| figures(parts, LAST, parts_of_size)).collect()
}

/// Figures whose sum is lawful if only its last 32 or 64 bits are looked at.
fn wide_sums(parts: &Parts) -> Vec<Change> {
    let all = [u64::from(u32::MAX), u64::MAX].into_iter().flat_map(|most| {
        let half = most / 2 + 1;
        let quarter = half / 2;
        [
            [half, half, 0, LAST_OPEN],
            [0, half, half, LAST_OPEN],
            [quarter, quarter, quarter, quarter + LAST_OPEN],
            [most, 1, 0, LAST_OPEN],
            [0, most, 1, LAST_OPEN],
            [0, 0, LAST_OPEN + 1, most],
            [LAST_OPEN + 1, 0, 0, most],
            [most, most, most, LAST_OPEN + 3],
            [most; 4],
        ]
    });
    all.map(|sum| figures(parts, LAST, sum)).collect()
}

fn broken(parts: &Parts) -> Vec<Change> {
    let figures = [0, 1, 29, 30, 31, 127, 128, 1 << 14, 1 << 31, 1 << 32, 1 << 32 | 10, 1 << 63, u64::MAX];
    let of = |place: usize| figures.map(|figure| vec![(parts.order(place) + BROKEN, number(figure))]);
    [ELDEST, LAST].into_iter().flat_map(of).collect()
}

fn prices(parts: &Parts) -> Vec<Change> {
    let bounds =
        [0, 1, 127, 128, 1 << 14, 1 << 21, 1 << 28, MOST_PRICE - 1, MOST_PRICE, MOST_PRICE + 1, MOST_PRICE + 2];
    let wide = [u32::MAX.into(), 1 << 32, 1 << 34, 1 << 35, 1 << 40, 1 << 63, u64::MAX - 1, u64::MAX];
    let change = |price: u64| vec![(parts.order(LAST) + PRICE, number(price))];
    bounds.into_iter().chain(wide).map(change).collect()
}

/// What tells a row from another made the same, and near misses.
fn alike_rows(parts: &Parts) -> Vec<Change> {
    let of = |place: usize, part: usize| (parts.row(place) + part, parts.all[parts.row(FIRST_ROW) + part].clone());
    let source = |place: usize| (parts.row(place) + ROW_SOURCE, b"ABCD02".to_vec());
    let series = |place: usize| (parts.row(place) + ROW_SERIES, b"MSFT  G2709C205751".to_vec());
    vec![
        vec![of(OTHER_ID, ID)],
        vec![of(OTHER_SIDE, ROW_SIDE)],
        vec![(parts.row(FIRST_ROW) + ROW_SIDE, b"S".to_vec())],
        vec![of(OTHER_ID, ID), source(OTHER_ID)],
        vec![of(OTHER_ID, ID), series(OTHER_ID)],
        vec![of(OTHER_ID, ID), series(OTHER_ID), series(FIRST_ROW)],
        vec![of(OTHER_ID, ID), source(OTHER_ID), source(FIRST_ROW)],
        vec![of(OTHER_ID, ID), (parts.row(OTHER_ID) + ROW_SIDE, b"S".to_vec())],
        vec![of(OTHER_ID, ID), of(OTHER_ID, ROW_EXECUTED), of(OTHER_ID, ROW_BROKEN)],
        vec![of(OTHER_ID, ROW_EXECUTED), of(OTHER_ID, ROW_BROKEN)],
    ]
}

fn row_figures(parts: &Parts) -> Vec<Change> {
    let most = u64::from(u32::MAX);
    let some =
        [0, 1, 9, 10, 11, 30, 127, 128, 999_999, 1_000_000, most - 1, most, most + 1, most + 11, 1 << 63, u64::MAX];
    let both = |executed: u64, broken: u64| -> Change {
        let at = parts.row(FIRST_ROW);
        vec![(at + ROW_EXECUTED, number(executed)), (at + ROW_BROKEN, number(broken))]
    };
    some.into_iter()
        .flat_map(|executed| [0, 1, 10, executed, executed / 2 + 1].map(|broken| both(executed, broken)))
        .chain(some.map(|broken| both(30, broken)))
        .collect()
}

/// A field of a part with each of its contents, lawful and unlawful.
fn field_contents(parts: &Parts, part: usize, first: usize, number: usize) -> Vec<Change> {
    let at = field(number).at - field(first).at;
    let all = contents(field(number)).into_iter().map(|content| {
        let mut bytes = parts.all[part].clone();
        bytes[at..at + content.len()].copy_from_slice(&content);
        vec![(part, bytes)]
    });
    all.collect()
}

/// The fields of a side and of a series.
fn shared_fields(parts: &Parts, side: usize, series: usize) -> Vec<Change> {
    let mut all: Vec<Change> = (0..=255).map(|byte| vec![(side, vec![byte])]).collect();
    for number in [ROOT, MONTH, DATE, YEAR, DENOMINATOR, STRIKE] {
        all.extend(field_contents(parts, series, ROOT, number));
    }
    let at = field(DENOMINATOR).at - field(ROOT).at;
    for code in *b"@ABCDEF" {
        for digits in [0, 1, 99_999, 100_000, 999_999] {
            let mut bytes = parts.all[series].clone();
            bytes[at..].copy_from_slice(&[&[code][..], &right(digits, b'0', 6)].concat());
            all.push(vec![(series, bytes)]);
        }
    }
    all
}

fn order_fields(parts: &Parts) -> Vec<Change> {
    let at = parts.order(YOUNGER);
    let source = field_contents(parts, at + KEY, SOURCE, SOURCE);
    let token = field_contents(parts, at + KEY, SOURCE, TOKEN);
    [source, token, shared_fields(parts, at + ORDER_SIDE, at + ORDER_SERIES)].concat()
}

fn row_fields(parts: &Parts) -> Vec<Change> {
    let at = parts.row(FIRST_ROW);
    let source = field_contents(parts, at + ROW_SOURCE, SOURCE, SOURCE);
    let id = &parts.all[at + ID];
    let ids = spoiled(id, b"/09:@AFG`afg ~").chain(spoiled(id, EDGES)).map(|other| vec![(at + ID, other)]).collect();
    [source, ids, shared_fields(parts, at + ROW_SIDE, at + ROW_SERIES)].concat()
}
