//! Drawing, reach and bands for a desk, its hides, and the logarithm.

use super::bytes::Bytes;
use crate::draw::{without_hidden, Channels, Judge};
use crate::port::bands::{wrong_making, wrong_refresh};
use crate::port::desks::wrong_hide;
use crate::port::draw::{lent, seen};
use crate::port::{guarded, told_refusal};
use crate::reach::Probe;
use crate::verdict::same_floats;
use cases::desks::Sight;
use cases::{bits, FlatTable};
use model::bands::{bands_of, NUMBERS};

/// No lent channel is longer.
const MOST_PIXELS: usize = 1 << 11;

/// No more owners or shared bytes are lent.
const MOST_LENT: u64 = 1 << 11;

/// No input refreshes more bands.
const MOST_REFRESHES: u32 = 20;

/// A table whose counts need not agree with what is lent, and a sight of it. What comes after the segments is about desks: an input
/// that ends before it has an owner a segment, all of spline 0, and desk 0 with nothing hidden.
fn table_and_sight(bytes: &mut Bytes) -> (FlatTable, Sight) {
    let mut table = FlatTable {
        segment_count: bytes.number(),
        entry_count: bytes.number(),
        height: bytes.number(),
        row_starts: bytes.numbers(),
        entries: bytes.numbers(),
        segments: bytes.floats(),
        owners: Vec::new(),
    };
    let owners = about(table.segment_count.into(), bytes);
    table.owners = bytes.numbers().into_iter().map(u64::from).collect();
    table.owners.resize(owners, 0);
    (table, sight(1, bytes))
}

/// A sight of a table of about so many splines, with about so many bytes.
pub fn sight(splines: u64, bytes: &mut Bytes) -> Sight {
    let splines = splines.wrapping_add_signed(bytes.signed().into());
    let mut bits = vec![0; about(splines, bytes)];
    let desk = bytes.number();
    bits.iter_mut().for_each(|bit| *bit = bytes.byte());
    Sight {
        splines,
        bits,
        desk,
    }
}

/// A length that is this one, or off by a number of the input.
fn about(length: u64, bytes: &mut Bytes) -> usize {
    let length = length.saturating_add_signed(bytes.signed().into());
    length.min(MOST_LENT) as usize
}

pub fn draw(bytes: &mut Bytes) {
    let (y, x0, n) = (bytes.number(), bytes.number(), bytes.number());
    let lengths = [0; 3].map(|_: u8| bytes.length(MOST_PIXELS));
    let before = bytes.float();
    let channels = lengths.map(|length| vec![before; length]);
    let (table, sight) = table_and_sight(bytes);
    draw_part(&table, &sight, y, x0, n, &channels);
}

/// One part, against the second reading and, where it is drawn, against spline.rs.
pub fn draw_part(table: &FlatTable, sight: &Sight, y: u32, x0: u32, n: u32, before: &Channels) {
    let mut expected = before.clone();
    let [r0, r1, r2] = &mut expected;
    let told = match model::draw(table, sight, y, x0, n, [r0, r1, r2]) {
        Ok(updates) => (0, [0, updates as i64, 0, 0, 0]),
        Err(refusal) => told_refusal(&refusal),
    };
    let mut drawn = before.clone();
    let [r0, r1, r2] = &mut drawn;
    let found = guarded::draw(&lent(table), &seen(sight), y, x0, n, [r0, r1, r2]);
    let words = || format!("row {y}, part {x0}, {n} of {table:?}, {sight:?} over {before:?}");
    assert!(
        found == told,
        "{}: the port {found:?}, the second reading {told:?}",
        words()
    );
    assert!(
        same_floats(&expected.concat(), &drawn.concat()),
        "{}: the port {drawn:?}, the second reading {expected:?}",
        words()
    );
    if found.0 == 0 {
        let judge = Judge::of(without_hidden(table, sight, y));
        let (_, theirs) = judge.draw(y, x0, n, before);
        assert!(
            same_floats(&theirs.concat(), &drawn.concat()),
            "{}: the port {drawn:?}, spline.rs {theirs:?}",
            words()
        );
    }
}

pub fn reach(bytes: &mut Bytes) {
    let (y, width) = (bytes.number(), bytes.number());
    let (table, sight) = table_and_sight(bytes);
    let told = match model::reach(&table, &sight, y, width) {
        Ok((first, past)) => (0, [0, first.into(), past.into(), 0, 0]),
        Err(refusal) => told_refusal(&refusal),
    };
    let found = guarded::reach(&lent(&table), &seen(&sight), y, width);
    let words = || format!("reach of row {y}, width {width} of {table:?}, {sight:?}");
    assert!(
        found == told,
        "{}: the port {found:?}, the second reading {told:?}",
        words()
    );
    if found.0 == 0 {
        let reach = (found.1[1] as u32, found.1[2] as u32);
        let wrong = Probe::of(&without_hidden(&table, &sight, y), y).wrong(width, reach);
        assert!(
            wrong.is_none(),
            "{}: the port {reach:?}; {wrong:?}",
            words()
        );
    }
}

/// The bands of a table in about the room that they take, made.
pub fn bands(bytes: &mut Bytes) {
    let (table, sight, width, mut cells) = table_and_cells(bytes);
    let wrong = wrong_making(&table, &sight, width, &mut cells);
    assert_eq!(wrong, None);
}

/// One band of them made again, as often as the input goes on.
pub fn band(bytes: &mut Bytes) {
    let (table, sight, width, mut cells) = table_and_cells(bytes);
    for _ in 0..MOST_REFRESHES {
        let wrong = wrong_refresh(&table, &sight, width, &mut cells, bytes.number());
        assert_eq!(wrong, None);
        if bytes.0.is_empty() {
            return;
        }
    }
}

/// A table, a sight of it, a width, and about as many cells as its bands take.
fn table_and_cells(bytes: &mut Bytes) -> (FlatTable, Sight, u32, Vec<u32>) {
    let (width, off) = (bytes.number(), bytes.signed());
    let (table, sight) = table_and_sight(bytes);
    let room =
        (NUMBERS as u64 * u64::from(bands_of(table.height))).saturating_add_signed(off.into());
    let cells = vec![7; room.min(MOST_LENT) as usize];
    (table, sight, width, cells)
}

/// Hides and shows by turns, as long as the input goes.
pub fn hide(bytes: &mut Bytes) {
    let Sight { mut bits, .. } = sight(4, bytes);
    while !bytes.0.is_empty() {
        let (desk, spline, hidden) = (bytes.number(), bytes.number(), bytes.flag());
        let wrong = wrong_hide(&mut bits, desk, spline.into(), hidden);
        assert_eq!(wrong, None);
    }
}

pub fn ln(bytes: &mut Bytes) {
    for x in bytes.floats() {
        let (found, expected) = (port::ln(x), model::logarithm::ln(x));
        assert!(
            bits(found) == bits(expected),
            "ln {x}: the port {found}, the second reading {expected}"
        );
    }
}
