//! The summary of every 64 rows: made for sights and widths of every kind, in rooms around what it takes, with each limit at, one below and one above; then runs in which two
//! desks hide, show and refresh by turns. Every cell is held against the second reading, the numbers of an accepted summary against the columns that spline.rs touches too, and a
//! refreshed summary against one that the port makes afresh.

use super::draw::{lent, seen};
use super::lent::Cell;
use super::tally::Tally;
use super::{guarded, told_refusal};
use crate::bands::{width_by_turns, wrong};
use crate::desks::{any_sight, DESK_KINDS};
use crate::draw::sight_by_turns;
use cases::bands::{banded, BANDED_KINDS};
use cases::descriptions::build_case;
use cases::desks::Sight;
use cases::random::Random;
use cases::{each, FlatTable, Refusal};
use model::bands::{bands_of, BAND_ROWS, NUMBERS};
use port::Answer;

const TABLES_A_KIND: u64 = 4_000;
const RUNS_A_KIND: u64 = 80;
/// Of these tables no row is refused.
const SOUND_KINDS: [&str; 2] = ["crowded", "sparse"];
/// Hides and refreshes of a run.
const TURNS: u64 = 16;

/// At the limit of what is a width, and one on either side.
const WIDEST: u32 = 1 << 23;

pub fn compare(tally: &mut Tally) {
    for (kind, seed) in each(&BANDED_KINDS, TABLES_A_KIND) {
        tally.cases += 1;
        let table = banded(kind, seed);
        let sight = sight_by_turns(seed, &table);
        let width = width_by_turns(seed);
        let words = || format!("{kind}, seed {seed}");
        let (due, bands) = (cells_of(&table), bands_of(table.height));
        judged(tally, &table, &sight, width, words);
        for room in [due, due + 1, due + 7, due.saturating_sub(1), 0] {
            making(tally, &table, &sight, width, &mut other_cells(room), words);
            let any = seed as u32 % (bands + 2);
            for band in [bands.wrapping_sub(1), bands, any, u32::MAX] {
                let mut cells = other_cells(room);
                refresh(tally, &table, &sight, width, &mut cells, band, words);
            }
        }
        limits(tally, table, sight, words);
    }
}

/// How many cells the bands of a table take; of one that is refused for its height none.
fn cells_of(table: &FlatTable) -> usize {
    match table.height {
        height if height <= WIDEST => NUMBERS * bands_of(height) as usize,
        _ => 0,
    }
}

/// Cells that hold other numbers than any summary.
fn other_cells(room: usize) -> Vec<u32> {
    (0..room).map(u32::other).collect()
}

/// One number of what a call is given, moved to a limit, one below and one above.
fn limits(tally: &mut Tally, table: FlatTable, sight: Sight, words: impl Fn() -> String + Copy) {
    for by in [-1, 0, 1] {
        let moved = |number: u32| number.saturating_add_signed(by);
        both(tally, &table, &sight, moved(WIDEST), words);
        let desk = Sight {
            desk: moved(1),
            ..sight.clone()
        };
        both(tally, &table, &desk, 40, words);
        let lent = sight.bits.len() as u64;
        let splines = Sight {
            splines: lent.saturating_add_signed(by.into()),
            ..sight.clone()
        };
        both(tally, &table, &splines, 40, words);
        for number in 0..4 {
            let mut table = table.clone();
            match number {
                0 => table.segment_count = moved(table.owners.len() as u32),
                1 => table.segment_count = moved(table.segments.len() as u32 / 8),
                2 => table.entry_count = moved(table.entries.len() as u32),
                _ => table.height = moved(table.row_starts.len() as u32 - 1),
            }
            both(tally, &table, &sight, 40, words);
        }
    }
}

/// Made, and the last band made again, in just the room that is due.
fn both(
    tally: &mut Tally,
    table: &FlatTable,
    sight: &Sight,
    width: u32,
    words: impl Fn() -> String + Copy,
) {
    let room = cells_of(table);
    making(tally, table, sight, width, &mut other_cells(room), words);
    let last = bands_of(table.height).saturating_sub(1);
    refresh(
        tally,
        table,
        sight,
        width,
        &mut other_cells(room),
        last,
        words,
    );
}

/// What the second reading makes, if it is accepted, against what spline.rs touches; the port is held against the second reading.
pub(super) fn judged(
    tally: &mut Tally,
    table: &FlatTable,
    sight: &Sight,
    width: u32,
    words: impl Fn() -> String,
) {
    let Ok(numbers) = model::bands(table, sight, width, u64::MAX) else {
        return;
    };
    tally.by_rust += 1;
    if let Some(other) = wrong(table, sight, width, &numbers) {
        tally.differs(format!(
            "bands, {}: {table:?} {sight:?}, width {width}\n  {numbers:?}\n  {other}",
            words()
        ));
    }
}

/// One making in these cells.
pub(super) fn making(
    tally: &mut Tally,
    table: &FlatTable,
    sight: &Sight,
    width: u32,
    cells: &mut [u32],
    words: impl Fn() -> String,
) {
    tally.called(&model::bands(table, sight, width, cells.len() as u64));
    if let Some(other) = wrong_making(table, sight, width, cells) {
        tally.differs(format!("{}: {other}", words()));
    }
}

/// In words, if what the port makes in these cells is not what the second reading says.
pub fn wrong_making(
    table: &FlatTable,
    sight: &Sight,
    width: u32,
    cells: &mut [u32],
) -> Option<String> {
    let expected = model::bands(table, sight, width, cells.len() as u64);
    let many = expected.as_ref().map(|_| bands_of(table.height));
    let told = told_bands(many.map_err(|refusal| *refusal));
    let mut due = expected.unwrap_or_default();
    due.resize(cells.len(), 0);
    let found = guarded::bands(&lent(table), &seen(sight), width, cells);
    let same = found == told && *cells == due[..];
    (!same).then(|| format!(
        "bands, width {width} of {table:?}, {sight:?}\n  port: {found:?} {cells:?}\n  model: {told:?} {due:?}"
    ))
}

/// One refresh of what these cells hold, by both.
pub(super) fn refresh(
    tally: &mut Tally,
    table: &FlatTable,
    sight: &Sight,
    width: u32,
    cells: &mut [u32],
    band: u32,
    words: impl Fn() -> String,
) {
    tally.called(&model::band(table, sight, width, &mut cells.to_vec(), band));
    if let Some(other) = wrong_refresh(table, sight, width, cells, band) {
        tally.differs(format!("{}: {other}", words()));
    }
}

/// In words, if the port's refresh of a band in these cells is not that of the second reading.
pub fn wrong_refresh(
    table: &FlatTable,
    sight: &Sight,
    width: u32,
    cells: &mut [u32],
    band: u32,
) -> Option<String> {
    let before = cells.to_vec();
    let mut due = before.clone();
    let told = told_bands(model::band(table, sight, width, &mut due, band));
    let found = guarded::band(&lent(table), &seen(sight), width, cells, band);
    let same = found == told && *cells == due[..];
    (!same).then(|| format!(
        "band {band}, width {width} of {table:?}, {sight:?} over {before:?}\n  port: {found:?} {cells:?}\n  model: {told:?} {due:?}"
    ))
}

fn told_bands(expected: Result<u32, Refusal>) -> (u32, Answer) {
    match expected {
        Ok(bands) => (0, [0, bands.into(), 0, 0, 0]),
        Err(refusal) => told_refusal(&refusal),
    }
}

/// Two desks over one table, each with its own summary: of built tables, and of tables of several bands.
pub fn compare_runs(tally: &mut Tally) {
    for (kind, seed) in each(&DESK_KINDS, RUNS_A_KIND) {
        let case = build_case(kind, seed);
        if let Ok(built) = model::build(&case.description, &case.given, &model::AMPLE) {
            let r = &mut Random::new("bands of two desks", seed);
            let sight = any_sight(&case, r);
            run(
                tally,
                &format!("{kind}, seed {seed}"),
                &FlatTable::from(&built),
                sight,
                r,
            );
        }
    }
    for (kind, seed) in each(&SOUND_KINDS, RUNS_A_KIND) {
        let table = banded(kind, seed);
        let splines = table.owners.last().map_or(1, |&last| last + 1);
        let r = &mut Random::new("bands of two desks", seed);
        run(
            tally,
            &format!("{kind}, seed {seed}"),
            &table,
            Sight::open(splines),
            r,
        );
    }
}

fn run(tally: &mut Tally, case: &str, table: &FlatTable, mut sight: Sight, r: &mut Random) {
    tally.cases += 1;
    let words = || case.to_string();
    let width = r.pick(&[1, 40, 80, 160, WIDEST]);
    let room = cells_of(table) + r.below(4) as usize;
    let mut summaries = [0, 1].map(|desk| {
        sight.desk = desk;
        afresh(table, &sight, width, room)
    });
    for turn in 0..TURNS {
        sight.desk = r.below(2) as u32;
        let spline = r.below(sight.splines);
        let (code, _) = guarded::hide(&mut sight.bits, sight.desk, spline, r.once_in(2));
        assert_eq!(code, 0, "a desk hides what it likes");
        let cells = &mut summaries[sight.desk as usize];
        // Any band, or one past the last; then those that list the spline, in any order.
        let any = r.below(u64::from(bands_of(table.height)) + 1) as u32;
        for band in [any].into_iter().chain(shuffled(listing(table, spline), r)) {
            refresh(tally, table, &sight, width, cells, band, words);
        }
        // Nor has the other desk's summary changed.
        for desk in [0, 1] {
            sight.desk = desk;
            same_as_fresh(tally, case, table, &sight, width, &summaries[desk as usize]);
        }
        if turn == TURNS - 1 {
            judged(tally, table, &sight, width, words);
        }
    }
}

/// The whole summary is what the port makes afresh, and that is the second reading's.
fn same_as_fresh(
    tally: &mut Tally,
    case: &str,
    table: &FlatTable,
    sight: &Sight,
    width: u32,
    cells: &[u32],
) {
    let mut fresh = other_cells(cells.len());
    making(tally, table, sight, width, &mut fresh, || case.to_string());
    if fresh != cells {
        tally.differs(format!(
            "bands, {case}: {table:?} {sight:?}, width {width}\n  refreshed: {cells:?}\n  afresh: {fresh:?}"
        ));
    }
}

/// A summary of a sound table by the port.
fn afresh(table: &FlatTable, sight: &Sight, width: u32, room: usize) -> Vec<u32> {
    let mut cells = other_cells(room);
    let (code, _) = guarded::bands(&lent(table), &seen(sight), width, &mut cells);
    assert_eq!(code, 0, "the bands of a sound table are made");
    cells
}

/// The bands that list a segment of a spline.
pub fn listing(table: &FlatTable, spline: u64) -> Vec<u32> {
    let lists = |&band: &u32| {
        let rows = BAND_ROWS * band..(BAND_ROWS * (band + 1)).min(table.height);
        let first = table.row_starts[rows.start as usize] as usize;
        let past = table.row_starts[rows.end as usize] as usize;
        let mut entries = table.entries[first..past].iter();
        entries.any(|&entry| table.owners[entry as usize] == spline)
    };
    (0..bands_of(table.height)).filter(lists).collect()
}

fn shuffled(mut bands: Vec<u32>, r: &mut Random) -> Vec<u32> {
    for last in (1..bands.len()).rev() {
        bands.swap(last, r.below(last as u64 + 1) as usize);
    }
    bands
}
