//! Drawing: sound, strange and hostile tables, sights and requests as they come, and rows of built tables cut into parts that are drawn in any order.
//! Every accepted part is drawn by spline.rs too, without what is hidden: its cells, and its updates as the pixels that it touches segment by segment.

use super::tally::Tally;
use super::{guarded, told_refusal};
use crate::draw::{sight_by_turns, without_hidden, Channels, Judge};
use crate::verdict::same_floats;
use cases::descriptions::build_case;
use cases::desks::Sight;
use cases::random::Random;
use cases::tables::{request, table, REQUEST_KINDS, TABLE_KINDS};
use cases::{each, seeds, FlatTable, Refusal};
use port::Answer;

const CASES_A_KIND: u64 = 16_000;
const BUILT_TABLES: u64 = 2_400;

/// Descriptions whose tables are drawn.
const BUILT_KINDS: [&str; 5] = ["fibres", "straight", "sigma", "colours", "correlations"];

/// Rows drawn of a built table, and the width that they are drawn to.
const ROWS: u64 = 12;
pub const WIDTH: u32 = 160;

pub fn compare(tally: &mut Tally) {
    for (kind, seed) in each(&TABLE_KINDS, CASES_A_KIND) {
        let table = table(kind, seed);
        let sight = sight_by_turns(seed, &table);
        let request = request(REQUEST_KINDS[seed as usize % 3], seed, table.height.max(1));
        tally.cases += 1;
        let (y, x0, n) = (request.y, request.x0, request.n);
        let expected = expected_part(&table, &sight, y, x0, n, &request.channels);
        let drawn = drawn_part(&table, &sight, y, x0, n, &request.channels);
        let words = || format!("{kind}, seed {seed}: {table:?} {sight:?} {request:?}");
        check(tally, &expected, &drawn, words);
        if expected.0.is_ok() {
            let judge = Judge::of(without_hidden(&table, &sight, y));
            let theirs = judge.draw(y, x0, n, &request.channels);
            check_with_rust(tally, &theirs, &drawn, words);
        }
    }
    for seed in seeds(BUILT_TABLES) {
        let kind = BUILT_KINDS[seed as usize % BUILT_KINDS.len()];
        let case = build_case(kind, seed);
        if let Ok(built) = model::build(&case.description, &case.given, &model::AMPLE) {
            tally.cases += 1;
            rows_in_parts(
                tally,
                kind,
                seed,
                &FlatTable::from(&built),
                case.description.counts.len() as u64,
            );
        }
    }
}

/// Rows of one table with nothing hidden.
fn rows_in_parts(tally: &mut Tally, kind: &str, seed: u64, table: &FlatTable, splines: u64) {
    let mut r = Random::new("parts", seed);
    let judge = Judge::of(table.clone());
    let mut sight = Sight::open(splines);
    for _ in 0..ROWS.min(table.height.into()) {
        let y = r.below(table.height.into()) as u32;
        let words = format!("{kind}, seed {seed}, row {y}");
        row_in_parts(
            tally,
            &words,
            table,
            &mut sight,
            &judge,
            y,
            &mut r,
            |_, _| (),
        );
    }
}

/// One row cut into parts that are drawn in any order, with something done to the sight between them that is nothing to the desk: part after part as spline.rs draws what the
/// desk has not hidden, in the end cell by cell as spline.rs draws the row whole, and the updates sum to the row's.
pub fn row_in_parts(
    tally: &mut Tally,
    case: &str,
    table: &FlatTable,
    sight: &mut Sight,
    judge: &Judge,
    y: u32,
    r: &mut Random,
    mut between: impl FnMut(&mut Sight, &mut Random),
) {
    let before: Channels = [0, 1, 2].map(|_| (0..WIDTH).map(|_| r.between(-1.0, 1.0)).collect());
    let whole = judge.draw(y, 0, WIDTH, &before);
    let mut cells = before.clone();
    let mut updates = 0;
    for (x0, n) in cut(r) {
        between(sight, r);
        let part = cells
            .each_ref()
            .map(|channel| channel[x0 as usize..].to_vec());
        let expected = expected_part(table, sight, y, x0, n, &part);
        let drawn = drawn_part(table, sight, y, x0, n, &part);
        let words = || format!("{case}, part {x0}, {n}, {sight:?}");
        check(tally, &expected, &drawn, words);
        let theirs = judge.draw(y, x0, n, &part);
        check_with_rust(tally, &theirs, &drawn, words);
        updates += drawn.1[1];
        for (channel, new) in cells.iter_mut().zip(&drawn.2) {
            channel[x0 as usize..].copy_from_slice(new);
        }
    }
    same_cells(tally, &whole.1, &cells, || format!("{case} in parts"));
    if whole.0 != Some(updates as u64) {
        tally.differs(format!(
            "{case}: updates {updates} in parts, {:?} whole",
            whole.0
        ));
    }
}

/// A row cut into adjacent parts, in any order.
fn cut(r: &mut Random) -> Vec<(u32, u32)> {
    let mut parts = Vec::new();
    let mut x = 0;
    while x < WIDTH {
        let n = (r.below(60) as u32).min(WIDTH - x);
        parts.push((x, n));
        x += n;
    }
    for last in (1..parts.len()).rev() {
        parts.swap(last, r.below(last as u64 + 1) as usize);
    }
    parts
}

pub(super) fn check(
    tally: &mut Tally,
    expected: &(Result<u64, Refusal>, Channels),
    drawn: &(u32, Answer, Channels),
    words: impl Fn() -> String,
) {
    tally.called(&expected.0);
    let told = match &expected.0 {
        Ok(updates) => (0, [0, *updates as i64, 0, 0, 0]),
        Err(refusal) => told_refusal(refusal),
    };
    if told != (drawn.0, drawn.1) {
        tally.differs(format!(
            "draw, {}\n  port: {:?}\n  model: {told:?}",
            words(),
            (drawn.0, drawn.1)
        ));
    }
    same_cells(tally, &expected.1, &drawn.2, words);
}

/// The same updates and cells as spline.rs.
pub(super) fn check_with_rust(
    tally: &mut Tally,
    theirs: &(Option<u64>, Channels),
    drawn: &(u32, Answer, Channels),
    words: impl Fn() -> String,
) {
    tally.by_rust += 1;
    if theirs.0 != Some(drawn.1[1] as u64) {
        tally.differs(format!(
            "draw, {}\n  port: {:?}\n  spline.rs touches {:?} pixels",
            words(),
            drawn.1,
            theirs.0
        ));
    }
    same_cells(tally, &theirs.1, &drawn.2, words);
}

fn same_cells(
    tally: &mut Tally,
    expected: &Channels,
    drawn: &Channels,
    words: impl Fn() -> String,
) {
    if !same_floats(&expected.concat(), &drawn.concat()) {
        tally.differs(format!(
            "draw, {}\n  cells: {drawn:?}\n  expected: {expected:?}",
            words()
        ));
    }
}

pub(super) fn expected_part(
    table: &FlatTable,
    sight: &Sight,
    y: u32,
    x0: u32,
    n: u32,
    before: &Channels,
) -> (Result<u64, Refusal>, Channels) {
    let mut after = before.clone();
    let [r0, r1, r2] = &mut after;
    (model::draw(table, sight, y, x0, n, [r0, r1, r2]), after)
}

pub(super) fn drawn_part(
    table: &FlatTable,
    sight: &Sight,
    y: u32,
    x0: u32,
    n: u32,
    before: &Channels,
) -> (u32, Answer, Channels) {
    let mut after = before.clone();
    let [r0, r1, r2] = &mut after;
    let (code, answer) = guarded::draw(&lent(table), &seen(sight), y, x0, n, [r0, r1, r2]);
    (code, answer, after)
}

pub fn lent(table: &FlatTable) -> port::Table<'_> {
    port::Table {
        segments: &table.segments,
        owners: &table.owners,
        segment_count: table.segment_count,
        entries: &table.entries,
        entry_count: table.entry_count,
        row_starts: &table.row_starts,
        height: table.height,
    }
}

/// A desk's sight as the port takes it.
pub fn seen(sight: &Sight) -> port::Sight<'_> {
    port::Sight {
        splines: sight.splines,
        bits: &sight.bits,
        desk: sight.desk,
    }
}
