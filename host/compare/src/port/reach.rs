//! Reach: rows with segments at and beyond both edges, and rows of sound, strange and hostile tables, in every width. Every accepted row is held
//! against the second reading and against the columns that spline.rs touches when it draws it.

use super::draw::{lent, seen};
use super::tally::Tally;
use super::{guarded, told_refusal};
use crate::draw::{sight_by_turns, without_hidden};
use crate::reach::Probe;
use cases::desks::Sight;
use cases::tables::{
    edge_row, request, table, EDGE_KINDS, REACH_WIDTHS, REQUEST_KINDS, TABLE_KINDS,
};
use cases::{each, FlatTable};

const EDGE_ROWS: u64 = 32_000;
const CASES_A_KIND: u64 = 16_000;

/// Beside the widths of the rows at the edges one that is refused.
const TOO_WIDE: u32 = (1 << 23) + 1;

pub fn compare(tally: &mut Tally) {
    for (kind, seed) in each(&EDGE_KINDS, EDGE_ROWS) {
        let (table, y) = edge_row(kind, seed);
        compare_row(tally, kind, seed, &table, y);
    }
    for (kind, seed) in each(&TABLE_KINDS, CASES_A_KIND) {
        let table = table(kind, seed);
        let y = request(REQUEST_KINDS[seed as usize % 3], seed, table.height.max(1)).y;
        compare_row(tally, kind, seed, &table, y);
    }
}

/// One row in every width, for a sight of a kind by turns.
fn compare_row(tally: &mut Tally, kind: &str, seed: u64, table: &FlatTable, y: u32) {
    tally.cases += 1;
    let sight = sight_by_turns(seed, table);
    let mut probe = None;
    for width in REACH_WIDTHS.into_iter().chain([TOO_WIDE]) {
        let shown = || Probe::of(&without_hidden(table, &sight, y), y);
        let wrong = |reach| {
            let probe = probe.get_or_insert_with(shown);
            probe.wrong(width, reach)
        };
        compare_reach(tally, table, &sight, y, width, wrong, || {
            format!("{kind}, seed {seed}: {table:?} {sight:?}")
        });
    }
}

/// One reach against the second reading and, where it is accepted, against the columns that spline.rs touches: what is wrong with it is told in words.
pub fn compare_reach(
    tally: &mut Tally,
    table: &FlatTable,
    sight: &Sight,
    y: u32,
    width: u32,
    wrong: impl FnOnce((u32, u32)) -> Option<String>,
    case: impl Fn() -> String,
) {
    let expected = model::reach(table, sight, y, width);
    tally.called(&expected);
    let told = match &expected {
        Ok((first, past)) => (0, [0, i64::from(*first), i64::from(*past), 0, 0]),
        Err(refusal) => told_refusal(refusal),
    };
    let found = guarded::reach(&lent(table), &seen(sight), y, width);
    let words = || {
        format!(
            "reach, row {y}, width {width}, {}\n  port: {found:?}",
            case()
        )
    };
    if found != told {
        tally.differs(format!("{}\n  model: {told:?}", words()));
    }
    if found.0 == 0 && expected.is_ok() {
        tally.by_rust += 1;
        let reach = (found.1[1] as u32, found.1[2] as u32);
        if let Some(wrong) = wrong(reach) {
            tally.differs(format!("{}\n  {wrong}", words()));
        }
    }
}
