//! Row tables from another maker: tables of builds, and each with one fault of every kind, code and place against the second reading, and where the segments are still those of
//! the build against the rows of spline.rs itself. Then counts at their limits, and images of 2^23 rows.

use super::draw::lent;
use super::pages::endless;
use super::tally::Tally;
use super::{guarded, told_refusal};
use crate::check::{by_rust, own_table, MAKER_KINDS};
use cases::descriptions::build_case;
use cases::makers::{faulty, FAULTS};
use cases::{each, Code, FlatTable, Refusal};
use port::Answer;

const TABLES_A_KIND: u64 = 200;
/// Faults of each kind in a table.
const TIMES: u64 = 5;

pub fn compare(tally: &mut Tally) {
    for (kind, seed) in each(&MAKER_KINDS, TABLES_A_KIND) {
        let Some(own) = own_table(&build_case(kind, seed)) else {
            continue;
        };
        tally.cases += 1;
        let sound = FlatTable::from(&own);
        for (fault, time) in FAULTS
            .iter()
            .flat_map(|fault| (0..TIMES).map(move |t| (fault, t)))
        {
            let table = faulty(fault, TIMES * seed + time, &sound);
            let words = || format!("{kind}, seed {seed}, {fault} {time}: {table:?}");
            let found = check(tally, &table, words);
            if let Some(theirs) = by_rust(&table, &own) {
                tally.by_rust += 1;
                if found != told(&theirs) {
                    tally.differs(format!(
                        "check, {}\n  port: {found:?}\n  spline.rs: {theirs:?}",
                        words()
                    ));
                }
            }
        }
    }
    great(tally);
    if cases::whole_run() {
        tall(tally);
    }
}

/// Zeros that take no memory: 2^24 segments and 2^30 entries are still taken, one more of either is refused before any row is looked at. Without rows no
/// segment is due; of two rows the second lists what it should not.
fn great(tally: &mut Tally) {
    let (most_segments, most_entries) = (1 << 24, 1 << 30);
    let floats = endless(8 * (u64::from(most_segments) + 1));
    let entries = endless(u64::from(most_entries) + 1);
    for (segments, listed, place) in [
        (most_segments, 0, None),
        (most_segments + 1, 0, Some(0)),
        (0, most_entries, Some(1)),
        (0, most_entries + 1, Some(0)),
    ] {
        tally.cases += 1;
        let row_starts: &[u32] = match listed {
            0 => &[0],
            _ => &[0, 0, listed],
        };
        let expected = match place {
            None => Ok(0),
            Some(place) => Err(Refusal {
                code: Code::Table,
                place,
            }),
        };
        tally.called(&expected);
        let found = port::check(&port::Table {
            segments: &floats[..8 * segments as usize],
            owners: &[],
            segment_count: segments,
            entries: &entries[..listed as usize],
            entry_count: listed,
            row_starts,
            height: row_starts.len() as u32 - 1,
        });
        if found != told(&expected) {
            tally.differs(format!(
                "check, {segments} segments, {listed} entries\n  port: {found:?}\n  due: {expected:?}"
            ));
        }
    }
}

/// Two segments at the ends of the tallest image: right, then with the last row's entry left out, another's, and one left over.
fn tall(tally: &mut Tally) {
    tally.cases += 1;
    let height = 1 << 23;
    let last = height as f32 - 1.0;
    let at = |y: f32| [4.0, y, 0.25, 1.0, 1.0, 1.0, 1.0, 1.0];
    let mut table = FlatTable {
        segments: [at(0.0), at(last)].concat(),
        segment_count: 2,
        entries: vec![0, 1],
        entry_count: 2,
        row_starts: vec![1; height as usize + 1],
        height,
        ..FlatTable::default()
    };
    (table.row_starts[0], table.row_starts[height as usize]) = (0, 2);
    let entries = [vec![0, 1], vec![0, 0], vec![0, 1, 1], vec![0]];
    for listed in entries {
        table.entry_count = listed.len() as u32;
        let words = format!("the tallest image with {listed:?}");
        table.entries = listed;
        check(tally, &table, || words.clone());
    }
}

/// One check against the second reading; what the port told.
pub(super) fn check(
    tally: &mut Tally,
    table: &FlatTable,
    words: impl Fn() -> String,
) -> (u32, Answer) {
    let expected = model::check(table);
    tally.called(&expected);
    let found = guarded::check(&lent(table));
    if found != told(&expected) {
        tally.differs(format!(
            "check, {}\n  port: {found:?}\n  model: {expected:?}",
            words()
        ));
    }
    found
}

pub fn told(expected: &Result<u64, Refusal>) -> (u32, Answer) {
    match expected {
        Ok(entries) => (0, [0, *entries as i64, 0, 0, 0]),
        Err(refusal) => told_refusal(refusal),
    }
}
