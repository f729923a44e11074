//! Row tables from another maker: what spline.rs builds, with one fault each. A table is right exactly if its rows are spline.rs's own, and else its first wrong row is the
//! first that is not.

use crate::tally::Tally;
use crate::verdict::{equal, Verdict};
use cases::descriptions::{build_case, BuildCase};
use cases::makers::{faulty, FAULTS};
use cases::{each, Code, FlatTable, Refusal, Table};
use oracle::Outcome;

const TABLES_A_KIND: u64 = 120;

/// Descriptions whose tables are checked.
pub const MAKER_KINDS: [&str; 5] = ["crowd", "fibres", "skipped", "sigma", "straight"];

pub fn compare(tally: &mut Tally) {
    for (kind, seed) in each(&MAKER_KINDS, TABLES_A_KIND) {
        let Some(own) = own_table(&build_case(kind, seed)) else {
            continue;
        };
        let sound = FlatTable::from(&own);
        for fault in FAULTS {
            let table = faulty(fault, seed, &sound);
            let mine = model::check(&table);
            let verdict = match (by_rust(&table, &own), &mine) {
                (None, Err(refusal)) => Verdict::Outside(refusal.code),
                (None, Ok(_)) => continue,
                (Some(theirs), mine) => equal(theirs == *mine, mine, &theirs),
            };
            tally.add(fault, seed, &table, verdict);
        }
    }
}

/// The table as spline.rs builds it, if it does.
pub fn own_table(case: &BuildCase) -> Option<Table> {
    if !model::list::well_shaped(&case.description) {
        return None;
    }
    match oracle::build(&case.description, &case.given) {
        Outcome::Done(built) => Some(built.table),
        _ => None,
    }
}

/// What a check is to tell by the rows of spline.rs: how many entries, or the first row that is another; `None` where the table has other
/// segments or another height, or counts beyond what is lent.
pub fn by_rust(table: &FlatTable, own: &Table) -> Option<Result<u64, Refusal>> {
    let height = own.row_starts.len() as u64 - 1;
    let as_many = table.segment_count as usize == own.segments.len()
        && u64::from(table.height) == height
        && table.row_starts.len() == own.row_starts.len();
    let same_segments = || {
        let records = (0..table.segment_count).zip(&own.segments);
        let bits = |record: &[f32; 8]| record.map(f32::to_bits);
        let mut same = records.map(|(index, record)| bits(&table.segment(index)) == bits(record));
        same.all(|same| same)
    };
    if !as_many || !same_segments() {
        return None;
    }
    let listed = table.entries.get(..table.entry_count as usize)?;
    let row_of = |starts: &[u32], y: u64| {
        let (first, past) = (starts[y as usize], starts[y as usize + 1]);
        first as usize..past as usize
    };
    let is_right = |&y: &u64| {
        let due = &own.entries[row_of(&own.row_starts, y)];
        listed.get(row_of(&table.row_starts, y)) == Some(due)
    };
    let wrong = if table.row_starts[0] != 0 {
        Some(0)
    } else {
        let left_over = (listed.len() > own.entries.len()).then_some(height);
        (0..height).find(|y| !is_right(y)).or(left_over)
    };
    Some(match wrong {
        None => Ok(listed.len() as u64),
        Some(place) => Err(Refusal {
            code: Code::Table,
            place,
        }),
    })
}
