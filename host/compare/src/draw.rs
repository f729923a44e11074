//! Drawing for a desk: the pixels, and the updates as the pixels that spline.rs touches segment by segment. It draws a row that lists no hidden segment.

use crate::segments::touched;
use crate::tally::Tally;
use crate::verdict::{equal, same_floats, Verdict};
use cases::descriptions::build_case;
use cases::desks::{sight, Sight};
use cases::tables::{request, table, Request, REQUEST_KINDS, TABLE_KINDS};
use cases::{each, FlatTable, Table};
use oracle::{Loaded, Outcome};

const CASES_A_KIND: u64 = 600;
const BUILT_TABLES: u64 = 300;

/// Descriptions whose tables are drawn.
const BUILT_KINDS: [&str; 5] = ["fibres", "straight", "sigma", "colours", "correlations"];

pub fn compare(tally: &mut Tally) {
    for (kind, seed) in each(&TABLE_KINDS, CASES_A_KIND) {
        let table = table(kind, seed);
        let sight = sight_by_turns(seed, &table);
        let request = request(REQUEST_KINDS[seed as usize % 3], seed, table.height.max(1));
        tally.add(
            kind,
            seed,
            &(&table, &sight, &request),
            against_oracle(&table, &sight, &request),
        );
    }
    for seed in 0..BUILT_TABLES {
        let kind = BUILT_KINDS[seed as usize % BUILT_KINDS.len()];
        let case = build_case(kind, seed);
        let Ok(built) = model::build(&case.description, &case.given, &model::AMPLE) else {
            continue;
        };
        let table = FlatTable::from(&built);
        for part in 0..4 {
            let sight = sight_by_turns(4 * seed + part, &table);
            let request = request("inside", 4 * seed + part, table.height.max(1));
            tally.add(
                kind,
                seed,
                &(&case, &sight, &request),
                against_oracle(&table, &sight, &request),
            );
        }
    }
}

/// Kinds of sights in their turns: six that a sound table is drawn for, then three with something that may be refused.
const SIGHT_TURNS: [&str; 9] = [
    "hidden", "open", "hidden", "all", "hidden", "longer", "short", "owners", "desk",
];

/// The sight whose turn it is; the requests have their turns within each.
pub fn sight_by_turns(seed: u64, table: &FlatTable) -> Sight {
    let kind = SIGHT_TURNS[(seed / 3) as usize % SIGHT_TURNS.len()];
    sight(kind, seed, table)
}

fn against_oracle(table: &FlatTable, sight: &Sight, request: &Request) -> Verdict {
    let (y, x0, n) = (request.y, request.x0, request.n);
    let mut mine = request.channels.clone();
    let [r0, r1, r2] = &mut mine;
    let updates = match model::draw(table, sight, y, x0, n, [r0, r1, r2]) {
        Err(refusal) if mine == request.channels => return Verdict::Outside(refusal.code),
        Err(refusal) => return equal(false, &refusal, &"written cells"),
        Ok(updates) => updates,
    };
    let judge = Judge::of(without_hidden(table, sight, y));
    let theirs = judge.draw(y, x0, n, &request.channels);
    let same = theirs.0 == Some(updates) && same_floats(&mine.concat(), &theirs.1.concat());
    equal(same, &(updates, mine), &theirs)
}

pub type Channels = [Vec<f32>; 3];

/// A table as spline.rs draws it.
pub struct Judge {
    loaded: Loaded,
    pub table: FlatTable,
}

impl Judge {
    /// Of a table whose drawn rows are sound.
    pub fn of(table: FlatTable) -> Judge {
        Judge {
            loaded: oracle::load(&unflattened(&table)),
            table,
        }
    }

    /// The updates of spline.rs, and the channels as it leaves them; it draws as many pixels as its channels have, so that cells past them stay.
    pub fn draw(&self, y: u32, x0: u32, n: u32, before: &Channels) -> (Option<u64>, Channels) {
        let mut after = before.clone();
        let part = after.each_mut().map(|channel| &mut channel[..n as usize]);
        let drawn = self.loaded.draw(y, x0, part);
        assert!(
            drawn == Outcome::Done(()),
            "spline.rs draws every accepted part"
        );
        (touched_in_all(&self.table, y, x0, n), after)
    }
}

/// A table with the same segments whose row y, which has been accepted, lists none that is hidden for the desk; its other rows list nothing.
pub fn without_hidden(table: &FlatTable, sight: &Sight, y: u32) -> FlatTable {
    let is_shown = |&&entry: &&u32| {
        let byte = sight.bits[table.owners[entry as usize] as usize];
        byte & 1 << sight.desk == 0
    };
    let shown: Vec<u32> = entries(table, y).iter().filter(is_shown).copied().collect();
    let count = shown.len() as u32;
    FlatTable {
        segments: table.segments.clone(),
        owners: table.owners.clone(),
        segment_count: table.segment_count,
        entry_count: count,
        row_starts: (0..=table.height)
            .map(|row| if row > y { count } else { 0 })
            .collect(),
        height: table.height,
        entries: shown,
    }
}

/// The sound part of a table, as the oracle takes it.
pub fn unflattened(table: &FlatTable) -> Table {
    Table {
        segments: (0..table.segment_count)
            .map(|index| table.segment(index))
            .collect(),
        row_starts: table.row_starts.clone(),
        entries: table.entries.clone(),
        ..Table::default()
    }
}

/// The entries of row y; the table has been accepted.
pub fn entries(table: &FlatTable, y: u32) -> &[u32] {
    let (first, past) = (
        table.row_starts[y as usize],
        table.row_starts[y as usize + 1],
    );
    &table.entries[first as usize..past as usize]
}

/// The updates of an accepted part: how many pixels spline.rs touches, segment by segment.
fn touched_in_all(table: &FlatTable, y: u32, x0: u32, n: u32) -> Option<u64> {
    let mut sum = 0;
    for &entry in entries(table, y) {
        let pixels = touched(&table.segment(entry), y, x0, n)?;
        sum += pixels.iter().filter(|&&pixel| pixel).count() as u64;
    }
    Some(sum)
}
