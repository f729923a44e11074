//! Tables of several bands, by kind and seed.

use crate::random::Random;
use crate::segments::ordinary_record;
use crate::FlatTable;

/// "crowded" rows list many segments, "sparse" ones mostly none; in "broken" ones something is wrong in one row.
pub const BANDED_KINDS: [&str; 3] = ["crowded", "sparse", "broken"];

/// The table of this kind and seed.
pub fn banded(kind: &str, seed: u64) -> FlatTable {
    let mut random = Random::new(kind, seed);
    let r = &mut random;
    let any = r.below(300) as u32;
    let height = r.pick(&[0, 1, 63, 64, 65, 127, 128, any, any]);
    let segment_count = r.below(12) as u32;
    let splines = r.pick(&[1, 3, 6]);
    let mut table = FlatTable {
        segment_count,
        height,
        row_starts: vec![0],
        ..FlatTable::default()
    };
    for _ in 0..segment_count {
        table.segments.extend(ordinary_record(r));
        table.owners.push(r.below(splines));
    }
    table.owners.sort_unstable();
    let one_in = if kind == "crowded" { 3 } else { 150 };
    for _ in 0..height {
        let listed = (0..segment_count).filter(|_| r.once_in(one_in));
        table.entries.extend(listed);
        table.row_starts.push(table.entries.len() as u32);
    }
    table.entry_count = table.entries.len() as u32;
    if kind == "broken" {
        break_a_row(r, &mut table);
    }
    table
}

/// A start or an entry that one row is refused for; the others stay good.
fn break_a_row(r: &mut Random, table: &mut FlatTable) {
    let row = r.below(table.row_starts.len() as u64) as usize;
    match r.below(3) {
        0 => table.row_starts[row] = table.entry_count + 1,
        1 => table.row_starts[row] = 0,
        _ => {
            let entries = table.entries.len() as u64;
            if entries > 0 {
                let place = r.below(entries) as usize;
                table.entries[place] = r.pick(&[table.segment_count, u32::MAX]);
            }
        }
    }
}
