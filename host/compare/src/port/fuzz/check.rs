//! Tables of another maker: the right one of any segments, changed step by step as the input has it.

use super::bytes::Bytes;
use crate::port::check::told;
use crate::port::draw::lent;
use crate::port::guarded;
use cases::FlatTable;
use model::table::place_by_row;

/// No image is taller, and no table longer: every step of the input is a check.
const MOST_ROWS: usize = 200;
const MOST_ENTRIES: u64 = 4000;
const MOST_STEPS: u32 = 20;

pub fn check(bytes: &mut Bytes) {
    let height = bytes.length(MOST_ROWS) as u32;
    let floats = bytes.floats();
    let records: Vec<[f32; 8]> = floats
        .chunks_exact(8)
        .map(|eight| eight.try_into().expect("eight of them"))
        .collect();
    let Some((row_starts, entries)) = place_by_row(&records, height, MOST_ENTRIES) else {
        return;
    };
    let mut table = FlatTable {
        segment_count: records.len() as u32,
        segments: floats,
        owners: Vec::new(),
        entry_count: entries.len() as u32,
        entries,
        row_starts,
        height,
    };
    for _ in 0..MOST_STEPS {
        let expected = told(&model::check(&table));
        let found = guarded::check(&lent(&table));
        assert!(
            found == expected,
            "check of {table:?}: the port {found:?}, the second reading {expected:?}"
        );
        if bytes.0.is_empty() {
            return;
        }
        change(&mut table, bytes);
    }
}

fn change(table: &mut FlatTable, bytes: &mut Bytes) {
    let (what, at, to) = (bytes.byte(), bytes.number() as usize, bytes.number());
    match what % 8 {
        0 => set(&mut table.row_starts, at, to),
        1 => set(&mut table.entries, at, to),
        2 => table.entries.insert(at.min(table.entries.len()), to),
        3 => table.row_starts.insert(at.min(table.row_starts.len()), to),
        4 => {
            table.entry_count = table
                .entry_count
                .wrapping_add_signed(model::list::unpack(to))
        }
        5 => table.segment_count = to,
        6 => table.height = to.min(1 << 24),
        _ => set(&mut table.segments, at, bytes.float()),
    }
}

fn set<T>(cells: &mut [T], at: usize, to: T) {
    if let Some(cell) = cells.get_mut(at) {
        *cell = to;
    }
}
