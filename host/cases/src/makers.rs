//! Tables of the other maker: a sound one with one fault, by kind and seed.

use crate::random::Random;
use crate::FlatTable;

/// The faults of the rows, then those of what is lent, then what is none.
pub const FAULTS: [&str; 14] = [
    "swapped",
    "missing",
    "doubled",
    "extra",
    "foreign",
    "start-moved",
    "first-start",
    "left-over",
    "segment-moved",
    "counts",
    "row-starts",
    "height",
    "unused",
    "none",
];

/// A table that lists just what it should, with one fault of this kind.
pub fn faulty(fault: &str, seed: u64, sound: &FlatTable) -> FlatTable {
    let mut random = Random::new(fault, seed);
    let r = &mut random;
    let mut table = sound.clone();
    match fault {
        "swapped" => swapped(r, &mut table),
        "missing" => missing(r, &mut table),
        "doubled" => doubled(r, &mut table),
        "extra" => extra(r, &mut table),
        "foreign" => foreign(r, &mut table),
        "start-moved" => start_moved(r, &mut table),
        "first-start" => table.row_starts[0] = r.pick(&[1, 1, 2, table.entry_count, u32::MAX]),
        "left-over" => left_over(r, &mut table),
        "segment-moved" => segment_moved(r, &mut table),
        "counts" => counts(r, &mut table),
        "row-starts" => row_starts(r, &mut table),
        "height" => table.height = r.pick(&[table.height + 1, 1 << 23, (1 << 23) + 1, u32::MAX]),
        "unused" => unused(r, &mut table),
        "none" => {}
        _ => panic!("no fault is called {fault}"),
    }
    table
}

/// The place of some entry.
fn some_entry(r: &mut Random, table: &FlatTable) -> Option<usize> {
    let entries = table.entries.len() as u64;
    (entries > 0).then(|| r.below(entries) as usize)
}

/// Two entries beside each other change places, of one row or of two.
fn swapped(r: &mut Random, table: &mut FlatTable) {
    if let Some(place) = some_entry(r, table) {
        let other = (place + 1).min(table.entries.len() - 1);
        table.entries.swap(place, other);
    }
}

/// Takes an entry away; the rows behind it move up.
fn missing(r: &mut Random, table: &mut FlatTable) {
    if let Some(place) = some_entry(r, table) {
        table.entries.remove(place);
        table.entry_count -= 1;
        for start in table.row_starts.iter_mut() {
            *start -= u32::from(*start as usize > place);
        }
    }
}

/// Puts an entry at a place, as the last that the row there has before it; the rows behind it move down.
fn put(table: &mut FlatTable, place: usize, entry: u32) {
    table.entries.insert(place, entry);
    table.entry_count += 1;
    for start in table.row_starts.iter_mut() {
        *start += u32::from(*start as usize > place);
    }
}

fn doubled(r: &mut Random, table: &mut FlatTable) {
    if let Some(place) = some_entry(r, table) {
        put(table, place, table.entries[place]);
    }
}

/// A segment more, somewhere in a row, or where its number belongs.
fn extra(r: &mut Random, table: &mut FlatTable) {
    let Some(mut place) = some_entry(r, table) else {
        return left_over(r, table);
    };
    let entry = r.below(table.segment_count.into()) as u32;
    if r.once_in(2) {
        let behind = |start: &&u32| **start as usize > place;
        let past = table.row_starts.iter().find(behind);
        let past = past.map_or(table.entries.len(), |&start| start as usize);
        let greater = |&other: &u32| other > entry;
        let belongs = table.entries[place..past].iter().position(greater);
        place += belongs.unwrap_or(0);
    }
    put(table, place, entry);
}

/// Another segment, one that is there or one that is not.
fn foreign(r: &mut Random, table: &mut FlatTable) {
    let count = table.segment_count;
    if let Some(place) = some_entry(r, table) {
        let another = r.below(count.into()) as u32;
        table.entries[place] = r.pick(&[another, another, count, count + 1, u32::MAX]);
    }
}

fn start_moved(r: &mut Random, table: &mut FlatTable) {
    let row = r.below(table.row_starts.len() as u64) as usize;
    let any = r.below(u64::from(table.entry_count) + 2) as u32;
    let start = table.row_starts[row];
    table.row_starts[row] = r.pick(&[start.wrapping_sub(1), start + 1, start + 1, any, u32::MAX]);
}

fn left_over(r: &mut Random, table: &mut FlatTable) {
    for _ in 0..r.within(1, 3) {
        table
            .entries
            .push(r.below(u64::from(table.segment_count) + 1) as u32);
        table.entry_count += 1;
    }
}

/// A segment that has other rows than its table was made for, or the same ones.
fn segment_moved(r: &mut Random, table: &mut FlatTable) {
    if table.segment_count > 0 {
        let first = 8 * r.below(table.segment_count.into()) as usize;
        let (cell, to) = (1 + r.below(2) as usize, r.any_f32());
        let here = table.segments[first + cell];
        table.segments[first + cell] =
            r.pick(&[here + 1.0, here - 1.0, here + 0.5, -here, to, f32::NAN]);
    }
}

/// Counts beyond what is lent, or fewer than are listed.
fn counts(r: &mut Random, table: &mut FlatTable) {
    let off = r.pick(&[1, 1, 2, 1 << 24, 1 << 30, u32::MAX]);
    match r.below(4) {
        0 => table.segment_count = table.segment_count.saturating_add(off),
        1 => table.segment_count = table.segment_count.saturating_sub(off),
        2 => table.entry_count = table.entry_count.saturating_add(off),
        _ => table.entry_count = table.entry_count.saturating_sub(off),
    }
}

/// One too many or too few of them.
fn row_starts(r: &mut Random, table: &mut FlatTable) {
    match r.below(3) {
        0 => table.row_starts.push(table.entry_count),
        1 => table.row_starts.clear(),
        _ => {
            table.row_starts.pop();
        }
    }
}

/// Cells behind the counts.
fn unused(r: &mut Random, table: &mut FlatTable) {
    table.entries.push(r.next() as u32);
    table.segments.push(r.any_f32());
}
