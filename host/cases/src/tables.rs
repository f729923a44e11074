//! Tables for drawing, sound and hostile, and what is to be drawn of them, by kind and seed.

use crate::random::Random;
use crate::segments::ordinary_record;
use crate::{FlatTable, Segment};

pub const TABLE_KINDS: [&str; 3] = ["sound", "strange", "hostile"];
pub const REQUEST_KINDS: [&str; 3] = ["inside", "edges", "hostile"];
/// The kinds of rows for the reach alone.
pub const EDGE_KINDS: [&str; 2] = ["alone", "together"];
/// Widths that reach is asked for.
pub const REACH_WIDTHS: [u32; 5] = [0, 1, 40, 80, 1 << 23];

/// A part of a row, and what its channels hold before.
#[derive(Clone, Debug, PartialEq)]
pub struct Request {
    pub y: u32,
    pub x0: u32,
    pub n: u32,
    pub channels: [Vec<f32>; 3],
}

/// The table of this kind and seed.
pub fn table(kind: &str, seed: u64) -> FlatTable {
    let mut random = Random::new(kind, seed);
    let r = &mut random;
    let mut table = sound(r);
    let segments = table.segment_count;
    match kind {
        "sound" => {}
        "strange" => strange(r, &mut table),
        "hostile" => hostile(r, &mut table),
        _ => panic!("no kind of table is called {kind}"),
    }
    table.owners = owners(kind, seed, segments);
    table
}

/// An owner a segment from a stream of its own: never falling, in a strange table in any order and more than segments, in a hostile one
/// sometimes one too few.
fn owners(kind: &str, seed: u64, segments: u32) -> Vec<u64> {
    let r = &mut Random::new("owners", seed);
    let splines = r.pick(&[1, 2, 5]);
    let mut owners: Vec<u64> = (0..segments).map(|_| r.below(splines)).collect();
    match kind {
        "strange" => owners.push(u64::MAX),
        "hostile" if r.once_in(7) => {
            owners.pop();
        }
        _ => owners.sort_unstable(),
    }
    owners
}

/// Ordinary segments, each row listing some of them, ascending.
fn sound(r: &mut Random) -> FlatTable {
    let segment_count = r.below(12) as u32;
    let height = r.pick(&[1, 2, 5, 30]);
    let mut table = FlatTable {
        segment_count,
        height,
        row_starts: vec![0],
        ..FlatTable::default()
    };
    for _ in 0..segment_count {
        table.segments.extend(ordinary_record(r));
    }
    for _ in 0..height {
        for segment in 0..segment_count {
            if r.once_in(3) {
                table.entries.push(segment);
            }
        }
        table.row_starts.push(table.entries.len() as u32);
    }
    table.entry_count = table.entries.len() as u32;
    table
}

/// Lawful, but not what a build makes: any floats, entries in any order, more lent than used.
fn strange(r: &mut Random, table: &mut FlatTable) {
    let any = r.once_in(2);
    for cell in &mut table.segments {
        if any || r.once_in(10) {
            *cell = r.any_f32();
        }
    }
    for place in 1..table.entries.len() {
        let other = r.below(place as u64) as usize;
        table.entries.swap(place, other);
    }
    table.segments.push(1.0);
    table.entries.push(u32::MAX);
    table.row_starts.push(u32::MAX);
}

/// Something that TABLE is there for, one off or far off.
fn hostile(r: &mut Random, table: &mut FlatTable) {
    let off = r.pick(&[1, 1, 2, 1 << 24, u32::MAX]);
    let row = r.below(table.row_starts.len() as u64) as usize;
    match r.below(6) {
        0 => table.segment_count = table.segment_count.saturating_add(off),
        1 => table.entry_count = table.entry_count.saturating_add(off),
        2 => table.height = table.height.saturating_add(off),
        3 => table.row_starts[row] = table.row_starts[row].wrapping_add(off),
        4 => table.row_starts[row] = table.row_starts[row].wrapping_sub(off),
        _ => {
            let segments = table.segment_count;
            if let Some(entry) = table.entries.last_mut() {
                *entry = segments.saturating_add(off - 1);
            }
        }
    }
}

/// A table and a row of it that lists one segment, or up to four, at an edge of one of the widths above or far from it.
pub fn edge_row(kind: &str, seed: u64) -> (FlatTable, u32) {
    let mut random = Random::new(kind, seed);
    let r = &mut random;
    let segment_count = match kind {
        "alone" => 1,
        "together" => r.below(5) as u32,
        _ => panic!("no kind of row is called {kind}"),
    };
    let height = r.pick(&[1, 2, 5]);
    let y = r.below(height.into()) as u32;
    let row_starts = (0..=height).map(|row| if row > y { segment_count } else { 0 });
    let mut table = FlatTable {
        owners: (0..segment_count.into()).collect(),
        segment_count,
        entries: (0..segment_count).collect(),
        entry_count: segment_count,
        row_starts: row_starts.collect(),
        height,
        ..FlatTable::default()
    };
    for _ in 0..segment_count {
        table.segments.extend(edge_record(r));
    }
    (table, y)
}

/// Left of an image, right of it, across either edge, or with a distance that is no ordinary one.
fn edge_record(r: &mut Random) -> Segment {
    let width = r.pick(&REACH_WIDTHS) as f32;
    let d = match r.below(4) {
        0 => r.pick(&[0.0, 0.5, 1.0, 2.5]),
        1 => r.between(0.0, 60.0),
        _ => r.between(0.0, 6.0),
    };
    let beyond = r.pick(&[0.0, 0.25, 0.5, 0.75, 1.0, 9.0]);
    let mut record = ordinary_record(r);
    (record[0], record[2]) = match r.below(10) {
        0 => (-d - beyond, d),
        1 => (r.between(-d, d), d),
        2 => (d - beyond, d),
        3 => (r.between(0.0, width), d),
        4 => (width - d - beyond, d),
        5 => (width + r.between(-d, d), d),
        6 => (width + d + beyond - 1.0, d),
        7 => (width * r.pick(&[-1.0, 0.0, 0.5, 1.0]), f32::NAN),
        8 => {
            let great = [
                f32::INFINITY,
                f32::NEG_INFINITY,
                1e18,
                9_223_372e12,
                18_446_744e12,
                -d,
            ];
            (r.between(-9.0, 90.0), r.pick(&great))
        }
        _ => (r.any_f32(), r.any_f32()),
    };
    record
}

/// A part of a row of an image of this height, which is above 0.
pub fn request(kind: &str, seed: u64, height: u32) -> Request {
    let mut random = Random::new(kind, seed);
    let r = &mut random;
    let edge = 1u32 << 23;
    let (mut y, mut x0, mut n) = (
        r.below(height.into()) as u32,
        r.below(60) as u32,
        r.below(60) as u32,
    );
    let mut lengths = [n; 3].map(|n| n as usize + r.below(3) as usize);
    match kind {
        "inside" => {}
        "edges" => {
            y = r.pick(&[0, height - 1, height, height.saturating_add(1)]);
            n = r.pick(&[0, 1, n]);
            x0 = r.pick(&[0, edge - n, edge - n + 1, edge - n - 1]);
            lengths = [n as usize; 3];
        }
        "hostile" => {
            y = r.pick(&[y, y, u32::MAX]);
            x0 = r.pick(&[x0, x0, u32::MAX]);
            lengths[r.below(3) as usize] = (n as usize).saturating_sub(r.below(2) as usize);
            n = r.pick(&[n, n, n, u32::MAX, edge + 1]);
        }
        _ => panic!("no kind of request is called {kind}"),
    }
    let before = r.pick(&[0.0, 0.5, -1.0]);
    let channels =
        lengths.map(|length| (0..length).map(|_| before + r.between(0.0, 0.25)).collect());
    Request { y, x0, n, channels }
}
