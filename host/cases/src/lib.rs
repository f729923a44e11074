//! Plain data that the oracle, the model and the port share, and the generator of cases.
//!
//! A case is given by the name of its kind and a seed, and is the same on every machine.

pub mod bands;
pub mod descriptions;
pub mod desks;
pub mod lists;
pub mod makers;
pub mod polylines;
pub mod profiles;
pub mod random;
pub mod segments;
pub mod tables;
pub mod traces;

use std::ops::Range;
use std::sync::atomic::{AtomicU64, Ordering};

/// A description as the calls take it: flat, lengths as the scope's SHAPE asks.
#[derive(Clone, Debug, Default, PartialEq)]
pub struct Description {
    /// Double deltas of each spline, in pairs.
    pub counts: Vec<u32>,
    /// x and y of each spline's start.
    pub starts: Vec<f32>,
    /// x and y of each double delta, spline after spline.
    pub deltas: Vec<i32>,
    /// 32 values each for X, Y, B and sigma, spline after spline.
    pub coefficients: Vec<i32>,
    pub adjustment: i32,
}

/// What a text of points stands for: one spline's start and double deltas.
#[derive(Clone, Debug, Default, PartialEq)]
pub struct Polyline {
    pub start: [f32; 2],
    /// x and y of each double delta.
    pub deltas: Vec<i32>,
}

/// What a build takes beside the description.
#[derive(Clone, Copy, Debug, PartialEq)]
pub struct Given {
    pub width: u32,
    pub height: u32,
    pub y_to_x: f32,
    pub y_to_b: f32,
    pub high_precision: bool,
    pub level10: bool,
}

impl Given {
    /// The usual ones: X gains nothing of Y, B gains all of it; the lesser precision and area limit.
    pub const fn of(width: u32, height: u32) -> Given {
        Given {
            width,
            height,
            y_to_x: 0.0,
            y_to_b: 1.0,
            high_precision: false,
            level10: false,
        }
    }
}

/// Centre x and y, distance, 1/sigma, 0.25·sigma·multiplier, three colours.
pub type Segment = [f32; 8];

/// A built table: `row_starts` has height + 1 numbers, entries are those of image rows only.
#[derive(Clone, Debug, Default)]
pub struct Table {
    pub segments: Vec<Segment>,
    /// The number of each segment's spline.
    pub owners: Vec<u64>,
    pub row_starts: Vec<u32>,
    pub entries: Vec<u32>,
    pub estimate: u64,
    /// How many of the segments have a NaN distance.
    pub faint: u64,
}

/// The codes of the scope. `host/aktyrbuz` has its own for its users, and a test that holds them together.
#[derive(Clone, Copy, Debug, PartialEq, Eq)]
#[repr(u32)]
pub enum Code {
    Short = 1,
    Splines = 2,
    Coord = 3,
    Points = 4,
    Delta = 5,
    Trail = 6,
    Room = 7,
    Size = 8,
    Shape = 9,
    Position = 10,
    Distance = 11,
    Area = 12,
    Coincide = 13,
    Table = 14,
    Row = 15,
    Span = 16,
    Header = 17,
    Text = 18,
    Desk = 19,
    Trace = 20,
    Profile = 21,
    Edition = 22,
    Band = 23,
}

/// All of them, in the order of their numbers.
pub const CODES: [Code; 23] = [
    Code::Short,
    Code::Splines,
    Code::Coord,
    Code::Points,
    Code::Delta,
    Code::Trail,
    Code::Room,
    Code::Size,
    Code::Shape,
    Code::Position,
    Code::Distance,
    Code::Area,
    Code::Coincide,
    Code::Table,
    Code::Row,
    Code::Span,
    Code::Header,
    Code::Text,
    Code::Desk,
    Code::Trace,
    Code::Profile,
    Code::Edition,
    Code::Band,
];

/// A refusal: what, and where.
#[derive(Clone, Copy, Debug, PartialEq, Eq)]
pub struct Refusal {
    pub code: Code,
    pub place: u64,
}

/// The first seed of a run, how many times as many cases it has as the standing one, and of how many cases it takes one.
static FIRST_SEED: AtomicU64 = AtomicU64::new(0);
static TIMES: AtomicU64 = AtomicU64::new(1);
static ONE_IN: AtomicU64 = AtomicU64::new(1);

/// Makes this a run of other seeds, and of so many times as many.
pub fn set_seeds(first: u64, times: u64) {
    FIRST_SEED.store(first, Ordering::Relaxed);
    TIMES.store(times, Ordering::Relaxed);
}

/// Makes this a run of one in so many cases, one of each kind at least: for a machine that emulates the processor.
pub fn set_one_in(many: u64) {
    ONE_IN.store(many, Ordering::Relaxed);
}

/// One in so many of n, and one at least.
fn share(n: u64) -> u64 {
    (n / ONE_IN.load(Ordering::Relaxed)).max(1)
}

/// The seeds of a kind: from 0 up to but not including n in the standing run.
pub fn seeds(n: u64) -> Range<u64> {
    let first = FIRST_SEED.load(Ordering::Relaxed);
    first..first + share(n * TIMES.load(Ordering::Relaxed))
}

/// Whether every standing case is run: then slow ones are too.
pub fn whole_run() -> bool {
    ONE_IN.load(Ordering::Relaxed) == 1
}

/// Every kind with n seeds however long the run is: for cases that are slow.
pub fn few(kinds: &'static [&'static str], n: u64) -> impl Iterator<Item = (&'static str, u64)> {
    let first = seeds(n).start;
    kinds
        .iter()
        .flat_map(move |&kind| (first..first + share(n)).map(move |seed| (kind, seed)))
}

/// Every kind with its seeds.
pub fn each(kinds: &'static [&'static str], n: u64) -> impl Iterator<Item = (&'static str, u64)> {
    kinds
        .iter()
        .flat_map(move |&kind| seeds(n).map(move |seed| (kind, seed)))
}

/// The bits of an f32, every NaN as the one NaN.
pub fn bits(x: f32) -> u32 {
    if x.is_nan() {
        0x7fc0_0000
    } else {
        x.to_bits()
    }
}

/// A table as drawing takes it: flat, with counts that a hostile caller may have wrong.
#[derive(Clone, Debug, Default, PartialEq)]
pub struct FlatTable {
    /// Eight numbers a segment.
    pub segments: Vec<f32>,
    /// The number of each segment's spline.
    pub owners: Vec<u64>,
    pub segment_count: u32,
    pub entries: Vec<u32>,
    pub entry_count: u32,
    pub row_starts: Vec<u32>,
    pub height: u32,
}

impl FlatTable {
    /// The record at an index below the segment count.
    pub fn segment(&self, index: u32) -> Segment {
        let mut record = [0.0; 8];
        let first = 8 * index as usize;
        record.copy_from_slice(&self.segments[first..first + 8]);
        record
    }
}

impl From<&Table> for FlatTable {
    fn from(table: &Table) -> FlatTable {
        FlatTable {
            segments: table.segments.concat(),
            owners: table.owners.clone(),
            segment_count: table.segments.len() as u32,
            entries: table.entries.clone(),
            entry_count: table.entries.len() as u32,
            row_starts: table.row_starts.clone(),
            height: table.row_starts.len() as u32 - 1,
        }
    }
}
