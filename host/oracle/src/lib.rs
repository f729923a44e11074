//! spline.rs as it stands, behind plain entry points: the judge.
//!
//! `original` holds the text of spline.rs itself (build.rs fetches it), `stubs` what it leans on. Every entry point below
//! calls the original function that its comment names; a panic of the original and running out of memory are outcomes.
//! Points are `[x, y]`, points of a walk `[x, y, multiplier]`. All of it is meant for a release build without overflow checks.

mod original;
mod outcome;
mod stubs;

// The original asks for these by their paths in its own crate.
use stubs::{api, bit_reader, entropy_coding, error, frame, util};

pub use cases::{Description, FlatTable, Given, Segment, Table};
pub use outcome::{code_of, Outcome, Why};
pub use stubs::logarithm::set_ln;
pub use stubs::memory::{set_memory, DEFAULT_MEMORY};

use original::layers;

/// What reading a list gave.
#[derive(Clone, Debug, PartialEq)]
pub struct Read {
    pub outcome: Outcome<Description>,
    /// How many values of the list were taken, whatever the outcome.
    pub consumed: usize,
    /// The original asked for a value past the end and was handed a 0 (the scope's SHORT, whatever the outcome says).
    pub ran_short: bool,
}

/// `Splines::read`. `Done` with `consumed` below the list's length is the scope's TRAIL.
pub fn read(list: &[u32], configured: u32, pixels: u32) -> Read {
    layers::read(list, configured, pixels)
}

/// `unpack_signed`.
pub fn unpack_signed(unsigned: u32) -> i32 {
    layers::unpack_signed(unsigned)
}

/// `JxlCodestreamLevel::spline_area_limit`, of Level10 or else Level5.
pub fn spline_area_limit(level10: bool, area: u64) -> u64 {
    layers::spline_area_limit(level10, area)
}

/// `ceil_log2` of a u64. Of 0 (which the original never asks for) it is whatever a release build makes of it.
pub fn ceil_log2(x: u64) -> u64 {
    layers::ceil_log2(x)
}

/// `fast_cos`.
pub fn fast_cos(x: f32) -> f32 {
    layers::fast_cos(x)
}

/// `fast_erff_simd` on one lane.
pub fn fast_erff(x: f32) -> f32 {
    layers::fast_erff(x)
}

/// `inv_adjusted_quant`.
pub fn inv_adjusted_quant(adjustment: i32) -> f32 {
    layers::inv_adjusted_quant(adjustment)
}

/// `Point::abs`, the host's `hypot`.
pub fn length(x: f32, y: f32) -> f32 {
    layers::length(x, y)
}

/// A dequantized spline.
#[derive(Clone, Debug, PartialEq)]
pub struct Dequantized {
    /// The control points, the start first.
    pub points: Vec<[f32; 2]>,
    /// Coefficients of X, Y, B and sigma.
    pub rows: [[f32; 32]; 4],
    pub estimate: u64,
}

/// `QuantizedSpline::dequantize`. `deltas` are pairs, `coefficients` are 128 (any other length is a mistake of the caller).
/// Coinciding points are not judged here: that is [`coincide`].
pub fn dequantize(
    start: [f32; 2],
    deltas: &[i32],
    coefficients: &[i32],
    adjustment: i32,
    y_to_x: f32,
    y_to_b: f32,
    area_limit: u64,
) -> Outcome<Dequantized> {
    layers::dequantize(
        start,
        deltas,
        coefficients,
        adjustment,
        [y_to_x, y_to_b],
        area_limit,
    )
}

/// `Spline::validate_adjacent_point_coincidence`.
pub fn coincide(points: &[[f32; 2]]) -> Outcome<()> {
    layers::coincide(points)
}

/// `draw_centripetal_catmull_rom_spline`.
pub fn curve(points: &[[f32; 2]]) -> Outcome<Vec<[f32; 2]>> {
    layers::curve(points)
}

/// `for_each_equally_spaced_point` with the distance of spline.rs; `NoMemory` when it emits more than `cap` points.
pub fn walk(path: &[[f32; 2]], cap: usize) -> Outcome<Vec<[f32; 3]>> {
    layers::walk(path, cap)
}

/// The length as `initialize_draw_cache` takes it from a walk that is not empty. The only expression that is restated here:
/// in spline.rs it is no function of its own. A build uses the original's.
pub fn length_of_walk(walk: &[[f32; 3]]) -> f32 {
    layers::length_of_walk(walk)
}

/// `DCT_MULTIPLIERS`.
pub fn dct_multipliers() -> [f32; 32] {
    layers::dct_multipliers()
}

/// `PrecomputedCosines::new`.
pub fn cosines(t: f32) -> [f32; 32] {
    layers::cosines(t)
}

/// `Dct32::continuous_idct_fast` at `t`.
pub fn transform(coefficients: &[f32; 32], t: f32) -> f32 {
    layers::transform(coefficients, t)
}

/// The rows that `add_segment` pushes for one segment; it pushes them in a run, below the image too.
#[derive(Clone, Copy, Debug, PartialEq, Eq)]
pub enum Rows {
    /// From `first` up to but not including `past`; 0 and 0 if there are none.
    Run { first: u64, past: u64 },
    /// More than the cap allowed.
    TooMany,
}

/// `add_segment`: the eight floats and the rows, or `None` if it makes no segment. At most `cap` rows are pushed before the
/// original is stopped; the eight floats are given all the same (by a second call with the centre far above the image).
pub fn segment(
    center: [f32; 2],
    multiplier: f32,
    colour: [f32; 3],
    sigma: f32,
    high_precision: bool,
    cap: usize,
) -> Outcome<Option<(Segment, Rows)>> {
    layers::segment(center, multiplier, colour, sigma, high_precision, cap)
}

/// `add_segments_from_points` for one dequantized spline: the eight floats of each segment that is made. `length` is as
/// [`length_of_walk`] gives it. `NoMemory` where the rows do not fit.
pub fn segments(
    rows: &[[f32; 32]; 4],
    walk: &[[f32; 3]],
    length: f32,
    high_precision: bool,
) -> Outcome<Vec<Segment>> {
    layers::segments(rows, walk, length, high_precision)
}

/// A table that the original built.
#[derive(Clone, Debug)]
pub struct Built {
    /// Entries of image rows only; the estimate is the (wrapping) sum of [`dequantize`]'s, in order; the owners are told from
    /// builds of each spline alone.
    pub table: Table,
    /// How many entries the original stored for rows below the image.
    pub below: u64,
}

/// `Splines::initialize_draw_cache`. The description's lengths must agree (the scope's SHAPE): that is the caller's part.
pub fn build(description: &Description, given: &Given) -> Outcome<Built> {
    layers::build(description, given)
}

/// The number of the first spline that a build does not get past, `None` if all are taken. spline.rs does not say; this
/// runs [`dequantize`], the area sum and [`coincide`] spline by spline in the order of `initialize_draw_cache`.
pub fn refused_spline(description: &Description, given: &Given) -> Option<usize> {
    layers::refused_spline(description, given)
}

/// The same loop with its outcome: the sum of the estimates, or the number of the spline and what it came to.
pub fn judged(description: &Description, given: &Given) -> Result<u64, (usize, Outcome<()>)> {
    layers::judged(description, given)
}

/// Builds `first`, then `second` in the same `Splines`: the second outcome, and the table that stands afterwards
/// (with `below`). `Err` if the first build already fails.
pub fn rebuild(
    first: &Description,
    second: &Description,
    given: &Given,
) -> Result<(Outcome<()>, Built), Outcome<()>> {
    layers::rebuild(first, second, given)
}

/// A description held as the original holds it, to build from many times.
pub struct Prepared(original::Splines);

/// Prepares a description whose lengths agree.
pub fn prepare(description: &Description) -> Prepared {
    Prepared(layers::splines_of(description))
}

impl Prepared {
    /// `Splines::initialize_draw_cache` and nothing else; the table stays within.
    pub fn build(&mut self, given: &Given) -> Outcome<()> {
        layers::initialize(&mut self.0, given)
    }
}

/// A table loaded into the original's `Splines`, to draw from many times.
pub struct Loaded(original::Splines);

/// Loads a table; nothing of it is checked.
pub fn load(table: &Table) -> Loaded {
    Loaded(layers::load(table))
}

/// Loads a flat table: whole segments and entries up to the counts, as far as the buffers hold them.
pub fn load_flat(table: &FlatTable) -> Loaded {
    let segments = table
        .segments
        .chunks_exact(8)
        .take(table.segment_count as usize);
    let entries = table.entries.iter().take(table.entry_count as usize);
    load(&Table {
        segments: segments
            .map(|eight| eight.try_into().expect("eight of them"))
            .collect(),
        row_starts: table.row_starts.clone(),
        entries: entries.copied().collect(),
        ..Table::default()
    })
}

impl Loaded {
    /// `draw_segments` on row `y` from pixel `x0`, as many pixels as the first channel has. After a panic the channels hold
    /// what was drawn before it.
    pub fn draw(&self, y: u32, x0: u32, channels: [&mut [f32]; 3]) -> Outcome<()> {
        layers::draw(&self.0, y, x0, channels)
    }

    /// `draw_segments` on every row of an image, each whole; a channel holds the rows one after another.
    pub fn draw_image(&self, width: u32, height: u32, channels: [&mut [f32]; 3]) -> Outcome<()> {
        layers::draw_image(&self.0, width as usize, height as usize, channels)
    }
}

/// [`load`] and [`Loaded::draw`] in one: the channels after drawing.
pub fn draw(table: &Table, y: u32, x0: u32, mut channels: [Vec<f32>; 3]) -> Outcome<[Vec<f32>; 3]> {
    let [r0, r1, r2] = &mut channels;
    let outcome = load(table).draw(y, x0, [&mut r0[..], &mut r1[..], &mut r2[..]]);
    outcome.map(|()| channels)
}
