//! The proved port through its C interface, as safe calls on slices.

mod bands;
mod points;
mod profile;
pub mod stack;
pub mod symbols;
mod trace2;

pub use bands::{band, band_into, bands, bands_into};
pub use points::{points_read, points_read_into, points_write, points_write_into};
pub use profile::{build_profile, build_profile_into, profile, profile_into};
pub use trace2::{trace_read2, trace_read2_into, trace_write2, trace_write2_into};

/// What a call fills: the place, then the counts, then zeros.
pub type Answer = [i64; 5];

/// What stands in an answer before a call, so that a number that is not filled shows.
const UNFILLED: Answer = [i64::MIN; 5];

/// What a call tells in an answer of our own: the code's number and the answer.
fn answered(call: impl FnOnce(&mut Answer) -> u32) -> (u32, Answer) {
    let mut answer = UNFILLED;
    let code = call(&mut answer);
    (code, answer)
}

/// The natural logarithm.
pub fn ln(x: f32) -> f32 {
    // SAFETY: plain numbers.
    unsafe { symbols::aktyrbuz_ln(x) }
}

/// Reads a list into the lent buffers: the code's number and the answer.
pub fn read(
    list: &[u32],
    configured: u32,
    pixels: u32,
    counts: &mut [u32],
    starts: &mut [f32],
    deltas: &mut [i32],
    coefficients: &mut [i32],
) -> (u32, Answer) {
    answered(|answer| {
        read_into(
            list,
            configured,
            pixels,
            counts,
            starts,
            deltas,
            coefficients,
            answer,
        )
    })
}

/// The same, with an answer that is lent too.
pub fn read_into(
    list: &[u32],
    configured: u32,
    pixels: u32,
    counts: &mut [u32],
    starts: &mut [f32],
    deltas: &mut [i32],
    coefficients: &mut [i32],
    answer: &mut Answer,
) -> u32 {
    // SAFETY: each pointer comes with its slice's length, and no two slices overlap.
    unsafe {
        symbols::aktyrbuz_read(
            list.as_ptr(),
            list.len(),
            configured,
            pixels,
            counts.as_mut_ptr(),
            counts.len(),
            starts.as_mut_ptr(),
            starts.len(),
            deltas.as_mut_ptr(),
            deltas.len(),
            coefficients.as_mut_ptr(),
            coefficients.len(),
            answer,
        )
    }
}

/// The four parts of a description and its adjustment, as writing and building take them.
#[derive(Clone, Copy, Debug)]
pub struct Parts<'a> {
    pub counts: &'a [u32],
    pub starts: &'a [f32],
    pub deltas: &'a [i32],
    pub coefficients: &'a [i32],
    pub adjustment: i32,
}

/// Writes a description into the lent list: the code's number and the answer.
pub fn write(parts: &Parts, configured: u32, pixels: u32, list: &mut [u32]) -> (u32, Answer) {
    answered(|answer| write_into(parts, configured, pixels, list, answer))
}

/// The same, with an answer that is lent too.
pub fn write_into(
    parts: &Parts,
    configured: u32,
    pixels: u32,
    list: &mut [u32],
    answer: &mut Answer,
) -> u32 {
    // SAFETY: each pointer comes with its slice's length, and the list overlaps no other slice.
    unsafe {
        symbols::aktyrbuz_write(
            parts.counts.as_ptr(),
            parts.counts.len(),
            parts.starts.as_ptr(),
            parts.starts.len(),
            parts.deltas.as_ptr(),
            parts.deltas.len(),
            parts.coefficients.as_ptr(),
            parts.coefficients.len(),
            parts.adjustment,
            configured,
            pixels,
            list.as_mut_ptr(),
            list.len(),
            answer,
        )
    }
}

/// The image that a table is built for.
#[derive(Clone, Copy, Debug, PartialEq)]
pub struct Image {
    pub width: u32,
    pub height: u32,
    /// What X gains of Y.
    pub y_to_x: f32,
    /// What B gains of Y.
    pub y_to_b: f32,
    /// Whether segments reach until they add less than 10^-5, and not 10^-3: only then are the rows those of the reference decoder, libjxl.
    pub high_precision: bool,
    /// Whether the greater area limit holds.
    pub level10: bool,
}

impl Image {
    /// The usual ones: X gains nothing, B gains all of Y, the lesser precision and limit.
    pub fn new(width: u32, height: u32) -> Image {
        Image {
            width,
            height,
            y_to_x: 0.0,
            y_to_b: 1.0,
            high_precision: false,
            level10: false,
        }
    }
}

/// The buffers that a build is lent.
#[derive(Debug)]
pub struct Buffers<'a> {
    pub path: &'a mut [f32],
    pub walk: &'a mut [f32],
    pub segments: &'a mut [f32],
    pub owners: &'a mut [u64],
    pub row_starts: &'a mut [u32],
    pub entries: &'a mut [u32],
}

/// Builds the table of a description in the lent buffers: the code's number and the answer.
pub fn build(parts: &Parts, image: &Image, lent: Buffers) -> (u32, Answer) {
    answered(|answer| build_into(parts, image, lent, answer))
}

/// The same, with an answer that is lent too.
pub fn build_into(parts: &Parts, image: &Image, lent: Buffers, answer: &mut Answer) -> u32 {
    // SAFETY: each pointer comes with its slice's length, and the lent slices overlap no other.
    unsafe {
        symbols::aktyrbuz_build(
            parts.counts.as_ptr(),
            parts.counts.len(),
            parts.starts.as_ptr(),
            parts.starts.len(),
            parts.deltas.as_ptr(),
            parts.deltas.len(),
            parts.coefficients.as_ptr(),
            parts.coefficients.len(),
            parts.adjustment,
            image.width,
            image.height,
            image.y_to_x,
            image.y_to_b,
            image.high_precision,
            image.level10,
            lent.path.as_mut_ptr(),
            lent.path.len(),
            lent.walk.as_mut_ptr(),
            lent.walk.len(),
            lent.segments.as_mut_ptr(),
            lent.segments.len(),
            lent.owners.as_mut_ptr(),
            lent.owners.len(),
            lent.row_starts.as_mut_ptr(),
            lent.row_starts.len(),
            lent.entries.as_mut_ptr(),
            lent.entries.len(),
            answer,
        )
    }
}

/// A table as drawing and reach take it.
#[derive(Clone, Copy, Debug)]
pub struct Table<'a> {
    pub segments: &'a [f32],
    pub owners: &'a [u64],
    pub segment_count: u32,
    pub entries: &'a [u32],
    pub entry_count: u32,
    pub row_starts: &'a [u32],
    pub height: u32,
}

/// A desk, 0 or 1, with the shared bytes: bit 0 of a spline's byte hides it for desk 0, bit 1 for desk 1.
#[derive(Clone, Copy, Debug)]
pub struct Sight<'a> {
    /// How many splines the description had.
    pub splines: u64,
    pub bits: &'a [u8],
    pub desk: u32,
}

/// Draws for a desk n pixels of row y from x0 on into channels that begin there: the code's number and the answer.
pub fn draw(
    table: &Table,
    sight: &Sight,
    y: u32,
    x0: u32,
    n: u32,
    channels: [&mut [f32]; 3],
) -> (u32, Answer) {
    answered(|answer| draw_into(table, sight, y, x0, n, channels, answer))
}

/// The same, with an answer that is lent too.
pub fn draw_into(
    table: &Table,
    sight: &Sight,
    y: u32,
    x0: u32,
    n: u32,
    channels: [&mut [f32]; 3],
    answer: &mut Answer,
) -> u32 {
    let [r0, r1, r2] = channels;
    // SAFETY: each pointer comes with its slice's length, and the channels overlap no other slice.
    unsafe {
        symbols::aktyrbuz_draw(
            table.segments.as_ptr(),
            table.segments.len(),
            table.owners.as_ptr(),
            table.owners.len(),
            table.segment_count,
            table.entries.as_ptr(),
            table.entries.len(),
            table.entry_count,
            table.row_starts.as_ptr(),
            table.row_starts.len(),
            table.height,
            sight.splines,
            sight.bits.as_ptr(),
            sight.bits.len(),
            sight.desk,
            y,
            x0,
            n,
            r0.as_mut_ptr(),
            r0.len(),
            r1.as_mut_ptr(),
            r1.len(),
            r2.as_mut_ptr(),
            r2.len(),
            answer,
        )
    }
}

/// The columns that drawing row y for a desk touches in an image of this width: the code's number and the answer.
pub fn reach(table: &Table, sight: &Sight, y: u32, width: u32) -> (u32, Answer) {
    answered(|answer| reach_into(table, sight, y, width, answer))
}

/// The same, with an answer that is lent too.
pub fn reach_into(table: &Table, sight: &Sight, y: u32, width: u32, answer: &mut Answer) -> u32 {
    // SAFETY: each pointer comes with its slice's length.
    unsafe {
        symbols::aktyrbuz_reach(
            table.segments.as_ptr(),
            table.segments.len(),
            table.owners.as_ptr(),
            table.owners.len(),
            table.segment_count,
            table.entries.as_ptr(),
            table.entries.len(),
            table.entry_count,
            table.row_starts.as_ptr(),
            table.row_starts.len(),
            table.height,
            sight.splines,
            sight.bits.as_ptr(),
            sight.bits.len(),
            sight.desk,
            y,
            width,
            answer,
        )
    }
}

/// Hides or shows a spline for a desk by its bit in the shared bytes: the code's number and the answer.
pub fn hide(bits: &mut [u8], desk: u32, spline: u64, hidden: bool) -> (u32, Answer) {
    answered(|answer| hide_into(bits, desk, spline, hidden, answer))
}

/// The same, with an answer that is lent too.
pub fn hide_into(
    bits: &mut [u8],
    desk: u32,
    spline: u64,
    hidden: bool,
    answer: &mut Answer,
) -> u32 {
    // SAFETY: the pointer comes with its slice's length.
    unsafe { symbols::aktyrbuz_hide(bits.as_mut_ptr(), bits.len(), desk, spline, hidden, answer) }
}

/// Checks the row starts and entries of another maker for the segments of a table, whose owners are not lent: the code's number and the answer.
pub fn check(table: &Table) -> (u32, Answer) {
    answered(|answer| check_into(table, answer))
}

/// The same, with an answer that is lent too.
pub fn check_into(table: &Table, answer: &mut Answer) -> u32 {
    // SAFETY: each pointer comes with its slice's length.
    unsafe {
        symbols::aktyrbuz_check(
            table.segments.as_ptr(),
            table.segments.len(),
            table.segment_count,
            table.height,
            table.row_starts.as_ptr(),
            table.row_starts.len(),
            table.entries.as_ptr(),
            table.entries.len(),
            table.entry_count,
            answer,
        )
    }
}

/// Reads a trace file into the lent buffers: the code's number and the answer.
pub fn trace_read(
    bytes: &[u8],
    counts: &mut [u32],
    starts: &mut [f32],
    deltas: &mut [i32],
    coefficients: &mut [i32],
) -> (u32, Answer) {
    answered(|answer| trace_read_into(bytes, counts, starts, deltas, coefficients, answer))
}

/// The same, with an answer that is lent too.
pub fn trace_read_into(
    bytes: &[u8],
    counts: &mut [u32],
    starts: &mut [f32],
    deltas: &mut [i32],
    coefficients: &mut [i32],
    answer: &mut Answer,
) -> u32 {
    // SAFETY: each pointer comes with its slice's length, and no two slices overlap.
    unsafe {
        symbols::aktyrbuz_trace_read(
            bytes.as_ptr(),
            bytes.len(),
            counts.as_mut_ptr(),
            counts.len(),
            starts.as_mut_ptr(),
            starts.len(),
            deltas.as_mut_ptr(),
            deltas.len(),
            coefficients.as_mut_ptr(),
            coefficients.len(),
            answer,
        )
    }
}

/// Writes a description as a trace file into the lent bytes: the code's number and the answer.
pub fn trace_write(parts: &Parts, bytes: &mut [u8]) -> (u32, Answer) {
    answered(|answer| trace_write_into(parts, bytes, answer))
}

/// The same, with an answer that is lent too.
pub fn trace_write_into(parts: &Parts, bytes: &mut [u8], answer: &mut Answer) -> u32 {
    // SAFETY: each pointer comes with its slice's length, and the bytes overlap no other slice.
    unsafe {
        symbols::aktyrbuz_trace_write(
            parts.counts.as_ptr(),
            parts.counts.len(),
            parts.starts.as_ptr(),
            parts.starts.len(),
            parts.deltas.as_ptr(),
            parts.deltas.len(),
            parts.coefficients.as_ptr(),
            parts.coefficients.len(),
            parts.adjustment,
            bytes.as_mut_ptr(),
            bytes.len(),
            answer,
        )
    }
}
