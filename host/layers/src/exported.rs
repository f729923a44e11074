//! The port's layers as safe calls on slices. What a layer asks of its caller the port checks for itself.

use crate::symbols;
use cases::segments::{AlongCase, SegmentCase};
use cases::{Code, Description, Segment};
use model::dequantize::Quantized;
use std::ops::Range;

/// What stands in a number or row before a call, so that one that is not filled shows.
pub const UNFILLED: f32 = 1234.5;

/// What a layer that fills a buffer answers: the code's number, and how many records there are.
pub type Counted = (u32, usize);

/// A refusal counts nothing.
pub const fn refused(code: Code) -> Counted {
    (code as u32, 0)
}

pub const ROOM: Counted = refused(Code::Room);

pub fn spline_area_limit(level10: bool, area: u64) -> u64 {
    // SAFETY: plain numbers.
    unsafe { symbols::layers_spline_area_limit(level10, area) }
}

pub fn inv_adjusted_quant(adjustment: i32) -> f32 {
    // SAFETY: plain numbers.
    unsafe { symbols::layers_inv_adjusted_quant(adjustment) }
}

/// What all splines of an image share; the limit is the area limit.
#[derive(Clone, Copy, Debug)]
pub struct Shared {
    pub adjustment: i32,
    pub y_to_x: f32,
    pub y_to_b: f32,
    pub limit: u64,
}

/// The code's number, the last control point and the Manhattan sum.
pub fn trace(start: (f32, f32), deltas: &[i32], limit: u64) -> (u32, [i32; 2], u64) {
    let (mut x, mut y, mut manhattan) = (i32::MIN, i32::MIN, u64::MAX);
    // SAFETY: the pointer comes with its slice's length, and the numbers are our own.
    let number = unsafe {
        symbols::layers_trace(
            start.0,
            start.1,
            deltas.as_ptr(),
            deltas.len(),
            limit,
            &mut x,
            &mut y,
            &mut manhattan,
        )
    };
    (number, [x, y], manhattan)
}

/// What dequantizing leaves.
#[derive(Clone, Debug)]
pub struct Dequantized {
    pub number: u32,
    pub rows: [[f32; 32]; 4],
    pub estimate: u64,
    pub coincide: bool,
}

pub fn dequantize(spline: &Quantized, shared: &Shared) -> Dequantized {
    let coefficients: &[i32; 128] = spline.coefficients.try_into().expect("128 coefficients");
    let [mut x, mut y, mut b, mut sigma] = [[UNFILLED; 32]; 4];
    let (mut estimate, mut coincide) = (u64::MAX, true);
    // SAFETY: each pointer comes with its slice's length or has it in its type; the rows and numbers are our own and do not overlap.
    let number = unsafe {
        symbols::layers_dequantize(
            spline.start.0,
            spline.start.1,
            spline.deltas.as_ptr(),
            spline.deltas.len(),
            coefficients,
            shared.adjustment,
            shared.y_to_x,
            shared.y_to_b,
            shared.limit,
            &mut x,
            &mut y,
            &mut b,
            &mut sigma,
            &mut estimate,
            &mut coincide,
        )
    };
    Dequantized {
        number,
        rows: [x, y, b, sigma],
        estimate,
        coincide,
    }
}

/// The code's number, the place and the summed estimate.
pub fn judge(description: &Description, shared: &Shared) -> (u32, usize, u64) {
    let (mut place, mut estimate) = (usize::MAX, u64::MAX);
    // SAFETY: each pointer comes with its slice's length, and the numbers are our own.
    let number = unsafe {
        symbols::layers_judge(
            description.counts.as_ptr(),
            description.counts.len(),
            description.starts.as_ptr(),
            description.starts.len(),
            description.deltas.as_ptr(),
            description.deltas.len(),
            description.coefficients.as_ptr(),
            description.coefficients.len(),
            shared.adjustment,
            shared.y_to_x,
            shared.y_to_b,
            shared.limit,
            &mut place,
            &mut estimate,
        )
    };
    (number, place, estimate)
}

/// The path of the spline that starts there.
pub fn curve(start: [f32; 2], deltas: &[i32], path: &mut [f32]) -> Counted {
    let mut count = usize::MAX;
    // SAFETY: each pointer comes with its slice's length; the count is our own, and nothing overlaps.
    let number = unsafe {
        symbols::layers_curve(
            start[0],
            start[1],
            deltas.as_ptr(),
            deltas.len(),
            path.as_mut_ptr(),
            path.len(),
            &mut count,
        )
    };
    (number, count)
}

/// The walk along a path of two numbers a point.
pub fn walk(path: &[f32], walk: &mut [f32]) -> Counted {
    let mut count = usize::MAX;
    // SAFETY: each pointer comes with its slice's length; the count is our own, and nothing overlaps.
    let number = unsafe {
        symbols::layers_walk(
            path.as_ptr(),
            path.len(),
            walk.as_mut_ptr(),
            walk.len(),
            &mut count,
        )
    };
    (number, count)
}

/// The code's number and the length.
pub fn length_of(n: usize, last: f32) -> (u32, f32) {
    let mut length = UNFILLED;
    // SAFETY: plain numbers, and a length of our own.
    let number = unsafe { symbols::layers_length_of(n, last, &mut length) };
    (number, length)
}

/// The sums of X, Y, B and sigma at t.
pub fn sums_at([x, y, b, sigma]: &[[f32; 32]; 4], t: f32) -> [f32; 4] {
    let mut sums = [UNFILLED; 4];
    // SAFETY: the rows and the sums have the lengths that their types say, and do not overlap.
    unsafe { symbols::layers_sums_at(x, y, b, sigma, t, &mut sums) };
    sums
}

/// Whether there is a segment, and the eight floats.
pub fn add_segment(case: &SegmentCase) -> (bool, Segment) {
    let mut segment = [UNFILLED; 8];
    // SAFETY: plain numbers, and eight floats of our own.
    let made = unsafe {
        symbols::layers_add_segment(
            case.center[0],
            case.center[1],
            case.multiplier,
            case.colors[0],
            case.colors[1],
            case.colors[2],
            case.sigma,
            case.high_precision,
            &mut segment,
        )
    };
    (made, segment)
}

/// The segments that the walk makes.
pub fn add_segments(case: &AlongCase, segments: &mut [f32]) -> Counted {
    let [x, y, b, sigma] = &case.coefficients;
    let walk = case.walk.concat();
    let mut count = usize::MAX;
    // SAFETY: each pointer comes with its slice's length or has it in its type; the count is our own, and nothing overlaps.
    let number = unsafe {
        symbols::layers_add_segments_from_points(
            x,
            y,
            b,
            sigma,
            walk.as_ptr(),
            walk.len(),
            case.length,
            case.high_precision,
            segments.as_mut_ptr(),
            segments.len(),
            &mut count,
        )
    };
    (number, count)
}

pub fn rows(segment: &Segment) -> Range<u32> {
    let mut ends = [u32::MAX; 2];
    // SAFETY: the segment has the length that its type says, and the ends are our own.
    unsafe { symbols::layers_rows(segment, &mut ends) };
    ends[0]..ends[1]
}

pub fn columns(segment: &Segment) -> Range<u32> {
    let mut ends = [u32::MAX; 2];
    // SAFETY: the segment has the length that its type says, and the ends are our own.
    unsafe { symbols::layers_columns(segment, &mut ends) };
    ends[0]..ends[1]
}
