//! Segments (the scope, "Segments and rows"): what a step of the walk becomes, and the rows and columns it touches.

use crate::curve::Point;
use crate::numbers::{greatest, lesser, ln, round, round_from_zero};
use crate::transform::{cosines, transform};
use crate::walk::Step;
use cases::{Code, Segment};
use std::ops::Range;

/// ROOM also beyond "2^24 segments" (Curve and walk).
pub const MOST_SEGMENTS: u64 = 1 << 24;

/// "A segment is eight f32: centre x and y, distance, 1/σ, 0.25·σ·multiplier, three colours", or none.
pub fn segment(
    center: Point,
    multiplier: f32,
    colors: [f32; 3],
    sigma: f32,
    high_precision: bool,
) -> Option<Segment> {
    // "No segment is made, and no number used, if sigma is infinite or zero, 1/sigma is infinite, or the multiplier is
    // infinite."
    if sigma.is_infinite()
        || sigma == 0.0
        || (1.0 / sigma).is_infinite()
        || multiplier.is_infinite()
    {
        return None;
    }
    // "m the greatest magnitude of multiplier times 0.01 and the three colours, by total order".
    let [x, y, b] = colors;
    let m = greatest([0.01, x, y, b].map(|value| (value * multiplier).abs()));
    // "√(-2·σ·σ·(ln 0.1 · e - ln m)), e = 5 for high precision, else 3".
    let e = if high_precision { 5.0 } else { 3.0 };
    let distance = (-2.0 * sigma * sigma * (ln(0.1) * e - ln(m))).sqrt();
    let strength = 0.25 * sigma * multiplier;
    Some([
        center[0],
        center[1],
        distance,
        1.0 / sigma,
        strength,
        x,
        y,
        b,
    ])
}

/// "a faint segment" (document 02, (vii)): one whose distance, the third number, is NaN.
pub fn is_faint(segment: &Segment) -> bool {
    segment[2].is_nan()
}

/// Adds the segments of one spline's walk to those before it, if there is room for so many in all.
pub fn add_segments(
    coefficients: &[[f32; 32]; 4],
    steps: &[Step],
    length: f32,
    high_precision: bool,
    room: u64,
    segments: &mut Vec<Segment>,
) -> Result<(), Code> {
    for (index, &(center, multiplier)) in steps.iter().enumerate() {
        // "Progress is min(1, index · (1/length)), t = 31 · progress."
        let progress = lesser(1.0, index as f32 * (1.0 / length));
        let cosines = cosines(31.0 * progress);
        let [x, y, b, sigma] = coefficients.map(|row| transform(&row, &cosines));
        let Some(made) = segment(center, multiplier, [x, y, b], sigma, high_precision) else {
            continue;
        };
        if segments.len() as u64 >= room.min(MOST_SEGMENTS) {
            return Err(Code::Room);
        }
        segments.push(made);
    }
    Ok(())
}

/// "Rows run from max(0, R(cy-d)) through R(cy+d) ..; if R(cy+d) is 2^63 or more there are none", whatever the image.
pub fn all_rows(segment: &Segment) -> Range<i128> {
    let [_, cy, d, ..] = *segment;
    let last = round(cy + d);
    if last >= 1 << 63 {
        return 0..0;
    }
    filled(round(cy - d).max(0)..last + 1)
}

/// ".. inside the image only".
pub fn rows(segment: &Segment, height: u32) -> Range<u32> {
    let all = all_rows(segment);
    let inside = filled(all.start..all.end.min(i128::from(height)));
    inside.start as u32..inside.end as u32
}

/// "Columns run from R0(cx-d) through R0(cx+d) ..; at 2^64 or more at the upper end there are none."
pub fn columns(segment: &Segment) -> Range<i128> {
    let [cx, _, d, ..] = *segment;
    let last = round_from_zero(cx + d);
    if last >= 1 << 64 {
        return 0..0;
    }
    filled(round_from_zero(cx - d)..last + 1)
}

/// Every empty range is 0..0.
pub fn filled(range: Range<i128>) -> Range<i128> {
    if range.is_empty() {
        0..0
    } else {
        range
    }
}

#[cfg(test)]
mod tests {
    use super::*;

    fn at(center: f32, distance: f32) -> Segment {
        [center, center, distance, 1.0, 1.0, 1.0, 1.0, 1.0]
    }

    #[test]
    fn readings() {
        assert_eq!(rows(&at(5.0, 2.5), 100), 3..9);
        assert_eq!(rows(&at(-5.0, 2.0), 100), 0..0);
        assert_eq!(columns(&at(-5.0, 2.0)), 0..1);
        assert_eq!(rows(&at(7.0, f32::NAN), 100), 0..1);
        assert_eq!(columns(&at(7.0, f32::NAN)), 0..1);
        assert!(is_faint(&at(7.0, f32::NAN)) && !is_faint(&at(7.0, f32::INFINITY)));
        assert_eq!(rows(&at(0.0, 2f32.powi(63)), 100), 0..0);
        assert_eq!(columns(&at(0.0, 2f32.powi(64)),), 0..0);
        assert_eq!(rows(&at(0.0, 1e18), 0), 0..0);
    }
}
