//! Dequantizing (the scope, "Dequantizing"): control points, coefficients and estimate of each spline, and the
//! judgement of all of them.

use crate::left_open::estimate;
use crate::list::outrageous;
use crate::numbers::round;
use cases::{Code, Description, Given, Refusal};
use std::f32::consts::FRAC_1_SQRT_2;

pub use crate::left_open::ceil_log2;

/// A spline ready for the curve: whole control points, four rows of 32 coefficients (X, Y, B, sigma), its estimate.
#[derive(Clone, Debug)]
pub struct Dequantized {
    pub points: Vec<(i64, i64)>,
    pub coefficients: [[f32; 32]; 4],
    pub estimate: u64,
}

/// What of a description belongs to one spline.
#[derive(Clone, Copy, Debug)]
pub struct Quantized<'a> {
    pub start: (f32, f32),
    pub deltas: &'a [i32],
    pub coefficients: &'a [i32],
}

/// "weights 0.0042, 0.075, 0.07, 0.3333".
const WEIGHTS: [f32; 4] = [0.0042, 0.075, 0.07, 0.3333];

/// "Level5 min(8·area + 2^25, 2^30); Level10 min(1024·area + 2^32, 2^42)".
pub fn area_limit(level10: bool, area: u64) -> u64 {
    let area = u128::from(area);
    let limit = if level10 {
        (1024 * area + (1 << 32)).min(1 << 42)
    } else {
        (8 * area + (1 << 25)).min(1 << 30)
    };
    limit as u64
}

/// "1/(1+0.125a) for a ≥ 0, else 1-0.125a".
pub fn inverse_quant(adjustment: i32) -> f32 {
    let a = adjustment as f32;
    if adjustment >= 0 {
        1.0 / (1.0 + 0.125 * a)
    } else {
        1.0 - 0.125 * a
    }
}

/// One spline, or DELTA, POSITION or DISTANCE; AREA and COINCIDE are judged by `judge`.
pub fn dequantize(
    spline: &Quantized,
    adjustment: i32,
    y_to_x: f32,
    y_to_b: f32,
    limit: u64,
) -> Result<Dequantized, Code> {
    let (points, manhattan) = control_points(spline, limit)?;
    let inverse = inverse_quant(adjustment);
    Ok(Dequantized {
        points,
        coefficients: coefficients(spline.coefficients, inverse, y_to_x, y_to_b),
        estimate: estimate(
            spline.coefficients,
            inverse,
            y_to_x,
            y_to_b,
            manhattan,
            limit,
        ),
    })
}

/// POSITION's condition: "outside -2^23 up to but not including 2^23" (Codes).
pub(crate) fn position(x: i64, y: i64) -> Result<(), Code> {
    let inside = |value| (-(1 << 23)..1 << 23).contains(&value);
    if inside(x) && inside(y) {
        Ok(())
    } else {
        Err(Code::Position)
    }
}

/// The control points and the Manhattan sum: "A start is rounded half away from zero, then POSITION x then y judges it",
/// then point by point.
pub(crate) fn control_points(
    spline: &Quantized,
    limit: u64,
) -> Result<(Vec<(i64, i64)>, u64), Code> {
    let (start_x, start_y) = spline.start;
    // POSITION: "or NaN start".
    if start_x.is_nan() || start_y.is_nan() {
        return Err(Code::Position);
    }
    // What does not fit 64 bits is far outside too.
    let whole = |start| i64::try_from(round(start)).unwrap_or(i64::MAX);
    let (mut x, mut y) = (whole(start_x), whole(start_y));
    position(x, y)?;
    let mut points = vec![(x, y)];
    let (mut delta_x, mut delta_y, mut manhattan) = (0, 0, 0);
    // "Per point: DELTA; add to the delta; POSITION x then y; add both magnitudes to the Manhattan sum; DISTANCE; add to
    // the point; POSITION x then y."
    for pair in spline.deltas.chunks(2) {
        if outrageous(pair[0]) || outrageous(pair[1]) {
            return Err(Code::Delta);
        }
        delta_x += i64::from(pair[0]);
        delta_y += i64::from(pair[1]);
        position(delta_x, delta_y)?;
        manhattan += delta_x.unsigned_abs() + delta_y.unsigned_abs();
        if manhattan > limit {
            return Err(Code::Distance);
        }
        x += delta_x;
        y += delta_y;
        position(x, y)?;
        points.push((x, y));
    }
    Ok((points, manhattan))
}

/// "A coefficient is value · (1/√2 at index 0, else 1) · weight · inverse quant, left to right .. X and B then gain the
/// given y_to_x and y_to_b times Y."
fn coefficients(values: &[i32], inverse: f32, y_to_x: f32, y_to_b: f32) -> [[f32; 32]; 4] {
    let mut rows = [[0.0; 32]; 4];
    for (place, &value) in values.iter().enumerate() {
        let (row, index) = (place / 32, place % 32);
        let factor = if index == 0 { FRAC_1_SQRT_2 } else { 1.0 };
        rows[row][index] = value as f32 * factor * WEIGHTS[row] * inverse;
    }
    for index in 0..32 {
        rows[0][index] += y_to_x * rows[1][index];
        rows[2][index] += y_to_b * rows[1][index];
    }
    rows
}

/// A well-shaped description, spline by spline.
pub fn splines(description: &Description) -> Vec<Quantized<'_>> {
    let mut deltas = &description.deltas[..];
    let mut splines = Vec::new();
    for (spline, &count) in description.counts.iter().enumerate() {
        let (own, rest) = deltas.split_at(2 * count as usize);
        deltas = rest;
        splines.push(Quantized {
            start: (
                description.starts[2 * spline],
                description.starts[2 * spline + 1],
            ),
            deltas: own,
            coefficients: &description.coefficients[128 * spline..128 * (spline + 1)],
        });
    }
    splines
}

/// All splines of a well-shaped description and their summed estimate, or the first refusal, whose place is the spline's
/// number: "After a spline: AREA, then COINCIDE"; "the sum over splines saturates".
pub fn judge(description: &Description, given: &Given) -> Result<(Vec<Dequantized>, u64), Refusal> {
    let limit = area_limit(
        given.level10,
        u64::from(given.width) * u64::from(given.height),
    );
    let mut judged = Vec::new();
    let mut sum = 0u64;
    for (place, spline) in (0..).zip(splines(description)) {
        let refuse = |code| Refusal { code, place };
        let one = dequantize(
            &spline,
            description.adjustment,
            given.y_to_x,
            given.y_to_b,
            limit,
        )
        .map_err(refuse)?;
        sum = sum.saturating_add(one.estimate);
        if sum > limit {
            return Err(refuse(Code::Area));
        }
        if one.points.windows(2).any(|pair| pair[0] == pair[1]) {
            return Err(refuse(Code::Coincide));
        }
        judged.push(one);
    }
    Ok((judged, sum))
}

#[cfg(test)]
mod tests {
    use super::*;

    #[test]
    fn readings() {
        assert_eq!(area_limit(false, 0), 33554432);
        assert_eq!(area_limit(false, 130023423), 1073741816);
        assert_eq!(area_limit(false, 130023424), 1073741824);
        assert_eq!(inverse_quant(8), 0.5);
        assert_eq!(inverse_quant(-8), 2.0);
        assert_eq!(16777217i32 as f32, 16777216.0);
        assert_eq!(16777219i32 as f32, 16777220.0);
        assert_eq!(ceil_log2(1), 0);
        assert_eq!(ceil_log2(u64::MAX), 64);
    }
}
