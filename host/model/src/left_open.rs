//! What the scope leaves to the Rust: it names a function there and gives no steps. Only what stands here was taken
//! from outside the scope; each part says which sentence leaves it open.

use crate::curve::{minus, plus, times, Point};
use crate::numbers::lesser;
use cases::Segment;
use std::f32::consts::{PI, SQRT_2};

/// "The estimate follows `dequantize` operation by operation, saturations included" (Dequantizing): which operations.
pub fn estimate(
    values: &[i32],
    inverse: f32,
    y_to_x: f32,
    y_to_b: f32,
    manhattan: u64,
    limit: u64,
) -> u64 {
    let log_color = log_color(values, inverse, y_to_x, y_to_b);
    let share = limit as f32 / log_color as f32 / manhattan.max(1) as f32;
    let widest = share.sqrt().ceil();
    let widths = values[96..].iter().map(|&value| {
        let width = lesser(widest, raised(value, inverse).max(1.0)) as u64;
        width.saturating_mul(width).saturating_mul(log_color)
    });
    widths
        .fold(0, u64::saturating_add)
        .saturating_mul(manhattan)
}

/// How many bits the greatest of the three colour sums and one more takes, at least 1.
fn log_color(values: &[i32], inverse: f32, y_to_x: f32, y_to_b: f32) -> u64 {
    let [x, y, b] = [0, 1, 2].map(|row| {
        let row = &values[32 * row..32 * (row + 1)];
        let raised = row.iter().map(|&value| raised(value, inverse) as u64);
        raised.fold(0, u64::saturating_add)
    });
    let of_y = |factor: f32| (factor.abs().ceil() as u64).saturating_mul(y);
    let x = x.saturating_add(of_y(y_to_x));
    let b = b.saturating_add(of_y(y_to_b));
    ceil_log2(x.max(y).max(b).saturating_add(1)).max(1)
}

/// The magnitude of a value times the inverse quant, rounded up.
fn raised(value: i32, inverse: f32) -> f32 {
    (inverse * value.unsigned_abs() as f32).ceil()
}

/// `ceil_log2` (Port order), named only: the least k with 2^k at least n.
pub fn ceil_log2(n: u64) -> u64 {
    let mut k = 0;
    while (1u128 << k) < u128::from(n) {
        k += 1;
    }
    k
}

/// "15 interpolated ones in the three levels of `draw_centripetal_catmull_rom_spline`" (Curve and walk): where the i-th of
/// them lies, and the levels.
pub fn between(p: [Point; 4], d: [f32; 3], t: [f32; 4], i: f32) -> Point {
    let at = d[0] + i / 16.0 * d[1];
    let a = [0, 1, 2].map(|k| towards(p[k], p[k + 1], (at - t[k]) / d[k]));
    let b = [0, 1].map(|k| towards(a[k], a[k + 1], (at - t[k]) / (d[k] + d[k + 1])));
    towards(b[0], b[1], (at - t[1]) / d[1])
}

/// From one point towards another by this part of the way.
fn towards(from: Point, to: Point, part: f32) -> Point {
    plus(from, times(minus(to, from), part))
}

/// "a point at each unit of length" (Curve and walk): how a stretch of the path is measured.
pub fn stretch(from: Point, to: Point) -> f32 {
    let [x, y] = minus(to, from);
    (x * x + y * y).sqrt()
}

/// The same sentence: where the unit ends, this far on along a stretch that has it. The next unit is measured from there.
pub fn further(from: Point, to: Point, left: f32) -> Point {
    towards(from, to, left / stretch(from, to))
}

/// "Each cosine is `fast_cos`" (Segments and rows): its steps.
pub fn fast_cos(x: f32) -> f32 {
    let turn = 2.0 * PI;
    // Less its whole turns, an angle is mirrored into half a turn, then into a quarter.
    let angle = x - (x * (0.5 / PI)).floor() * turn;
    let half = lesser(angle, turn - angle);
    let mirrored = half >= 0.5 * PI;
    let quarter = if mirrored { PI - half } else { half };
    // A polynomial for a quarter of the angle, then the angle doubled twice.
    let square = (0.25 * quarter) * (0.25 * quarter);
    let scaled = square * square * 0.069_604_38 + (square * -0.840_873_73 + 1.681_792_68);
    let doubled = scaled * scaled - SQRT_2;
    let cosine = doubled * doubled - 1.0;
    if mirrored {
        -cosine
    } else {
        cosine
    }
}

/// "the formulas of `draw_segment_inner`" (Segments and rows): what a pixel's colours are multiplied with.
pub fn intensity(segment: &Segment, x: f32, y: f32) -> f32 {
    let [cx, cy, _, inverse_sigma, strength, ..] = *segment;
    let (dx, dy) = (x - cx, y - cy);
    let half = 0.5 * (dx * dx + dy * dy).sqrt();
    // A quarter of √2 to either side.
    let aside = 0.353_553_38;
    let factor = erf((half + aside) * inverse_sigma) - erf((half - aside) * inverse_sigma);
    strength * factor * factor
}

/// "the formulas of .. `fast_erff_simd`" (Segments and rows).
pub fn erf(x: f32) -> f32 {
    let m = x.abs();
    let sum = 0.077_739_436_9 * m + 0.000_205_260_015;
    let sum = sum * m + 0.232_120_216;
    let sum = sum * m + 0.277_820_801;
    let sum = sum * m + 1.0;
    let inverse = 1.0 / (sum * sum);
    (1.0 - inverse * inverse).copysign(x)
}
