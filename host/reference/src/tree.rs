//! A description as text for `jxl_from_tree`: a black image of three float channels, not XYB, and its splines.

use crate::files::{points, File};
use std::fmt::Write;

const WEIGHTS: [f64; 4] = [0.0042, 0.075, 0.07, 0.3333];

/// The text. It tells dequantized coefficients, which `jxl_from_tree` quantizes again.
pub fn text(file: &File) -> String {
    let description = &file.description;
    let mut text = format!(
        "Width {}\nHeight {}\nBitdepth 32\nFloatExpBits 8\nSplineQuantizationAdjustment {}\n",
        file.width, file.height, description.adjustment
    );
    for k in 0..description.counts.len() {
        text += "Spline\n";
        for row in dequantized(
            &description.coefficients[128 * k..][..128],
            description.adjustment,
        ) {
            let words: Vec<String> = row.iter().map(f32::to_string).collect();
            text += &words.join(" ");
            text += "\n";
        }
        for [x, y] in points(description, k) {
            let _ = writeln!(text, "{x} {y}");
        }
        text += "EndSpline\n";
    }
    text + "- Set 0\n"
}

/// X, Y, B and sigma as the text has them: B with all of Y, X with none of it, which is how a frame without words about correlation is read.
fn dequantized(coefficients: &[i32], adjustment: i32) -> Vec<[f32; 32]> {
    let quant = f64::from(adjustment) * 0.125;
    let inverse = if adjustment < 0 {
        1.0 - quant
    } else {
        1.0 / (1.0 + quant)
    };
    let value = |row: usize, i: usize| {
        let first = if i == 0 { 0.5f64.sqrt() } else { 1.0 };
        f64::from(coefficients[32 * row + i]) * first * WEIGHTS[row] * inverse
    };
    let gained = |row: usize, i: usize| if row == 2 { value(1, i) } else { 0.0 };
    let row = |row| std::array::from_fn(|i| (value(row, i) + gained(row, i)) as f32);
    (0..4).map(row).collect()
}
