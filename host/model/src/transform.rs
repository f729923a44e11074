//! The transform (the scope, "Segments and rows", first paragraph): a number of a spline at a place along it, from 32
//! coefficients.

use std::f32::consts::{PI, SQRT_2};

pub use crate::left_open::fast_cos;

/// "k times the f32 number π/32, each product rounded to f32".
pub fn multiplier(k: usize) -> f32 {
    k as f32 * (PI / 32.0)
}

/// "Each cosine is `fast_cos` of entry · (t+0.5)."
pub fn cosines(t: f32) -> [f32; 32] {
    std::array::from_fn(|k| fast_cos(multiplier(k) * (t + 0.5)))
}

/// "A sum starts with its first product, goes up in index, then is multiplied by √2."
pub fn transform(coefficients: &[f32; 32], cosines: &[f32; 32]) -> f32 {
    let mut sum = coefficients[0] * cosines[0];
    for k in 1..32 {
        sum += coefficients[k] * cosines[k];
    }
    sum * SQRT_2
}
