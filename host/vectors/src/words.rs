//! Numbers as words of a case.

use cases::{bits, Description, Given};

pub fn floats(numbers: &[f32]) -> Vec<u32> {
    numbers.iter().map(|&x| bits(x)).collect()
}

pub fn signed(numbers: &[i32]) -> Vec<u32> {
    numbers.iter().map(|&z| z as u32).collect()
}

/// A u64 as two words, the lower half first.
pub fn halves(n: u64) -> Vec<u32> {
    vec![n as u32, (n >> 32) as u32]
}

/// The number of splines, that of points, the adjustment, then counts, starts, double deltas and coefficients.
pub fn description(description: &Description) -> Vec<u32> {
    let points = description.deltas.len() / 2;
    let mut words = vec![
        description.counts.len() as u32,
        points as u32,
        description.adjustment as u32,
    ];
    words.extend(&description.counts);
    words.extend(floats(&description.starts));
    words.extend(signed(&description.deltas));
    words.extend(signed(&description.coefficients));
    words
}

/// Width, height, y_to_x, y_to_b, high precision, level 10.
pub fn given(given: &Given) -> Vec<u32> {
    vec![
        given.width,
        given.height,
        bits(given.y_to_x),
        bits(given.y_to_b),
        given.high_precision.into(),
        given.level10.into(),
    ]
}
