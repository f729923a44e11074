//! Line drawings: texts of points read and written.

use crate::{answered, symbols, Answer, Parts};

/// Reads a text of points into the lent start and double deltas: the code's number and the answer.
pub fn points_read(text: &[u8], start: &mut [f32], deltas: &mut [i32]) -> (u32, Answer) {
    answered(|answer| points_read_into(text, start, deltas, answer))
}

/// The same, with an answer that is lent too.
pub fn points_read_into(
    text: &[u8],
    start: &mut [f32],
    deltas: &mut [i32],
    answer: &mut Answer,
) -> u32 {
    // SAFETY: each pointer comes with its slice's length, and no two slices overlap.
    unsafe {
        symbols::aktyrbuz_points_read(
            text.as_ptr(),
            text.len(),
            start.as_mut_ptr(),
            start.len(),
            deltas.as_mut_ptr(),
            deltas.len(),
            answer,
        )
    }
}

/// Writes the control points of one spline as a text into the lent bytes: the code's number and the answer.
pub fn points_write(parts: &Parts, spline: u64, text: &mut [u8]) -> (u32, Answer) {
    answered(|answer| points_write_into(parts, spline, text, answer))
}

/// The same, with an answer that is lent too.
pub fn points_write_into(parts: &Parts, spline: u64, text: &mut [u8], answer: &mut Answer) -> u32 {
    // SAFETY: each pointer comes with its slice's length, and the text overlaps no other slice.
    unsafe {
        symbols::aktyrbuz_points_write(
            parts.counts.as_ptr(),
            parts.counts.len(),
            parts.starts.as_ptr(),
            parts.starts.len(),
            parts.deltas.as_ptr(),
            parts.deltas.len(),
            parts.coefficients.as_ptr(),
            parts.coefficients.len(),
            spline,
            text.as_mut_ptr(),
            text.len(),
            answer,
        )
    }
}
