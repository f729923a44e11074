//! Trace files of either version.

use crate::{answered, symbols, Answer, Parts};

/// Reads a trace file of either version into the lent buffers: the code's number and the answer, whose last number is the edition.
pub fn trace_read2(
    bytes: &[u8],
    counts: &mut [u32],
    starts: &mut [f32],
    deltas: &mut [i32],
    coefficients: &mut [i32],
) -> (u32, Answer) {
    answered(|answer| trace_read2_into(bytes, counts, starts, deltas, coefficients, answer))
}

/// The same, with an answer that is lent too.
pub fn trace_read2_into(
    bytes: &[u8],
    counts: &mut [u32],
    starts: &mut [f32],
    deltas: &mut [i32],
    coefficients: &mut [i32],
    answer: &mut Answer,
) -> u32 {
    // SAFETY: each pointer comes with its slice's length, and no two slices overlap.
    unsafe {
        symbols::aktyrbuz_trace_read2(
            bytes.as_ptr(),
            bytes.len(),
            counts.as_mut_ptr(),
            counts.len(),
            starts.as_mut_ptr(),
            starts.len(),
            deltas.as_mut_ptr(),
            deltas.len(),
            coefficients.as_mut_ptr(),
            coefficients.len(),
            answer,
        )
    }
}

/// Writes a description with its edition as a trace file of a version into the lent bytes: the code's number and the answer.
pub fn trace_write2(parts: &Parts, version: u32, edition: u32, bytes: &mut [u8]) -> (u32, Answer) {
    answered(|answer| trace_write2_into(parts, version, edition, bytes, answer))
}

/// The same, with an answer that is lent too.
pub fn trace_write2_into(
    parts: &Parts,
    version: u32,
    edition: u32,
    bytes: &mut [u8],
    answer: &mut Answer,
) -> u32 {
    // SAFETY: each pointer comes with its slice's length, and the bytes overlap no other slice.
    unsafe {
        symbols::aktyrbuz_trace_write2(
            parts.counts.as_ptr(),
            parts.counts.len(),
            parts.starts.as_ptr(),
            parts.starts.len(),
            parts.deltas.as_ptr(),
            parts.deltas.len(),
            parts.coefficients.as_ptr(),
            parts.coefficients.len(),
            parts.adjustment,
            version,
            edition,
            bytes.as_mut_ptr(),
            bytes.len(),
            answer,
        )
    }
}
