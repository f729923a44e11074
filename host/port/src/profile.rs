//! The fineness profile: its check, and building by it.

use crate::{answered, symbols, Answer, Buffers, Image, Parts};

/// Holds a description against an edition of the profile: the code's number and the answer, whose first count is a broken rule.
pub fn profile(parts: &Parts, edition: u32) -> (u32, Answer) {
    answered(|answer| profile_into(parts, edition, answer))
}

/// The same, with an answer that is lent too.
pub fn profile_into(parts: &Parts, edition: u32, answer: &mut Answer) -> u32 {
    // SAFETY: each pointer comes with its slice's length.
    unsafe {
        symbols::aktyrbuz_profile(
            parts.counts.as_ptr(),
            parts.counts.len(),
            parts.starts.as_ptr(),
            parts.starts.len(),
            parts.deltas.as_ptr(),
            parts.deltas.len(),
            parts.coefficients.as_ptr(),
            parts.coefficients.len(),
            parts.adjustment,
            edition,
            answer,
        )
    }
}

/// Builds the table of a description that meets an edition of the profile: the code's number and the answer.
pub fn build_profile(parts: &Parts, image: &Image, edition: u32, lent: Buffers) -> (u32, Answer) {
    answered(|answer| build_profile_into(parts, image, edition, lent, answer))
}

/// The same, with an answer that is lent too.
pub fn build_profile_into(
    parts: &Parts,
    image: &Image,
    edition: u32,
    lent: Buffers,
    answer: &mut Answer,
) -> u32 {
    // SAFETY: each pointer comes with its slice's length, and the lent slices overlap no other.
    unsafe {
        symbols::aktyrbuz_build_profile(
            parts.counts.as_ptr(),
            parts.counts.len(),
            parts.starts.as_ptr(),
            parts.starts.len(),
            parts.deltas.as_ptr(),
            parts.deltas.len(),
            parts.coefficients.as_ptr(),
            parts.coefficients.len(),
            parts.adjustment,
            image.width,
            image.height,
            image.y_to_x,
            image.y_to_b,
            image.high_precision,
            image.level10,
            edition,
            lent.path.as_mut_ptr(),
            lent.path.len(),
            lent.walk.as_mut_ptr(),
            lent.walk.len(),
            lent.segments.as_mut_ptr(),
            lent.segments.len(),
            lent.owners.as_mut_ptr(),
            lent.owners.len(),
            lent.row_starts.as_mut_ptr(),
            lent.row_starts.len(),
            lent.entries.as_mut_ptr(),
            lent.entries.len(),
            answer,
        )
    }
}
