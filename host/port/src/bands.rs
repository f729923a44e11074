//! The summary of every 64 rows: made, and one band of it made again.

use crate::{answered, symbols, Answer, Sight, Table};

/// Makes the bands of a table for a desk and a width in the lent cells, five a band: the code's number and the answer.
pub fn bands(table: &Table, sight: &Sight, width: u32, bands: &mut [u32]) -> (u32, Answer) {
    answered(|answer| bands_into(table, sight, width, bands, answer))
}

/// The same, with an answer that is lent too.
pub fn bands_into(
    table: &Table,
    sight: &Sight,
    width: u32,
    bands: &mut [u32],
    answer: &mut Answer,
) -> u32 {
    // SAFETY: each pointer comes with its slice's length, and the bands overlap no other slice.
    unsafe {
        symbols::aktyrbuz_bands(
            table.segments.as_ptr(),
            table.segments.len(),
            table.owners.as_ptr(),
            table.owners.len(),
            table.segment_count,
            table.entries.as_ptr(),
            table.entries.len(),
            table.entry_count,
            table.row_starts.as_ptr(),
            table.row_starts.len(),
            table.height,
            sight.splines,
            sight.bits.as_ptr(),
            sight.bits.len(),
            sight.desk,
            width,
            bands.as_mut_ptr(),
            bands.len(),
            answer,
        )
    }
}

/// Makes the numbers of one band again, and leaves the others: the code's number and the answer.
pub fn band(
    table: &Table,
    sight: &Sight,
    width: u32,
    bands: &mut [u32],
    band: u32,
) -> (u32, Answer) {
    answered(|answer| band_into(table, sight, width, bands, band, answer))
}

/// The same, with an answer that is lent too.
pub fn band_into(
    table: &Table,
    sight: &Sight,
    width: u32,
    bands: &mut [u32],
    band: u32,
    answer: &mut Answer,
) -> u32 {
    // SAFETY: as above.
    unsafe {
        symbols::aktyrbuz_band(
            table.segments.as_ptr(),
            table.segments.len(),
            table.owners.as_ptr(),
            table.owners.len(),
            table.segment_count,
            table.entries.as_ptr(),
            table.entries.len(),
            table.entry_count,
            table.row_starts.as_ptr(),
            table.row_starts.len(),
            table.height,
            sight.splines,
            sight.bits.as_ptr(),
            sight.bits.len(),
            sight.desk,
            width,
            bands.as_mut_ptr(),
            bands.len(),
            band,
            answer,
        )
    }
}
