//! A summary of every 64 rows (document 02, (xi)): "for each band of 64 rows (the last may be shorter), its entry count, least and greatest
//! segment number, and the hull of the corrected reach for a given width".

use crate::desk::{check_bytes, check_desk};
use crate::draw::{check_counts, check_width, hull, shown};
use cases::desks::Sight;
use cases::{Code, FlatTable, Refusal};

pub const BAND_ROWS: u32 = 64;
/// Numbers a band: the entries shown, the least and the greatest segment number, the first column and one past the last.
pub const NUMBERS: usize = 5;

/// How many bands an image of this height has.
pub fn bands_of(height: u32) -> u32 {
    height.div_ceil(BAND_ROWS)
}

/// "SIZE, TABLE for counts, DESK, TRACE, ROOM in that order", here for a room of so many cells.
fn check(table: &FlatTable, sight: &Sight, width: u32, room: u64) -> Result<u32, Refusal> {
    check_width(width)?;
    check_counts(table)?;
    check_desk(sight.desk)?;
    check_bytes(sight)?;
    let bands = bands_of(table.height);
    if NUMBERS as u64 * u64::from(bands) > room {
        return Err(Refusal {
            code: Code::Room,
            place: 0,
        });
    }
    Ok(bands)
}

/// The numbers of one band, "then TABLE for the rows summed". "a band with no shown entry holds zeros".
fn summary(table: &FlatTable, sight: &Sight, width: u32, band: u32) -> Result<[u32; 5], Refusal> {
    let first = BAND_ROWS * band;
    let mut entries = Vec::new();
    for y in first..(first + BAND_ROWS).min(table.height) {
        entries.extend(shown(table, sight, y)?);
    }
    let least = entries.iter().min().copied().unwrap_or(0);
    let greatest = entries.iter().max().copied().unwrap_or(0);
    let (first, past) = hull(table, &entries, width);
    Ok([entries.len() as u32, least, greatest, first, past])
}

/// The summary of a whole table for a desk, in a room of so many cells: the numbers of each band, one band after another.
pub fn bands(table: &FlatTable, sight: &Sight, width: u32, room: u64) -> Result<Vec<u32>, Refusal> {
    let bands = check(table, sight, width, room)?;
    let mut numbers = Vec::new();
    for band in 0..bands {
        numbers.extend(summary(table, sight, width, band)?);
    }
    Ok(numbers)
}

/// A summary "refreshed for one band when a desk hides a spline": "the other bands keep their numbers". Refused as making is, "then BAND for a
/// band past the last, then TABLE for the rows summed; a refused refresh changes nothing". What comes back is how many bands there are.
pub fn band(
    table: &FlatTable,
    sight: &Sight,
    width: u32,
    numbers: &mut [u32],
    band: u32,
) -> Result<u32, Refusal> {
    let bands = check(table, sight, width, numbers.len() as u64)?;
    if band >= bands {
        return Err(Refusal {
            code: Code::Band,
            place: 0,
        });
    }
    let fresh = summary(table, sight, width, band)?;
    numbers[NUMBERS * band as usize..][..NUMBERS].copy_from_slice(&fresh);
    Ok(bands)
}

#[cfg(test)]
mod tests {
    use super::*;

    /// 65 rows: the first and the last of band 0 list segments 2 and 1, band 1 lists 0, which reaches no column.
    fn table() -> FlatTable {
        let at = |x: f32, d: f32| [x, 0.0, d, 1.0, 1.0, 1.0, 1.0, 1.0];
        let mut row_starts = vec![1; 66];
        (row_starts[0], row_starts[64], row_starts[65]) = (0, 2, 3);
        FlatTable {
            segments: [at(500.0, 1.0), at(9.0, 1.0), at(20.0, 2.0)].concat(),
            owners: vec![0, 1, 2],
            segment_count: 3,
            entries: vec![2, 1, 0],
            entry_count: 3,
            row_starts,
            height: 65,
        }
    }

    fn code<T>(refused: Result<T, Refusal>) -> Option<Code> {
        refused.err().map(|refusal| refusal.code)
    }

    #[test]
    fn numbers_of_two_bands() {
        let (table, mut sight) = (table(), Sight::open(3));
        let made = bands(&table, &sight, 100, 10);
        assert_eq!(made, Ok(vec![2, 1, 2, 8, 23, 1, 0, 0, 0, 0]));
        sight.bits[2] = 1;
        let mut numbers = [7; 11];
        assert_eq!(band(&table, &sight, 100, &mut numbers, 0), Ok(2));
        assert_eq!(numbers, [1, 1, 1, 8, 11, 7, 7, 7, 7, 7, 7]);
        sight.bits = vec![1; 3];
        assert_eq!(bands(&table, &sight, 100, 10), Ok(vec![0; 10]));
        for (height, many) in [
            (0, 0),
            (1, 1),
            (64, 1),
            (65, 2),
            (128, 2),
            (1 << 23, 1 << 17),
        ] {
            assert_eq!(bands_of(height), many);
        }
    }

    #[test]
    fn refusals_in_their_order() {
        let (mut table, mut sight) = (table(), Sight::open(3));
        let mut numbers = [7; 10];
        let refused = |table: &FlatTable, sight: &Sight, width, number| {
            code(band(table, sight, width, &mut [7; 9], number))
        };
        table.row_starts[1] = 9;
        assert_eq!(
            code(band(&table, &sight, 1, &mut numbers, 2)),
            Some(Code::Band)
        );
        assert_eq!(
            code(band(&table, &sight, 1, &mut numbers, 0)),
            Some(Code::Table)
        );
        assert_eq!(numbers, [7; 10]);
        // Other bands are not looked at.
        assert_eq!(band(&table, &sight, 1, &mut numbers, 1), Ok(2));
        assert_eq!(refused(&table, &sight, 1, 9), Some(Code::Room));
        sight.bits.pop();
        assert_eq!(refused(&table, &sight, 1, 9), Some(Code::Trace));
        sight.desk = 2;
        assert_eq!(refused(&table, &sight, 1, 9), Some(Code::Desk));
        table.owners.pop();
        assert_eq!(refused(&table, &sight, 1, 9), Some(Code::Table));
        assert_eq!(refused(&table, &sight, (1 << 23) + 1, 9), Some(Code::Size));
    }
}
