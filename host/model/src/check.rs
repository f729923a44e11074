//! Row tables from the other maker (document 02, (xii)).

use crate::segments::{rows, MOST_SEGMENTS};
use crate::table::{MOST_ENTRIES, MOST_PIXELS};
use cases::{Code, FlatTable, Refusal};
use std::ops::Range;

/// "Accept exactly if each image row lists precisely the segments whose row range has that row, once each, ascending, with starts and entry
/// count fitting." The owners are not looked at. What comes back is how many entries there are.
pub fn check(table: &FlatTable) -> Result<u64, Refusal> {
    let height = u64::from(table.height);
    let entries = u64::from(table.entry_count);
    let refuse = |code, place| Err(Refusal { code, place });
    if table.height > MOST_PIXELS {
        return refuse(Code::Size, 0);
    }
    // "SHAPE where the row starts are not height+1 in number".
    if table.row_starts.len() as u64 != height + 1 {
        return refuse(Code::Shape, 0);
    }
    // As drawing does, before any row.
    let segments = u64::from(table.segment_count);
    if 8 * segments > table.segments.len() as u64
        || entries > table.entries.len() as u64
        || segments > MOST_SEGMENTS
        || entries > MOST_ENTRIES
    {
        return refuse(Code::Table, 0);
    }
    // "a first start other than 0 makes row 0 wrong", where the image has no row too.
    if table.row_starts[0] != 0 {
        return refuse(Code::Table, 0);
    }
    // "TABLE with the first wrong row as place".
    let ranges: Vec<Range<u32>> = (0..table.segment_count)
        .map(|index| rows(&table.segment(index), table.height))
        .collect();
    if let Some(y) = (0..table.height).find(|&y| !is_right(table, &ranges, y)) {
        return refuse(Code::Table, y.into());
    }
    // "entries left after the last row give the height".
    if table.row_starts[table.height as usize] < table.entry_count {
        return refuse(Code::Table, height);
    }
    Ok(entries)
}

/// Whether row y lists just the segments that have it, in order.
fn is_right(table: &FlatTable, ranges: &[Range<u32>], y: u32) -> bool {
    let first = table.row_starts[y as usize];
    let past = table.row_starts[y as usize + 1];
    if first > past || past > table.entry_count {
        return false;
    }
    let due = (0..table.segment_count).filter(|&index| ranges[index as usize].contains(&y));
    due.eq(table.entries[first as usize..past as usize].iter().copied())
}

#[cfg(test)]
mod tests {
    use super::*;

    /// Three rows; a segment of the first two and one of the last two.
    fn table() -> FlatTable {
        let at = |y: f32| [4.0, y, 0.5, 1.0, 1.0, 1.0, 1.0, 1.0];
        FlatTable {
            segments: [at(0.5), at(1.5)].concat(),
            segment_count: 2,
            entries: vec![0, 0, 1, 1],
            entry_count: 4,
            row_starts: vec![0, 1, 3, 4],
            height: 3,
            ..FlatTable::default()
        }
    }

    fn told(table: &FlatTable) -> Result<u64, (Code, u64)> {
        check(table).map_err(|refusal| (refusal.code, refusal.place))
    }

    fn with(change: impl Fn(&mut FlatTable)) -> Result<u64, (Code, u64)> {
        let mut table = table();
        change(&mut table);
        told(&table)
    }

    #[test]
    fn the_first_wrong_row_is_named() {
        // R(0.5-0.5) to R(0.5+0.5): rows 0 and 1.
        assert_eq!(told(&table()), Ok(4));
        let wrong = |y| Err((Code::Table, y));
        assert_eq!(with(|t| t.entries.swap(1, 2)), wrong(1));
        assert_eq!(with(|t| t.entries[3] = 0), wrong(2));
        assert_eq!(with(|t| t.entries[1] = 2), wrong(1));
        assert_eq!(with(|t| t.row_starts[1] = 2), wrong(0));
        assert_eq!(with(|t| t.row_starts[2] = 0), wrong(1));
        assert_eq!(with(|t| t.row_starts[3] = 5), wrong(2));
        assert_eq!(with(|t| t.row_starts[0] = 1), wrong(0));
        assert_eq!(with(|t| t.entry_count = 3), wrong(2));
        let left_over = |t: &mut FlatTable| {
            t.entries.push(0);
            t.entry_count = 5;
        };
        assert_eq!(with(left_over), wrong(3));
        // A cell behind the count is nothing.
        assert_eq!(with(|t| t.entries.push(0)), Ok(4));
    }

    #[test]
    fn what_is_refused_before_any_row() {
        assert_eq!(with(|t| t.height = MOST_PIXELS + 1), Err((Code::Size, 0)));
        assert_eq!(with(|t| t.height = MOST_PIXELS), Err((Code::Shape, 0)));
        assert_eq!(with(|t| t.row_starts.push(4)), Err((Code::Shape, 0)));
        assert_eq!(with(|t| t.row_starts.clear()), Err((Code::Shape, 0)));
        assert_eq!(with(|t| t.segment_count = 3), Err((Code::Table, 0)));
        assert_eq!(with(|t| t.entry_count = 5), Err((Code::Table, 0)));
    }

    #[test]
    fn an_image_without_rows() {
        let none = FlatTable {
            row_starts: vec![0],
            ..FlatTable::default()
        };
        assert_eq!(told(&none), Ok(0));
        let mut listed = FlatTable {
            entries: vec![0],
            entry_count: 1,
            ..none
        };
        assert_eq!(told(&listed), Err((Code::Table, 0)));
        listed.row_starts[0] = 1;
        assert_eq!(told(&listed), Err((Code::Table, 0)));
    }
}
