//! Drawing a part of a row, and the reach of a row (the scope, "Segments and rows", last two paragraphs).

use crate::desk::{check_bytes, check_desk, is_hidden};
use crate::segments::{columns, filled, MOST_SEGMENTS};
use crate::table::{MOST_ENTRIES, MOST_PIXELS};
use cases::desks::Sight;
use cases::{Code, FlatTable, Refusal, Segment};
use std::ops::Range;

pub use crate::left_open::{erf, intensity};

/// Place is 0 for drawing and reach (Codes).
fn refuse<T>(code: Code) -> Result<T, Refusal> {
    Err(Refusal { code, place: 0 })
}

/// "Drawing and reach take a desk and skip hidden segments" (document 02, (vi)). Checks: DESK, TABLE for the counts, TRACE, "ROW, SPAN, then
/// TABLE for the two starts and the entries of row y". The channels begin at pixel x0; what comes back is how often a pixel was updated.
pub fn draw(
    table: &FlatTable,
    sight: &Sight,
    y: u32,
    x0: u32,
    n: u32,
    channels: [&mut [f32]; 3],
) -> Result<u64, Refusal> {
    check_desk(sight.desk)?;
    check_counts(table)?;
    check_bytes(sight)?;
    check_row(table, y)?;
    // SPAN: "x0+n above 2^23, or a channel shorter than n" (Codes).
    if u64::from(x0) + u64::from(n) > u64::from(MOST_PIXELS)
        || channels.iter().any(|channel| channel.len() < n as usize)
    {
        return refuse(Code::Span);
    }
    let mut updates = 0;
    let [r0, r1, r2] = channels;
    // "Entries are applied in listed order".
    for entry in shown(table, sight, y)? {
        let segment = table.segment(entry);
        for x in inside(columns(&segment), x0, n) {
            let cell = (x - x0) as usize;
            add(
                [&mut r0[cell], &mut r1[cell], &mut r2[cell]],
                &segment,
                x,
                y,
            );
            updates += 1;
        }
    }
    Ok(updates)
}

/// The columns of a part.
fn inside(columns: Range<i128>, x0: u32, n: u32) -> Range<u32> {
    let part = i128::from(x0)..i128::from(x0 + n);
    let both = filled(columns.start.max(part.start)..columns.end.min(part.end));
    both.start as u32..both.end as u32
}

/// Adds to one pixel: "every multiply-add is a rounded product, then a rounded sum".
fn add(pixel: [&mut f32; 3], segment: &Segment, x: u32, y: u32) {
    let intensity = intensity(segment, x as f32, y as f32);
    for (channel, color) in pixel.into_iter().zip(&segment[5..]) {
        *channel += color * intensity;
    }
}

/// TABLE's first part, "a table whose counts overrun its buffers or exceed 2^24 segments, 2^30 entries or height 2^23" (Codes). Each
/// segment has its ninth field, the owner, too.
pub fn check_counts(table: &FlatTable) -> Result<(), Refusal> {
    let segments = u64::from(table.segment_count);
    let entries = u64::from(table.entry_count);
    let overrun = 8 * segments > table.segments.len() as u64
        || segments > table.owners.len() as u64
        || entries > table.entries.len() as u64
        || u64::from(table.height) + 1 > table.row_starts.len() as u64;
    if overrun || segments > MOST_SEGMENTS || entries > MOST_ENTRIES || table.height > MOST_PIXELS {
        return refuse(Code::Table);
    }
    Ok(())
}

/// ROW, "row not below the height" (Codes).
fn check_row(table: &FlatTable, y: u32) -> Result<(), Refusal> {
    if y >= table.height {
        return refuse(Code::Row);
    }
    Ok(())
}

/// The entries of row y that are not hidden for the desk, in listed order, or TABLE's second part: "row starts that descend or pass the
/// entry count, or an entry that names no segment" (Codes), which "also refuses an entry whose segment names no spline" (document 02, (vi));
/// "other rows are not looked at".
pub fn shown(table: &FlatTable, sight: &Sight, y: u32) -> Result<Vec<u32>, Refusal> {
    let first = table.row_starts[y as usize];
    let past = table.row_starts[y as usize + 1];
    if first > past || past > table.entry_count {
        return refuse(Code::Table);
    }
    let mut shown = Vec::new();
    for &entry in &table.entries[first as usize..past as usize] {
        if entry >= table.segment_count || table.owners[entry as usize] >= sight.splines {
            return refuse(Code::Table);
        }
        if !is_hidden(sight, table.owners[entry as usize]) {
            shown.push(entry);
        }
    }
    Ok(shown)
}

/// SIZE: "width or height above 2^23" (Codes).
pub fn check_width(width: u32) -> Result<(), Refusal> {
    if width > MOST_PIXELS {
        return refuse(Code::Size);
    }
    Ok(())
}

/// "Reach must be the hull of the columns that drawing the row would touch in columns 0 to W-1" (document 02, (iii)): its first
/// and one-past-last column; "0, 0 if none. SIZE for W, then TABLE and ROW as drawing", here after DESK and with TRACE as drawing.
pub fn reach(table: &FlatTable, sight: &Sight, y: u32, width: u32) -> Result<(u32, u32), Refusal> {
    check_desk(sight.desk)?;
    check_width(width)?;
    check_counts(table)?;
    check_bytes(sight)?;
    check_row(table, y)?;
    Ok(hull(table, &shown(table, sight, y)?, width))
}

/// The hull of the columns below a width that segments have, 0 and 0 if they have none.
pub fn hull(table: &FlatTable, entries: &[u32], width: u32) -> (u32, u32) {
    let touched = || {
        let each = entries
            .iter()
            .map(|&entry| inside(columns(&table.segment(entry)), 0, width));
        each.filter(|columns| !columns.is_empty())
    };
    let first = touched().map(|columns| columns.start).min();
    let past = touched().map(|columns| columns.end).max();
    (first.unwrap_or(0), past.unwrap_or(0))
}

#[cfg(test)]
mod tests {
    use super::*;

    /// Two rows; the first lists a segment at x = 3 and one left of the image, the second one without an end.
    fn table() -> FlatTable {
        let at = |x: f32, d: f32| [x, 0.0, d, 1.0, 1.0, 1.0, 1.0, 1.0];
        FlatTable {
            segments: [at(3.0, 1.0), at(-5.0, 2.0), at(4.0, f32::INFINITY)].concat(),
            owners: vec![0, 1, 1],
            segment_count: 3,
            entries: vec![0, 1, 2],
            entry_count: 3,
            row_starts: vec![0, 2, 3],
            height: 2,
        }
    }

    fn drawn_for(sight: &Sight, table: &FlatTable, y: u32, x0: u32, n: u32) -> Result<u64, Code> {
        let [mut r0, mut r1, mut r2] = [[0.0; 10]; 3];
        draw(table, sight, y, x0, n, [&mut r0, &mut r1, &mut r2]).map_err(|refusal| refusal.code)
    }

    fn drawn(table: &FlatTable, y: u32, x0: u32, n: u32) -> Result<u64, Code> {
        drawn_for(&Sight::open(2), table, y, x0, n)
    }

    fn reach(table: &FlatTable, y: u32, width: u32) -> Result<(u32, u32), Code> {
        super::reach(table, &Sight::open(2), y, width).map_err(|refusal| refusal.code)
    }

    #[test]
    fn updates_and_reach() {
        assert_eq!(drawn(&table(), 0, 0, 10), Ok(4));
        assert_eq!(drawn(&table(), 0, 3, 10), Ok(2));
        assert_eq!(drawn(&table(), 1, 0, 10), Ok(0));
        // What lies left of the image still changes column 0.
        assert_eq!(reach(&table(), 0, 100), Ok((0, 5)));
        assert_eq!(reach(&table(), 0, 4), Ok((0, 4)));
        assert_eq!(reach(&table(), 0, 2), Ok((0, 1)));
        assert_eq!(reach(&table(), 0, 0), Ok((0, 0)));
        assert_eq!(reach(&table(), 1, 100), Ok((0, 0)));
    }

    #[test]
    fn requests_that_are_refused() {
        let sound = table();
        assert_eq!(drawn(&sound, 2, 0, 1), Err(Code::Row));
        assert_eq!(drawn(&sound, 0, 0, 11), Err(Code::Span));
        assert_eq!(drawn(&sound, 0, MOST_PIXELS - 5, 5), Ok(0));
        assert_eq!(drawn(&sound, 0, MOST_PIXELS - 5, 6), Err(Code::Span));
        assert_eq!(drawn(&sound, 0, u32::MAX, 10), Err(Code::Span));
        assert_eq!(reach(&sound, 0, MOST_PIXELS + 1), Err(Code::Size));
    }

    #[test]
    fn tables_that_are_refused() {
        let sound = table();
        for wrong in [
            FlatTable {
                segment_count: 4,
                ..sound.clone()
            },
            FlatTable {
                segment_count: 1,
                ..sound.clone()
            },
            FlatTable {
                entry_count: 4,
                ..sound.clone()
            },
            FlatTable {
                entry_count: 1,
                ..sound.clone()
            },
            FlatTable {
                height: 3,
                ..sound.clone()
            },
            FlatTable {
                row_starts: vec![3, 2, 3],
                ..sound.clone()
            },
            FlatTable {
                owners: vec![0, 1],
                ..sound.clone()
            },
            FlatTable {
                owners: vec![0, 2, 1],
                ..sound.clone()
            },
        ] {
            assert_eq!(drawn(&wrong, 0, 0, 1), Err(Code::Table), "{wrong:?}");
        }
        // Other rows are not looked at, and the counts come before the row.
        let later = FlatTable {
            row_starts: vec![0, 2, 1],
            ..sound.clone()
        };
        assert_eq!(drawn(&later, 0, 0, 10), Ok(4));
        let both = FlatTable { height: 3, ..sound };
        assert_eq!(drawn(&both, 9, 0, 11), Err(Code::Table));
    }
    #[test]
    fn a_desk_skips_what_it_hides() {
        let seen = |desk, bits: &[u8]| Sight {
            splines: 2,
            bits: bits.to_vec(),
            desk,
        };
        let draws = |sight: &Sight| drawn_for(sight, &table(), 0, 0, 10);
        let reaches = |sight: &Sight| super::reach(&table(), sight, 0, 100);
        for (desk, byte) in [(0, 0b1111_1101), (1, 0b1111_1110)] {
            let other = byte ^ 3;
            // The fibre at x = 3 has three columns, the one left of the image has column 0.
            assert_eq!(draws(&seen(desk, &[byte, byte])), Ok(0));
            assert_eq!(draws(&seen(desk, &[other, byte])), Ok(3));
            assert_eq!(reaches(&seen(desk, &[other, byte])), Ok((2, 5)));
            assert_eq!(reaches(&seen(desk, &[byte, other, byte])), Ok((0, 1)));
            assert_eq!(reaches(&seen(desk, &[byte; 2])), Ok((0, 0)));
        }
        let mut wrong = seen(2, &[0]);
        assert_eq!(draws(&wrong), Err(Code::Desk));
        wrong.desk = 1;
        assert_eq!(draws(&wrong), Err(Code::Trace));
        wrong.splines = 1;
        assert_eq!(draws(&wrong), Err(Code::Table));
    }
}
