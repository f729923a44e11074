//! Segments: the eight floats of a point, and the rows and columns of a segment.

use crate::exported::{self, ROOM};
use crate::lent::Lent;
use crate::tally::Tally;
use cases::segments::{along_case, record, segment_case, AlongCase, SegmentCase};
use cases::segments::{ALONG_KINDS, MAKING_KINDS, RECORD_KINDS};
use cases::{each, Segment};
use compare::segments::touched;
use compare::verdict::same_floats;
use model::segments::{all_rows, columns};
use oracle::{Outcome, Rows};
use std::ops::Range;

pub const SEGMENTS: u64 = 200_000;
pub const OUTCOMES: [&str; 12] = [
    "made",
    "none",
    "NaN distance",
    "infinite distance",
    "no row below 2^24",
    "last row from 2^62 up to 2^63",
    "last row 2^63 or beyond",
    "last column 2^64 or beyond",
    "rows by spline.rs",
    "rows by the second reading: too many for spline.rs",
    "no column below 2^24",
    "left of the image: column 0",
];

pub const WALKS: u64 = 20_000;
pub const WALK_OUTCOMES: [&str; 4] = [
    "no segment",
    "fewer segments than points",
    "a segment a point",
    "ROOM (one cell short)",
];

pub const RECORDS: u64 = 40_000;
pub const RECORD_OUTCOMES: [&str; 9] = [
    "no row below 2^24",
    "no column below 2^24",
    "left of the image: column 0",
    "row 2^23 or beyond",
    "column 2^23 or beyond",
    "last row from 2^62 up to 2^63",
    "last row 2^63 or beyond",
    "last column from 2^63 up to 2^64",
    "last column 2^64 or beyond",
];

/// More rows than this spline.rs is not asked to list.
const MOST_ROWS: usize = 1 << 12;

pub fn compare_making(tally: &mut Tally) {
    for (kind, seed) in each(&MAKING_KINDS, SEGMENTS / 4) {
        let case = segment_case(kind, seed);
        let SegmentCase {
            center,
            multiplier,
            colors,
            sigma,
            high_precision,
        } = case;
        let (made, ours) = exported::add_segment(&case);
        match oracle::segment(center, multiplier, colors, sigma, high_precision, MOST_ROWS) {
            Outcome::Done(None) => {
                tally.case("none");
                let zero = ours.iter().all(|cell| cell.to_bits() == 0);
                tally.hold(&case, (made, ours), (false, [0.0; 8]), !made && zero);
            }
            Outcome::Done(Some((theirs, rows))) => {
                tally.case("made");
                tally.hold(
                    &case,
                    (made, ours),
                    (true, theirs),
                    made && same_floats(&ours, &theirs),
                );
                great_ends(tally, &theirs);
                made_rows(tally, &theirs, rows);
                made_columns(tally, &theirs);
            }
            other => panic!("spline.rs came to {other:?} on {case:?}"),
        }
    }
}

/// The port's numbers say something below 2^24 only, which no image reaches. Every empty range is 0..0.
fn cut(ends: Range<i128>) -> Range<i128> {
    model::segments::filled(ends.start..ends.end.min(1 << 24))
}

fn ours(ends: Range<u32>) -> Range<i128> {
    cut(ends.start.into()..ends.end.into())
}

fn made_rows(tally: &mut Tally, segment: &Segment, rows: Rows) {
    let expected = match rows {
        Rows::Run { first, past } => {
            tally.also("rows by spline.rs");
            cut(first.into()..past.into())
        }
        Rows::TooMany => {
            tally.also("rows by the second reading: too many for spline.rs");
            let all = all_rows(segment);
            assert!(all.end - all.start > MOST_ROWS as i128, "many rows");
            cut(all)
        }
    };
    if segment[2].is_nan() {
        tally.also("NaN distance");
    }
    if segment[2].is_infinite() {
        tally.also("infinite distance");
    }
    if expected.is_empty() {
        tally.also("no row below 2^24");
    }
    tally.equal(&("rows", segment), ours(exported::rows(segment)), expected);
}

/// Which of the great ends a segment has that begins inside the image.
fn great_ends(tally: &mut Tally, [x, y, d, ..]: &Segment) {
    let two = |power: i32| f32::powi(2.0, power);
    let from_inside = |center: &f32| center - d < two(23);
    if from_inside(y) && y + d >= two(63) {
        tally.also("last row 2^63 or beyond");
    } else if from_inside(y) && y + d >= two(62) {
        tally.also("last row from 2^62 up to 2^63");
    }
    if from_inside(x) && x + d >= two(64) {
        tally.also("last column 2^64 or beyond");
    } else if from_inside(x) && x + d >= two(63) {
        tally.also("last column from 2^63 up to 2^64");
    }
}

/// All columns by the second reading, and by what spline.rs draws around the ends that lie in the greatest image.
fn made_columns(tally: &mut Tally, segment: &Segment) {
    let expected = cut(columns(segment));
    if expected.is_empty() {
        tally.also("no column below 2^24");
    } else if segment[0] + segment[2] < -0.5 {
        tally.also("left of the image: column 0");
    }
    let ours = ours(exported::columns(segment));
    tally.equal(&("columns", segment), ours.clone(), expected);
    for end in [0, ours.start, ours.end] {
        let x0 = (end - 3).clamp(0, (1 << 23) - 6) as u32;
        let drawn = touched(segment, 0, x0, 6);
        let within = (x0..x0 + 6).map(|x| ours.contains(&x.into())).collect();
        tally.equal(&("columns from", x0, segment), Some(within), drawn);
    }
}

/// Finished records of any floats: rows by the second reading, since spline.rs lists rows only of what it makes.
pub fn compare_records(tally: &mut Tally) {
    for (kind, seed) in each(&RECORD_KINDS, RECORDS / 4) {
        let record = record(kind, seed);
        tally.case(kind);
        great_ends(tally, &record);
        let rows = cut(all_rows(&record));
        if rows.is_empty() {
            tally.also("no row below 2^24");
        }
        if rows.end > 1 << 23 {
            tally.also("row 2^23 or beyond");
        }
        if cut(columns(&record)).end > 1 << 23 {
            tally.also("column 2^23 or beyond");
        }
        tally.equal(&("rows", record), ours(exported::rows(&record)), rows);
        made_columns(tally, &record);
    }
}

/// The segments of a walk: where in the transform each point lies, and which points make one.
pub fn compare_along(tally: &mut Tally) {
    for (kind, seed) in each(&ALONG_KINDS, WALKS / 2) {
        let case = along_case(kind, seed);
        let made = oracle::segments(
            &case.coefficients,
            &case.walk,
            case.length,
            case.high_precision,
        );
        match made {
            Outcome::Done(made) => along(tally, &case, &made.concat()),
            _ => tally.case("too many rows for spline.rs"),
        }
    }
}

fn along(tally: &mut Tally, case: &AlongCase, made: &[f32]) {
    let count = made.len() / 8;
    tally.case(match count {
        0 => "no segment",
        _ if count < case.walk.len() => "fewer segments than points",
        _ => "a segment a point",
    });
    let mut lent = Lent::new(made.len() + case.walk.len());
    let ours = exported::add_segments(case, lent.lend());
    let same = ours == (0, count) && lent.holds(made.iter().copied());
    tally.hold(case, (ours, &lent.lend()[..]), ((0, count), made), same);
    if count > 0 {
        tally.also("ROOM (one cell short)");
        let mut lent = Lent::new(made.len() - 1);
        let ours = exported::add_segments(case, lent.lend());
        tally.hold(case, ours, ROOM, ours == ROOM && lent.inside());
    }
}
