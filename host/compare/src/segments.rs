//! Single segments: the eight numbers, the rows and the columns.

use crate::tally::Tally;
use crate::verdict::{equal, hold, other_nans, same_floats, Verdict};
use cases::segments::{along_case, record, segment_case, AlongCase, SegmentCase};
use cases::segments::{ALONG_KINDS, MAKING_KINDS, RECORD_KINDS};
use cases::{each, Segment, Table};
use model::segments::{add_segments, all_rows, columns, segment};
use model::walk::Step;
use oracle::{Outcome, Rows};
use std::ops::Range;

const CASES_A_KIND: u64 = 1_500;

/// Longer runs of rows are only known to be too long.
const MOST_ROWS: usize = 1 << 12;

pub fn compare_making(tally: &mut Tally) {
    for (kind, seed) in each(&MAKING_KINDS, CASES_A_KIND) {
        let case = segment_case(kind, seed);
        let verdict = making_against_oracle(tally, &case);
        tally.add(kind, seed, &case, verdict);
    }
}

fn making_against_oracle(tally: &mut Tally, case: &SegmentCase) -> Verdict {
    let SegmentCase {
        center,
        multiplier,
        colors,
        sigma,
        high_precision,
    } = *case;
    let mine = segment(center, multiplier, colors, sigma, high_precision);
    let theirs = oracle::segment(center, multiplier, colors, sigma, high_precision, MOST_ROWS);
    if let (Some(mine), Outcome::Done(Some((theirs, _)))) = (&mine, &theirs) {
        if other_nans(mine, theirs) {
            tally.listed("NaN patterns");
        }
    }
    hold(&Ok(mine), &theirs, |mine, theirs| match (mine, theirs) {
        (None, None) => true,
        (Some(mine), Some((theirs, rows))) => {
            same_floats(mine, theirs) && same_rows(all_rows(mine), *rows)
        }
        _ => false,
    })
}

fn same_rows(mine: Range<i128>, theirs: Rows) -> bool {
    match theirs {
        Rows::Run { first, past } => mine == (first.into()..past.into()),
        Rows::TooMany => mine.end - mine.start > MOST_ROWS as i128,
    }
}

/// The segments of one spline along a walk.
pub fn compare_along(tally: &mut Tally) {
    for (kind, seed) in each(&ALONG_KINDS, CASES_A_KIND) {
        let case = along_case(kind, seed);
        tally.add(kind, seed, &case, along_against_oracle(&case));
    }
}

fn along_against_oracle(case: &AlongCase) -> Verdict {
    let AlongCase {
        coefficients,
        walk,
        length,
        high_precision,
    } = case;
    let steps: Vec<Step> = walk.iter().map(|&[x, y, m]| ([x, y], m)).collect();
    let mut mine = Vec::new();
    let room = add_segments(
        coefficients,
        &steps,
        *length,
        *high_precision,
        u64::MAX,
        &mut mine,
    );
    let theirs = oracle::segments(coefficients, walk, *length, *high_precision);
    hold(&room.map(|()| mine), &theirs, |mine, theirs| {
        same_floats(&mine.concat(), &theirs.concat())
    })
}

/// So many pixels are looked at, from each of these on.
const WINDOW: u32 = 100;
const WINDOWS: [u32; 3] = [0, 40, (1 << 23) - WINDOW];

pub fn compare_columns(tally: &mut Tally) {
    for (kind, seed) in each(&RECORD_KINDS, CASES_A_KIND) {
        let record = record(kind, seed);
        let columns = columns(&record);
        for x0 in WINDOWS {
            let mine: Vec<bool> = (x0..x0 + WINDOW)
                .map(|x| columns.contains(&x.into()))
                .collect();
            let theirs = touched(&record, 0, x0, WINDOW);
            let verdict = equal(theirs.as_ref() == Some(&mine), &mine, &theirs);
            tally.add(kind, seed, &(record, x0), verdict);
        }
    }
}

/// The pixels that spline.rs touches when it draws this segment: those whose minus zero does not stay.
/// Of two opposite colours one always adds something else than minus zero.
pub fn touched(segment: &Segment, y: u32, x0: u32, n: u32) -> Option<Vec<bool>> {
    let mut probe = *segment;
    probe[5..].copy_from_slice(&[1.0, -1.0, 1.0]);
    let mut row_starts = vec![0; y as usize + 1];
    row_starts.push(1);
    let table = Table {
        segments: vec![probe],
        row_starts,
        entries: vec![0],
        ..Table::default()
    };
    let blank = || vec![-0.0f32; n as usize];
    let [r0, r1, _] = oracle::draw(&table, y, x0, [blank(), blank(), blank()]).done()?;
    let stays = |x: f32| x.to_bits() == 1 << 31;
    let both = r0.iter().zip(&r1);
    Some(both.map(|(&a, &b)| !stays(a) || !stays(b)).collect())
}
