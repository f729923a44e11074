//! Document 01's readings that concern these layers, run on the port: those without a star, and the others beside them.

use crate::exported::{self, Shared};
use crate::tally::Tally;
use cases::descriptions::push;
use cases::segments::SegmentCase;
use cases::{Code, Description};

pub const READINGS: u64 = 16;
pub const OUTCOMES: [&str; 2] = ["starred", "to be run"];

pub fn compare(tally: &mut Tally) {
    starred(tally);
    walks(tally);
    refusals(tally);
}

fn starred(tally: &mut Tally) {
    for (area, limit) in [
        (0, 33554432),
        (130023423, 1073741816),
        (130023424, 1073741824),
    ] {
        tally.case("starred");
        let ours = exported::spline_area_limit(false, area);
        tally.equal(&("Level5 area", area), ours, limit);
    }
    for (adjustment, quant) in [(8, 0.5), (-8, 2.0)] {
        tally.case("starred");
        let ours = exported::inv_adjusted_quant(adjustment);
        tally.equal(&("adjustment", adjustment), ours, quant);
    }
    let at = |x: f32, y: f32, d: f32| [x, y, d, 1.0, 1.0, 1.0, 1.0, 1.0];
    for (y, d, rows) in [(5.0, 2.5, 3..9), (-5.0, 2.0, 0..0), (5.0, f32::NAN, 0..1)] {
        tally.case("starred");
        tally.equal(&("rows of", y, d), exported::rows(&at(9.0, y, d)), rows);
    }
    for (x, d) in [(-5.0, 2.0), (5.0, f32::NAN)] {
        tally.case("starred");
        tally.equal(
            &("columns of", x, d),
            exported::columns(&at(x, 9.0, d)),
            0..1,
        );
    }
}

/// The multipliers of a walk, and its length.
fn walked(path: &[f32]) -> (Vec<f32>, f32) {
    let mut walk = [9.0; 30];
    let (_, count) = exported::walk(path, &mut walk);
    let multipliers: Vec<f32> = walk.chunks(3).take(count).map(|point| point[2]).collect();
    let (_, length) = exported::length_of(count, multipliers.last().copied().unwrap_or(-1.0));
    (multipliers, length)
}

fn walks(tally: &mut Tally) {
    let cases: [(&[f32], &[f32], f32); 3] = [
        (&[0.0, 0.0, 2.5, 0.0], &[1.0, 1.0, 1.0, 0.5], 2.5),
        (&[0.0, 0.0, 1.0, 0.0], &[1.0, 1.0, 0.0], 1.0),
        (&[4.0, 4.0], &[1.0, 0.0], 0.0),
    ];
    for (path, multipliers, length) in cases {
        tally.case("to be run");
        tally.equal(
            &("path", path),
            walked(path),
            (multipliers.to_vec(), length),
        );
    }
    tally.case("to be run");
    let (made, segment) = exported::add_segment(&SegmentCase {
        center: [1.0, 0.0],
        multiplier: 0.0,
        colors: [1.0; 3],
        sigma: 1.0,
        high_precision: false,
    });
    tally.equal(
        &"a multiplier of 0",
        (made, segment[2].is_nan()),
        (true, true),
    );
}

/// The code's number and the place of one spline with all coefficients 0.
fn judged(start: f32, deltas: &[i32]) -> (u32, usize, u64) {
    let mut description = Description::default();
    push(&mut description, (start, 0.0), deltas, &[0; 128]);
    let shared = Shared {
        adjustment: 0,
        y_to_x: 0.0,
        y_to_b: 1.0,
        limit: exported::spline_area_limit(false, 1),
    };
    exported::judge(&description, &shared)
}

fn refusals(tally: &mut Tally) {
    let coincide = (Code::Coincide as u32, 0, 0);
    tally.case("to be run");
    tally.equal(
        &"double deltas (1,0),(-1,0)",
        judged(0.0, &[1, 0, -1, 0]),
        coincide,
    );
    let position = (Code::Position as u32, 0, 0);
    tally.case("to be run");
    tally.equal(
        &"start 8388607 then delta 1",
        judged(8388607.0, &[1, 0]),
        position,
    );
}
