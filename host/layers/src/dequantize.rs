//! Dequantizing: single splines with their control points, and the judging of whole descriptions.

use crate::expected::{by_rust, Refused};
use crate::exported::{self, Shared};
use crate::tally::Tally;
use cases::descriptions::{build_case, BuildCase, KINDS};
use cases::{each, Code};
use compare::verdict::same_floats;
use model::dequantize::{splines, Quantized};
use model::list::well_shaped;
use oracle::Outcome;

const CASES_A_KIND: u64 = 4_000;

pub const SPLINES: u64 = 200_000;
pub const SPLINE_OUTCOMES: [&str; 6] = [
    "done",
    "adjacent points coincide",
    "DELTA (by the second reading)",
    "POSITION",
    "POSITION (the Rust panics)",
    "DISTANCE",
];

pub const DESCRIPTIONS: u64 = 50_000;
pub const DESCRIPTION_OUTCOMES: [&str; 8] = [
    "done",
    "refused after other splines",
    "DELTA (by the second reading)",
    "POSITION",
    "POSITION (the Rust panics)",
    "DISTANCE",
    "AREA",
    "COINCIDE",
];

/// All descriptions whose lengths agree: any other is refused before this layer.
fn descriptions() -> impl Iterator<Item = (BuildCase, Shared)> {
    each(&KINDS, CASES_A_KIND)
        .map(|(kind, seed)| build_case(kind, seed))
        .filter(|case| well_shaped(&case.description))
        .map(|case| {
            let area = u64::from(case.given.width) * u64::from(case.given.height);
            let shared = Shared {
                adjustment: case.description.adjustment,
                y_to_x: case.given.y_to_x,
                y_to_b: case.given.y_to_b,
                limit: oracle::spline_area_limit(case.given.level10, area),
            };
            (case, shared)
        })
}

pub fn compare_splines(tally: &mut Tally) {
    for (case, shared) in descriptions() {
        for spline in splines(&case.description) {
            match expected_spline(&spline, &shared) {
                Ok(theirs) => taken(tally, &spline, &shared, &theirs),
                Err(refused) => refuses(tally, &spline, &shared, refused),
            }
        }
    }
}

fn expected_spline(spline: &Quantized, shared: &Shared) -> Result<oracle::Dequantized, Refused> {
    let Shared {
        adjustment,
        y_to_x,
        y_to_b,
        limit,
    } = *shared;
    let second = model::dequantize::dequantize(spline, adjustment, y_to_x, y_to_b, limit).err();
    if second == Some(Code::Delta) {
        return Err(Refused::DELTA);
    }
    let outcome = oracle::dequantize(
        [spline.start.0, spline.start.1],
        spline.deltas,
        spline.coefficients,
        adjustment,
        y_to_x,
        y_to_b,
        limit,
    );
    by_rust(outcome, second)
}

fn taken(tally: &mut Tally, spline: &Quantized, shared: &Shared, theirs: &oracle::Dequantized) {
    let coincide = oracle::coincide(&theirs.points) != Outcome::Done(());
    tally.case("done");
    if coincide {
        tally.also("adjacent points coincide");
    }
    let ours = exported::dequantize(spline, shared);
    let same = ours.number == 0
        && same_floats(&ours.rows.concat(), &theirs.rows.concat())
        && ours.estimate == theirs.estimate
        && ours.coincide == coincide;
    let expected = exported::Dequantized {
        number: 0,
        rows: theirs.rows,
        estimate: theirs.estimate,
        coincide,
    };
    tally.hold(&(spline, shared), ours, expected, same);
    control_points(tally, spline, shared, &theirs.points);
}

/// The port keeps no control points: each is the last one after fewer double deltas. Of many, some sixteen are looked at.
fn control_points(tally: &mut Tally, spline: &Quantized, shared: &Shared, points: &[[f32; 2]]) {
    let mut manhattan = 0;
    for (k, point) in points.iter().enumerate() {
        let before = points[k.saturating_sub(1)];
        manhattan += (0..2)
            .map(|axis| (point[axis] - before[axis]).abs() as u64)
            .sum::<u64>();
        if k % (points.len() / 16 + 1) == 0 || k + 1 == points.len() {
            let ours = exported::trace(spline.start, &spline.deltas[..2 * k], shared.limit);
            let expected = (0, point.map(|cell| cell as i32), manhattan);
            tally.equal(&("control point", k, spline, shared), ours, expected);
        }
    }
}

/// A refusal leaves zeros.
fn refuses(tally: &mut Tally, spline: &Quantized, shared: &Shared, refused: Refused) {
    tally.case(refused.outcome());
    let number = refused.code as u32;
    let ours = exported::dequantize(spline, shared);
    let zero = ours.rows.iter().flatten().all(|cell| cell.to_bits() == 0);
    let same = ours.number == number && zero && ours.estimate == 0 && !ours.coincide;
    let expected = exported::Dequantized {
        number,
        rows: [[0.0; 32]; 4],
        estimate: 0,
        coincide: false,
    };
    tally.hold(&(spline, shared), ours, expected, same);
    let traced = exported::trace(spline.start, spline.deltas, shared.limit);
    tally.equal(&("trace", spline, shared), traced, (number, [0, 0], 0));
}

pub fn compare_descriptions(tally: &mut Tally) {
    for (case, shared) in descriptions() {
        let expected = match expected_judgement(&case) {
            Ok(total) => {
                tally.case("done");
                (0, 0, total)
            }
            Err((place, refused)) => {
                tally.case(refused.outcome());
                if place > 0 {
                    tally.also("refused after other splines");
                }
                (refused.code as u32, place, 0)
            }
        };
        let ours = exported::judge(&case.description, &shared);
        tally.equal(&case, ours, expected);
    }
}

fn expected_judgement(case: &BuildCase) -> Result<u64, (usize, Refused)> {
    let second = model::dequantize::judge(&case.description, &case.given).err();
    if let Some(refusal) = second.filter(|refusal| refusal.code == Code::Delta) {
        return Err((refusal.place as usize, Refused::DELTA));
    }
    oracle::judged(&case.description, &case.given).map_err(|(place, outcome)| {
        let code = second.map(|refusal| refusal.code);
        let refused = by_rust(outcome, code).expect_err("it is refused");
        (place, refused)
    })
}
