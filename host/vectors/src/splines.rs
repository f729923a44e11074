//! One spline: dequantized, its curve, its walk.

use crate::frame::Case;
use crate::{kinds, words};
use cases::descriptions::{build_case, BuildCase, KINDS};
use cases::each;
use oracle::{Dequantized, Outcome};

/// Descriptions of strange shapes are no splines.
const NO_SPLINES: [&str; 1] = ["shape"];
const MOST_POINTS: usize = 9;
const MOST_STEPS: usize = 90;

/// The first spline of a description that has one.
fn first_spline(case: &BuildCase) -> Option<(Vec<u32>, Outcome<Dequantized>)> {
    let (description, given) = (&case.description, &case.given);
    let count = *description.counts.first()? as usize;
    let start = description.starts.get(..2)?;
    let deltas = description.deltas.get(..2 * count)?;
    let coefficients = description.coefficients.get(..128)?;
    let area = u64::from(given.width) * u64::from(given.height);
    let limit = oracle::spline_area_limit(given.level10, area);
    let outcome = oracle::dequantize(
        [start[0], start[1]],
        deltas,
        coefficients,
        description.adjustment,
        given.y_to_x,
        given.y_to_b,
        limit,
    );
    let mut input = words::halves(limit);
    input.push(description.adjustment as u32);
    input.extend(words::floats(&[
        given.y_to_x,
        given.y_to_b,
        start[0],
        start[1],
    ]));
    input.push(count as u32);
    input.extend(words::signed(deltas));
    input.extend(words::signed(coefficients));
    Some((input, outcome))
}

fn dequantized(spline: &Dequantized) -> Vec<u32> {
    let mut output = vec![0, spline.points.len() as u32];
    output.extend(words::floats(&spline.points.concat()));
    output.extend(words::floats(&spline.rows.concat()));
    output.extend(words::halves(spline.estimate));
    output.push(u32::from(
        oracle::coincide(&spline.points) != Outcome::Done(()),
    ));
    output
}

/// The curve of these points, and the walk along it where it is short.
fn drawn(points: &[[f32; 2]], curves: &mut Vec<Case>, walks: &mut Vec<Case>) {
    let Outcome::Done(path) = oracle::curve(points) else {
        return;
    };
    let flat = words::floats(&path.concat());
    curves.push(Case {
        kind: kinds::CURVE,
        input: words::floats(&points.concat()),
        output: flat,
    });
    walked(&path, walks);
}

fn walked(path: &[[f32; 2]], walks: &mut Vec<Case>) {
    if let Outcome::Done(walk) = oracle::walk(path, MOST_STEPS) {
        let output = words::floats(&walk.concat());
        walks.push(Case {
            kind: kinds::WALK,
            input: words::floats(&path.concat()),
            output,
        });
    }
}

pub fn cases(seeds: u64) -> Vec<Case> {
    let (mut dequantizes, mut curves, mut walks) = (Vec::new(), Vec::new(), Vec::new());
    for path in [
        &[[0.0, 0.0], [2.5, 0.0]][..],
        &[[0.0, 0.0], [1.0, 0.0]],
        &[[3.0, 4.0]],
    ] {
        walked(path, &mut walks);
    }
    for (kind, seed) in each(&KINDS, seeds).filter(|(kind, _)| !NO_SPLINES.contains(kind)) {
        let Some((input, outcome)) = first_spline(&build_case(kind, seed)) else {
            continue;
        };
        let output = match &outcome {
            Outcome::Done(spline) if spline.points.len() > MOST_POINTS => continue,
            Outcome::Done(spline) => dequantized(spline),
            Outcome::Refused(why) => vec![oracle::code_of(*why) as u32],
            Outcome::Panicked(_) | Outcome::NoMemory => continue,
        };
        dequantizes.push(Case {
            kind: kinds::DEQUANTIZE,
            input,
            output,
        });
        if let Outcome::Done(spline) = outcome {
            if oracle::coincide(&spline.points) == Outcome::Done(()) {
                drawn(&spline.points, &mut curves, &mut walks);
            }
        }
    }
    [dequantizes, curves, walks].into_iter().flatten().collect()
}
