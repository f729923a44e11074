//! The curve and the walk.

use crate::tally::Tally;
use crate::verdict::{equal, hold, same_floats, Verdict};
use cases::descriptions::{build_case, KINDS};
use cases::random::Random;
use cases::{each, Code};
use model::curve::{curve, Point};
use model::dequantize::judge;
use model::list::well_shaped;
use model::walk::{length, walk};
use oracle::Outcome;

const CASES_A_KIND: u64 = 120;
const HOSTILE_PATHS: u64 = 2_000;

/// Walks longer than this are cut on both sides.
const MOST_STEPS: usize = 50_000;

/// The control points of all splines of a description that is not refused.
fn control_points(kind: &str, seed: u64) -> Vec<Vec<(i64, i64)>> {
    let case = build_case(kind, seed);
    if !well_shaped(&case.description) {
        return Vec::new();
    }
    let judged = judge(&case.description, &case.given).map(|(splines, _)| splines);
    judged
        .unwrap_or_default()
        .into_iter()
        .map(|spline| spline.points)
        .collect()
}

pub fn compare_curve(tally: &mut Tally) {
    for (kind, seed) in each(&KINDS, CASES_A_KIND) {
        for control in control_points(kind, seed) {
            tally.add(kind, seed, &control, curve_against_oracle(&control));
        }
    }
}

fn curve_against_oracle(control: &[(i64, i64)]) -> Verdict {
    let points: Vec<Point> = control.iter().map(|&(x, y)| [x as f32, y as f32]).collect();
    hold(
        &curve(control, u64::MAX),
        &oracle::curve(&points),
        |mine, theirs| same_floats(&mine.concat(), &theirs.concat()),
    )
}

pub fn compare_walk(tally: &mut Tally) {
    for (kind, seed) in each(&KINDS, CASES_A_KIND) {
        for control in control_points(kind, seed) {
            let path = curve(&control, u64::MAX).unwrap_or_default();
            tally.add(kind, seed, &path, walk_against_oracle(&path));
        }
    }
    for seed in 0..HOSTILE_PATHS {
        let path = hostile_path(seed);
        tally.add("hostile", seed, &path, walk_against_oracle(&path));
    }
}

/// A path of any floats: small moves, none, far ones, infinities, NaN.
pub fn hostile_path(seed: u64) -> Vec<Point> {
    let r = &mut Random::new("path", seed);
    let tame = r.once_in(2);
    let mut at = [r.between(-9.0, 9.0), r.between(-9.0, 9.0)];
    let mut path = vec![at];
    for _ in 0..r.below(6) {
        for cell in &mut at {
            *cell += if tame {
                r.pick(&[0.0, 0.25, 0.5, 0.75, 1.0, -1.5, 0.3])
            } else {
                r.any_f32()
            };
        }
        path.push(at);
    }
    path
}

/// A walk that passes the room on one side must pass it on the other.
fn walk_against_oracle(path: &[Point]) -> Verdict {
    let mine = walk(path, MOST_STEPS as u64);
    let theirs = oracle::walk(path, MOST_STEPS);
    match (&mine, &theirs) {
        (Err(Code::Room), Outcome::NoMemory) => Verdict::NoMemory,
        (Ok(steps), Outcome::Done(walked)) => {
            let flat: Vec<[f32; 3]> = steps.iter().map(|&([x, y], m)| [x, y, m]).collect();
            let lengths = walked.is_empty()
                || same_floats(&[length(steps)], &[oracle::length_of_walk(walked)]);
            equal(
                lengths && same_floats(&flat.concat(), &walked.concat()),
                steps,
                walked,
            )
        }
        _ => equal(false, &mine, &theirs),
    }
}
