//! Dequantizing, one spline at a time, with the judgement of coinciding points.

use crate::tally::Tally;
use crate::verdict::{equal, hold, same_floats, Verdict};
use cases::descriptions::{build_case, BuildCase, KINDS};
use cases::{each, Code, Given};
use model::dequantize::{area_limit, dequantize, splines, Dequantized, Quantized};
use model::list::well_shaped;

const CASES_A_KIND: u64 = 250;

pub fn compare(tally: &mut Tally) {
    for (kind, seed) in each(&KINDS, CASES_A_KIND) {
        let BuildCase { description, given } = build_case(kind, seed);
        if !well_shaped(&description) {
            continue;
        }
        for spline in splines(&description) {
            let verdict = against_oracle(&spline, description.adjustment, &given);
            tally.add(
                kind,
                seed,
                &(spline, description.adjustment, given),
                verdict,
            );
        }
    }
    for last in 2..=4 {
        let deltas = far_and_outside(last);
        let spline = Quantized {
            start: (0.0, 8388607.0),
            deltas: &deltas,
            coefficients: &[0; 128],
        };
        let verdict = against_oracle(&spline, 0, &NOTHING);
        tally.add("far and outside", last as u64, &(spline, NOTHING), verdict);
    }
}

const NOTHING: Given = Given {
    width: 0,
    height: 0,
    y_to_x: 0.0,
    y_to_b: 1.0,
    high_precision: false,
    level10: false,
};

/// To and fro in x, then a last step that leaves the range in y; with 2, 3 and 4 the Manhattan sum is one below, at and one
/// above an empty image's limit.
fn far_and_outside(last: i32) -> [i32; 10] {
    let leg = (1 << 23) - 1;
    [leg, 0, -2 * leg, 0, 2 * leg, 0, -2 * leg, 0, leg + last, 1]
}

fn against_oracle(spline: &Quantized, adjustment: i32, given: &Given) -> Verdict {
    let Given { y_to_x, y_to_b, .. } = *given;
    let limit = area_limit(
        given.level10,
        u64::from(given.width) * u64::from(given.height),
    );
    let mine = dequantize(spline, adjustment, y_to_x, y_to_b, limit);
    if let Err(Code::Delta) = mine {
        return Verdict::Outside(Code::Delta);
    }
    let start = [spline.start.0, spline.start.1];
    let theirs = oracle::dequantize(
        start,
        spline.deltas,
        spline.coefficients,
        adjustment,
        y_to_x,
        y_to_b,
        limit,
    );
    match hold(&mine, &theirs, same_spline) {
        Verdict::Same => coincide(&mine, theirs.done()),
        other => other,
    }
}

fn same_spline(mine: &Dequantized, theirs: &oracle::Dequantized) -> bool {
    let points: Vec<[f32; 2]> = mine
        .points
        .iter()
        .map(|&(x, y)| [x as f32, y as f32])
        .collect();
    same_floats(&points.concat(), &theirs.points.concat())
        && same_floats(&mine.coefficients.concat(), &theirs.rows.concat())
        && mine.estimate == theirs.estimate
}

/// COINCIDE by the model's whole points and by spline.rs's floats.
fn coincide(mine: &Result<Dequantized, Code>, theirs: Option<oracle::Dequantized>) -> Verdict {
    let (Ok(mine), Some(theirs)) = (mine, theirs) else {
        return equal(false, mine, &"not dequantized");
    };
    let pairs = mine.points.windows(2);
    let judged = if pairs.clone().any(|pair| pair[0] == pair[1]) {
        Err(Code::Coincide)
    } else {
        Ok(())
    };
    hold(&judged, &oracle::coincide(&theirs.points), |_, _| true)
}
