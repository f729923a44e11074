//! Descriptions with what a build takes beside them, by kind and seed.

use crate::random::Random;
use crate::{Description, Given};

/// What a build is given.
#[derive(Clone, Debug, PartialEq)]
pub struct BuildCase {
    pub description: Description,
    pub given: Given,
}

/// The kinds that are quick enough to be run by the thousand.
pub const KINDS: [&str; 17] = [
    "fibres",
    "crowd",
    "straight",
    "one-point",
    "fractions",
    "sigma",
    "correlations",
    "colours",
    "anything",
    "damaged",
    "coincide",
    "positions",
    "double-deltas",
    "distance",
    "area",
    "area-sum",
    "shape",
];

/// The kinds for the owners of a build alone.
pub const OWNER_KINDS: [&str; 1] = ["skipped"];

/// The kinds of which a few are enough: great images, sizes at the limit, wide fibres and long ones.
pub const SLOW_KINDS: [&str; 4] = ["tall", "size", "wide", "long"];

const EDGE: i64 = 1 << 23;

/// The case of this kind and seed.
pub fn build_case(kind: &str, seed: u64) -> BuildCase {
    let mut random = Random::new(kind, seed);
    let r = &mut random;
    let mut case = BuildCase {
        description: fibres(r, 3, 60),
        given: given(r),
    };
    match kind {
        "fibres" => {}
        "crowd" => case.description = fibres(r, 40, 6),
        "straight" => case.description = straight(r),
        "one-point" => one_points(r, &mut case.description),
        "skipped" => case.description = skipped(r),
        "fractions" => fractions(r, &mut case.description),
        "sigma" => sigma(r, &mut case.description),
        "correlations" => correlations(r, &mut case),
        "colours" => colours(r, &mut case.description),
        "anything" => case.description = anything(r),
        "damaged" => damaged(r, &mut case),
        "coincide" => coincide(r, &mut case.description),
        "positions" => positions(r, &mut case),
        "double-deltas" => double_deltas(r, &mut case.description),
        "distance" => distance(r, &mut case),
        "area" => area(r, &mut case),
        "area-sum" => area_sum(r, &mut case),
        "shape" => shape(r, &mut case.description),
        "tall" => tall(r, &mut case),
        "size" => size(r, &mut case),
        "wide" => wide(r, &mut case),
        "long" => long(r, &mut case),
        _ => panic!("no kind of description is called {kind}"),
    }
    case
}

/// Images of height 0, 1 and small; both levels, both precisions.
fn given(r: &mut Random) -> Given {
    let width = r.pick(&[0, 1, 2, 17, 64, 100, 200]);
    let height = r.pick(&[0, 1, 2, 17, 64, 100, 200]);
    Given {
        width,
        height,
        y_to_x: r.pick(&[0.0, 0.0, 0.25, -0.125]),
        y_to_b: r.pick(&[1.0, 1.0, 0.875, 0.0]),
        high_precision: r.once_in(2),
        level10: r.once_in(2),
    }
}

/// Few points, moderate deltas: what a gauge sees.
fn fibres(r: &mut Random, most_splines: i64, step: i64) -> Description {
    let mut description = Description {
        adjustment: r.within(-4, 8) as i32,
        ..Description::default()
    };
    for _ in 0..r.within(1, most_splines) {
        let start = (r.within(0, 150) as f32, r.within(0, 150) as f32);
        let points = r.within(1, 5);
        let mut deltas = vec![r.within(1, step) as i32, r.within(-step, step) as i32];
        for _ in 1..points {
            deltas.push(r.within(-step / 6, step / 4) as i32);
            deltas.push(r.within(-step / 4, step / 4) as i32);
        }
        push(&mut description, start, &deltas, &ordinary_coefficients(r));
    }
    description
}

/// Adds one spline.
pub fn push(
    description: &mut Description,
    start: (f32, f32),
    deltas: &[i32],
    coefficients: &[i32],
) {
    description.counts.push((deltas.len() / 2) as u32);
    description.starts.extend([start.0, start.1]);
    description.deltas.extend(deltas);
    description.coefficients.extend(coefficients);
}

/// One spline, all coefficients 0 but the first of sigma.
pub fn one_spline(start: [f32; 2], deltas: &[i32], sigma: i32) -> Description {
    let mut coefficients = [0; 128];
    coefficients[96] = sigma;
    let mut description = Description::default();
    push(
        &mut description,
        (start[0], start[1]),
        deltas,
        &coefficients,
    );
    description
}

/// A steady colour and a steady, positive sigma, with little change along the spline.
fn ordinary_coefficients(r: &mut Random) -> Vec<i32> {
    let mut values = vec![0; 128];
    for channel in 0..3 {
        values[32 * channel] = r.within(-200, 200) as i32;
        for i in 1..r.within(2, 6) as usize {
            values[32 * channel + i] = r.within(-30, 30) as i32;
        }
    }
    values[96] = r.within(3, 10) as i32;
    for i in 1..r.within(1, 4) as usize {
        values[96 + i] = r.within(-1, 1) as i32;
    }
    values
}

/// Along an axis, or two whole steps: lengths are whole, so the last multiplier is near 0 and its distance NaN.
fn straight(r: &mut Random) -> Description {
    let mut description = Description::default();
    for _ in 0..r.within(1, 4) {
        let reach = r.pick(&[1, 1, 2, 3, 10, 37]);
        let deltas = r.pick(&[
            [reach, 0, 0, 0],
            [0, reach, 0, 0],
            [0, -reach, 0, 0],
            [-reach, 0, 0, 0],
            [3, 4, 0, 0],
        ]);
        let start = (r.within(-5, 60) as f32, r.within(-5, 60) as f32);
        let pairs = 2 * r.within(1, 2) as usize;
        push(
            &mut description,
            start,
            &deltas[..pairs],
            &ordinary_coefficients(r),
        );
    }
    description
}

/// Splines without a double delta among the others.
fn one_points(r: &mut Random, description: &mut Description) {
    if r.once_in(3) {
        *description = Description::default();
    }
    for _ in 0..r.within(1, 3) {
        let start = (r.within(-9, 90) as f32, r.within(-9, 90) as f32);
        push(description, start, &[], &ordinary_coefficients(r));
    }
}

/// Short splines; before, between and after them some of one point, and some without a sigma: neither have segments.
fn skipped(r: &mut Random) -> Description {
    let mut description = Description::default();
    for _ in 0..r.within(1, 7) {
        let start = (r.within(0, 40) as f32, r.within(0, 40) as f32);
        let deltas = [r.within(1, 6) as i32, r.within(-6, 6) as i32];
        let points = r.pick(&[0, 1, 1]);
        let mut coefficients = ordinary_coefficients(r);
        if r.once_in(4) {
            coefficients[96..].fill(0);
        }
        push(
            &mut description,
            start,
            &deltas[..2 * points],
            &coefficients,
        );
    }
    description
}

/// Starts that are to be rounded: halves on both sides, minus zero, numbers just below a half.
fn fractions(r: &mut Random, description: &mut Description) {
    for start in &mut description.starts {
        *start = match r.below(4) {
            0 => r.within(-20, 20) as f32 + 0.5,
            1 => r.pick(&[-0.0, 0.49999997, -0.49999997, 0.5, -0.5, 1e-45, 8.499999]),
            2 => r.between(-30.0, 30.0),
            _ => *start,
        };
    }
}

/// Zero, negative, changing and great sigma.
fn sigma(r: &mut Random, description: &mut Description) {
    let kind = r.below(5);
    for values in description.coefficients.chunks_mut(128) {
        let sigma = &mut values[96..];
        match kind {
            0 => sigma.fill(0),
            1 => sigma[0] = -sigma[0],
            2 => sigma[1] = r.within(-40, 40) as i32,
            3 => sigma[0] = r.within(0, 300) as i32,
            _ => sigma
                .iter_mut()
                .for_each(|value| *value = r.within(-3, 3) as i32),
        }
    }
}

/// Correlations of any size, infinite and NaN too.
fn correlations(r: &mut Random, case: &mut BuildCase) {
    case.given.y_to_x = r.any_f32();
    case.given.y_to_b = r.any_f32();
    if r.once_in(3) {
        colours(r, &mut case.description);
    }
}

/// Colours of every size, with adjustments of every size; sigma stays moderate, so that the area allows them.
fn colours(r: &mut Random, description: &mut Description) {
    description.adjustment = match r.below(4) {
        0 => r.any_i32(),
        1 => r.pick(&[i32::MIN, i32::MAX, -8, 8]),
        _ => r.within(-8, 8) as i32,
    };
    let extreme = r.once_in(2);
    for values in description.coefficients.chunks_mut(128) {
        for value in &mut values[..96] {
            *value = if extreme && r.once_in(4) {
                r.pick(&[i32::MIN, i32::MAX, 1 << 24])
            } else {
                r.any_i32()
            };
        }
    }
}

/// Any numbers at all, in the right shape.
fn anything(r: &mut Random) -> Description {
    let mut description = Description {
        adjustment: r.any_i32(),
        ..Description::default()
    };
    for _ in 0..r.within(0, 3) {
        let start = (r.any_f32(), r.any_f32());
        let deltas: Vec<i32> = (0..2 * r.within(0, 3)).map(|_| r.any_i32() >> 18).collect();
        let scale = r.pick(&[0, 16, 28]);
        let coefficients: Vec<i32> = (0..128).map(|_| r.any_i32() >> scale).collect();
        push(&mut description, start, &deltas, &coefficients);
    }
    description
}

/// One number of some fibres replaced by another of any size.
fn damaged(r: &mut Random, case: &mut BuildCase) {
    let description = &mut case.description;
    let place = r.next() as usize;
    // Deltas stay short, or pass every limit, so that no fibre is millions of steps long.
    let delta = if r.once_in(2) {
        r.any_i32() >> 18
    } else {
        r.any_i32() | 1 << 24
    };
    match r.below(5) {
        0 => description.starts[place % 2] = r.any_f32(),
        1 => description.deltas[place % 2] = delta,
        2 => description.coefficients[place % 128] = r.any_i32(),
        3 => description.coefficients[place % 128] = r.any_i32() >> 16,
        _ => description.adjustment = r.any_i32(),
    }
}

/// A point that equals the one before, or misses it by one.
fn coincide(r: &mut Random, description: &mut Description) {
    let first = (r.within(-3, 3) as i32, r.within(-3, 3) as i32);
    let miss = r.pick(&[(0, 0), (0, 0), (1, 0), (0, -1)]);
    let deltas = [first.0, first.1, miss.0 - first.0, miss.1 - first.1];
    let start = (r.within(0, 50) as f32, r.within(0, 50) as f32);
    push(description, start, &deltas, &ordinary_coefficients(r));
}

/// Starts, deltas and points one inside, at and one outside of ±2^23, and what no position is.
fn positions(r: &mut Random, case: &mut BuildCase) {
    let near = |r: &mut Random| r.pick(&[-EDGE, EDGE]) + r.within(-3, 3);
    let mut start = [r.within(-9, 90) as f32, r.within(-9, 90) as f32];
    let mut deltas = [
        r.within(1, 9),
        r.within(-9, 9),
        r.within(-4, 4),
        r.within(-4, 4),
    ];
    let axis = r.below(2) as usize;
    match r.below(4) {
        // A start at the edge, or none.
        0 => start[axis] = r.any_f32(),
        1 => start[axis] = near(r) as f32 + r.pick(&[0.0, 0.5, -0.5]),
        // A delta at the edge: the start stands so that the point may lie inside.
        2 => {
            deltas[axis] = near(r);
            start[axis] = (-deltas[axis].signum() * r.pick(&[1, 4, EDGE - 1])) as f32;
        }
        // A point at the edge.
        _ => start[axis] = (near(r) - deltas[axis]) as f32,
    }
    // A fibre of millions of steps takes long to draw, so it gets an estimate that is refused.
    let long = deltas[axis].abs() > 1 << 16;
    let mut coefficients = ordinary_coefficients(r);
    if long {
        coefficients[96..].fill(9);
        case.given.level10 = false;
    }
    let deltas = deltas.map(|delta| delta as i32);
    push(
        &mut case.description,
        (start[0], start[1]),
        &deltas,
        &coefficients,
    );
}

/// Double deltas one below, at and one above 2^30.
fn double_deltas(r: &mut Random, description: &mut Description) {
    let near = (1i64 << 30) + r.within(-1, 1);
    let value = r.pick(&[near, -near, i64::from(i32::MIN), i64::from(i32::MAX)]) as i32;
    let place = r.below(description.deltas.len() as u64) as usize;
    description.deltas[place] = value;
}

/// Manhattan sums one below, at and one above the limit of a small image.
fn distance(r: &mut Random, case: &mut BuildCase) {
    let area = i64::from(case.given.width) * i64::from(case.given.height);
    case.given.level10 = r.once_in(4);
    let limit = if case.given.level10 {
        1024 * area + (1 << 32)
    } else {
        8 * area + (1 << 25)
    };
    // There and back along x; the last leg carries what is left.
    let mut left = limit + r.within(-1, 1);
    let (mut delta, mut sign) = (0, 1);
    let mut deltas = Vec::new();
    while left > 0 {
        let next = sign * left.min(EDGE - 1);
        deltas.extend([(next - delta) as i32, 0]);
        (delta, sign, left) = (next, -sign, left - next.abs());
    }
    push(
        &mut case.description,
        (0.0, 3.0),
        &deltas,
        &ordinary_coefficients(r),
    );
}

/// One fibre of one step whose estimate is the area limit, or misses it by little.
fn area(r: &mut Random, case: &mut BuildCase) {
    // With k in all 32 places the estimate is 32·k²: the area is chosen so that this is the limit.
    case.given.level10 = r.once_in(4);
    let (k, area, height) = if case.given.level10 {
        let k = 11592 + 8 * r.within(0, 8);
        (k, (k * k - (1 << 27)) / 32, 2)
    } else {
        let k = 1024 + r.within(0, 8);
        (k, 4 * (k * k - (1 << 20)), 4)
    };
    (case.given.width, case.given.height) = ((area / height) as u32, height as u32);
    (case.given.y_to_x, case.given.y_to_b) = (0.0, 1.0);
    let mut coefficients = vec![0; 128];
    coefficients[32] = r.within(0, 1) as i32;
    coefficients[96..].fill(k as i32);
    let place = 96 + r.below(32) as usize;
    coefficients[place] += r.within(-1, 1) as i32;
    let deltas = r.pick(&[[1, 0], [0, 1], [0, -1], [-1, 0]]);
    case.description = Description::default();
    push(&mut case.description, (5.0, 2.0), &deltas, &coefficients);
}

/// Several fibres that pass the area limit only in sum.
fn area_sum(r: &mut Random, case: &mut BuildCase) {
    case.given.level10 = false;
    for values in case.description.coefficients.chunks_mut(128) {
        values[96..].fill(0);
        values[96] = r.within(20, 90) as i32;
    }
    for _ in 0..r.within(1, 4) {
        let mut coefficients = ordinary_coefficients(r);
        coefficients[96 + 31] = r.within(200, 700) as i32;
        push(
            &mut case.description,
            (r.within(0, 60) as f32, 9.0),
            &[r.within(1, 5) as i32, 2],
            &coefficients,
        );
    }
}

/// A length that disagrees.
fn shape(r: &mut Random, description: &mut Description) {
    let more = r.once_in(2);
    match r.below(5) {
        0 => {
            description.counts[0] =
                description.counts[0].wrapping_add(r.pick(&[1, u32::MAX, 1 << 31]))
        }
        1 if more => description.starts.push(1.0),
        1 => description.starts.truncate(description.starts.len() - 1),
        2 if more => description.deltas.extend([1, 1]),
        2 => description.deltas.truncate(description.deltas.len() - 1),
        3 if more => description.coefficients.push(0),
        3 => description
            .coefficients
            .truncate(description.coefficients.len() - 1),
        _ => description.counts.push(r.pick(&[0, u32::MAX])),
    }
}

/// Images as tall or as wide as any may be.
fn tall(r: &mut Random, case: &mut BuildCase) {
    let great = r.pick(&[1 << 23, (1 << 23) - 1]);
    case.given.width = r.pick(&[0, 1, 100, great]);
    case.given.height = great;
    if r.once_in(2) {
        let start = (9.0, (EDGE - r.within(1, 40)) as f32);
        push(
            &mut case.description,
            start,
            &[3, -2],
            &ordinary_coefficients(r),
        );
    }
}

/// Width and height one below, at and one above 2^23, and past all reason.
fn size(r: &mut Random, case: &mut BuildCase) {
    let near = (1u32 << 23) - 1 + r.below(3) as u32;
    let value = r.pick(&[near, near, u32::MAX]);
    if r.once_in(2) {
        case.given.width = value;
    } else {
        case.given.height = value;
    }
}

/// A sigma of tens of thousands: distances far past the image, up to what no memory holds.
fn wide(r: &mut Random, case: &mut BuildCase) {
    case.given.level10 = true;
    (case.given.width, case.given.height) = (r.pick(&[1 << 23, 100]), r.pick(&[1, 1000]));
    let mut coefficients = ordinary_coefficients(r);
    coefficients[96] = r.pick(&[1 << 12, 1 << 14, 1 << 18]);
    case.description = Description::default();
    push(
        &mut case.description,
        (5.0, 2.0),
        &[1, r.within(0, 2) as i32],
        &coefficients,
    );
}

/// A fibre of a hundred thousand steps, or of as many as the area limit allows.
fn long(r: &mut Random, case: &mut BuildCase) {
    case.given.level10 = r.once_in(4);
    let reach = r.pick(&[100_000, 1 << 17, (1 << 20) - 1, 1 << 20]);
    let mut coefficients = vec![0; 128];
    coefficients[96] = 1;
    coefficients[32] = r.within(0, 1) as i32;
    let start = (-(reach as f32) / 2.0, r.within(0, 20) as f32);
    case.description = Description::default();
    push(&mut case.description, start, &[reach, 0], &coefficients);
}
