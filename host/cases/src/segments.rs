//! Single segments: what one is made from, and finished records, by kind and seed.

use crate::random::Random;
use crate::Segment;

/// What one segment is made from.
#[derive(Clone, Copy, Debug, PartialEq)]
pub struct SegmentCase {
    pub center: [f32; 2],
    pub multiplier: f32,
    pub colors: [f32; 3],
    pub sigma: f32,
    pub high_precision: bool,
}

pub const MAKING_KINDS: [&str; 4] = ["ordinary", "edges", "far", "hostile"];
pub const RECORD_KINDS: [&str; 4] = ["ordinary", "halves", "far", "hostile"];

/// What a segment of this kind and seed is made from.
pub fn segment_case(kind: &str, seed: u64) -> SegmentCase {
    let mut random = Random::new(kind, seed);
    let r = &mut random;
    let mut case = SegmentCase {
        center: [r.between(-9.0, 90.0), r.between(-9.0, 90.0)],
        multiplier: r.pick(&[1.0, 1.0, 0.5, 0.0]),
        colors: [
            r.between(-2.0, 2.0),
            r.between(-2.0, 2.0),
            r.between(-2.0, 2.0),
        ],
        sigma: r.between(0.3, 4.0),
        high_precision: r.once_in(2),
    };
    match kind {
        "ordinary" => {}
        "edges" => edges(r, &mut case),
        "far" => case.center = [far_number(r), far_number(r)],
        "hostile" => hostile(r, &mut case),
        _ => panic!("no kind of segment is called {kind}"),
    }
    case
}

/// One number out of the ordinary: sigma zero, negative or with an infinite inverse, a tiny last multiplier.
fn edges(r: &mut Random, case: &mut SegmentCase) {
    // The inverse of 2^-128 is infinite, that of the next number is not.
    let smallest = f32::from_bits((0x0020_0000 + r.within(-1, 1)) as u32);
    match r.below(5) {
        0 => {
            case.sigma = r.pick(&[
                0.0,
                -0.0,
                smallest,
                -smallest,
                f32::INFINITY,
                f32::NAN,
                f32::MAX,
            ])
        }
        1 => case.sigma = -case.sigma,
        2 => {
            case.multiplier = r.pick(&[1e-7, 1e-5, 0.09, 0.1, 0.11, -1.0, f32::INFINITY, f32::NAN])
        }
        3 => case.colors[r.below(3) as usize] = r.any_f32(),
        _ => case.center[r.below(2) as usize] = r.any_f32(),
    }
}

/// Every number of any kind.
fn hostile(r: &mut Random, case: &mut SegmentCase) {
    case.center = [r.any_f32(), r.any_f32()];
    case.colors = [r.any_f32(), r.any_f32(), r.any_f32()];
    case.sigma = r.any_f32();
    if r.once_in(2) {
        case.multiplier = r.any_f32();
    }
}

/// The coefficients of one spline and a walk for them.
#[derive(Clone, Debug, PartialEq)]
pub struct AlongCase {
    pub coefficients: [[f32; 32]; 4],
    /// x, y and multiplier of each step.
    pub walk: Vec<[f32; 3]>,
    pub length: f32,
    pub high_precision: bool,
}

pub const ALONG_KINDS: [&str; 2] = ["ordinary", "hostile"];

/// A spline of this kind and seed with some steps; the length need not be theirs.
pub fn along_case(kind: &str, seed: u64) -> AlongCase {
    let mut random = Random::new(kind, seed);
    let r = &mut random;
    let number = |r: &mut Random| match kind {
        "ordinary" => r.between(-2.0, 2.0),
        "hostile" => r.any_f32(),
        _ => panic!("no kind of spline is called {kind}"),
    };
    let mut coefficients = [[0.0; 32]; 4];
    for row in &mut coefficients {
        let used = r.within(1, 32) as usize;
        row[..used].fill_with(|| number(r));
    }
    let steps = r.below(6);
    AlongCase {
        coefficients,
        walk: (0..steps)
            .map(|_| [number(r), number(r), number(r)])
            .collect(),
        length: r.pick(&[1.0, 2.5, 4.75, 1e-44, f32::INFINITY, f32::NAN]),
        high_precision: r.once_in(2),
    }
}

/// A finished record of this kind and seed.
pub fn record(kind: &str, seed: u64) -> Segment {
    let mut random = Random::new(kind, seed);
    let r = &mut random;
    let mut record = ordinary_record(r);
    match kind {
        "ordinary" => {}
        "halves" => halves(r, &mut record),
        "far" => far(r, &mut record),
        "hostile" => record = record.map(|_| r.any_f32()),
        _ => panic!("no kind of record is called {kind}"),
    }
    record
}

/// A segment as a build makes it, near a small image.
pub fn ordinary_record(r: &mut Random) -> Segment {
    let sigma = r.between(0.3, 4.0);
    let center = [r.between(-9.0, 90.0), r.between(-9.0, 90.0)];
    let colors = [
        r.between(-2.0, 2.0),
        r.between(-2.0, 2.0),
        r.between(-2.0, 2.0),
    ];
    let distance = if r.once_in(20) {
        f32::NAN
    } else {
        sigma * r.between(2.0, 4.0)
    };
    [
        center[0],
        center[1],
        distance,
        1.0 / sigma,
        0.25 * sigma,
        colors[0],
        colors[1],
        colors[2],
    ]
}

/// Centres and distances whose sum or difference is a half, or a neighbour of one.
fn halves(r: &mut Random, record: &mut Segment) {
    for cell in &mut record[..3] {
        let half = r.within(-20, 40) as f32 / r.pick(&[2.0, 4.0]);
        let near = half.to_bits().wrapping_add(r.within(-1, 1) as u32);
        *cell = if half == 0.0 {
            half
        } else {
            f32::from_bits(near)
        };
    }
}

/// Ends near 2^23, 2^24, 2^31, 2^63 and 2^64, and past them.
fn far(r: &mut Random, record: &mut Segment) {
    let far = far_number(r);
    match r.below(3) {
        0 => record[2] = far.abs(),
        1 => record[r.below(2) as usize] = far,
        _ => (record[0], record[1], record[2]) = (far / 2.0, far / 2.0, far / 2.0),
    }
}

/// A number near one of the powers of two that rows and columns care about.
fn far_number(r: &mut Random) -> f32 {
    let power = r.pick(&[22, 23, 24, 31, 32, 62, 63, 64, 65, 100, 127]);
    let bits = 2f32
        .powi(power)
        .to_bits()
        .wrapping_add(r.within(-2, 2) as u32);
    f32::from_bits(bits) * r.pick(&[1.0, 1.0, -1.0])
}
