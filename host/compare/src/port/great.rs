//! The few cases at the usual limit of 2^20 points, and one past it.

use cases::lists::{encoded, ListCase, WriteCase};
use cases::random::Random;
use cases::Description;

const USUAL: u32 = 1 << 20;

/// Splines that share these points as evenly as may be.
fn description(splines: u32, points: u32) -> Description {
    let mut r = Random::new("great", u64::from(splines));
    let count = |index: u32| points / splines + u32::from(index < points % splines);
    Description {
        counts: (0..splines).map(count).collect(),
        starts: (0..2 * splines).map(|index| index as f32).collect(),
        deltas: (0..2 * points).map(|_| r.any_i32() >> 1).collect(),
        coefficients: (0..128 * splines).map(|_| r.any_i32()).collect(),
        adjustment: -3,
    }
}

/// Splines, points and pixels: at the limit, one past it by the points, one past it by the pixels, and many splines.
const SIZES: [(u32, u32, u32); 4] = [
    (1, USUAL, u32::MAX),
    (3, USUAL + 1, u32::MAX),
    (2, USUAL, 2 * USUAL - 1),
    (1000, USUAL, 2 * USUAL),
];

pub fn lists() -> Vec<ListCase> {
    let list = |(splines, points, pixels)| ListCase {
        list: encoded(&description(splines, points)),
        configured: USUAL,
        pixels,
    };
    SIZES.map(list).into()
}

/// A trace file of so many points, and one with a byte too few.
pub fn files() -> Vec<Vec<u8>> {
    let mut description = description(3, USUAL);
    for delta in &mut description.deltas {
        *delta %= 1 << 30;
    }
    let file = model::trace_write(&description, u64::MAX).expect("a description that a file holds");
    vec![file[..file.len() - 1].to_vec(), file]
}

pub fn descriptions() -> Vec<WriteCase> {
    let case = |(splines, points, pixels)| WriteCase {
        description: description(splines, points),
        configured: USUAL,
        pixels,
        list_room: u64::MAX,
    };
    SIZES.map(case).into()
}
