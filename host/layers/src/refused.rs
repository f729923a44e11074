//! Calls with what no layer takes: the port refuses each with a code, and keeps what was lent.

use crate::exported::{self, refused, Shared, UNFILLED};
use crate::lent::Lent;
use crate::tally::Tally;
use cases::descriptions::build_case;
use cases::segments::along_case;
use cases::{Code, Description};
use model::list::well_shaped;

pub const REFUSED: u64 = 8_000;
pub const OUTCOMES: [&str; 6] = [
    "SHAPE (lengths disagree)",
    "SHAPE (no point to walk from)",
    "SHAPE (no such walk)",
    "POSITION",
    "DELTA",
    "ROOM (2^23 points)",
];

pub fn compare(tally: &mut Tally) {
    for seed in 0..REFUSED / 8 {
        let whole = build_case("fibres", seed).description;
        for damaged in misshapen(&whole) {
            judge(tally, &damaged);
        }
    }
    no_point(tally);
    no_walk(tally);
    out_of_range(tally);
    too_long(tally);
}

/// With a cell less or a cell more in one of the four slices.
fn misshapen(whole: &Description) -> [Description; 8] {
    let mut damaged = [(); 8].map(|()| whole.clone());
    damaged[0].counts.pop();
    damaged[1].counts.push(0);
    damaged[2].starts.pop();
    damaged[3].starts.push(0.0);
    damaged[4].deltas.pop();
    damaged[5].deltas.extend([0, 0]);
    damaged[6].coefficients.pop();
    damaged[7].coefficients.push(0);
    damaged
}

fn judge(tally: &mut Tally, description: &Description) {
    if well_shaped(description) {
        return;
    }
    let shared = Shared {
        adjustment: 0,
        y_to_x: 0.0,
        y_to_b: 1.0,
        limit: u64::MAX,
    };
    tally.case("SHAPE (lengths disagree)");
    let ours = exported::judge(description, &shared);
    tally.equal(description, ours, (Code::Shape as u32, 0, 0));
}

fn no_point(tally: &mut Tally) {
    for path in [&[][..], &[5.0][..]] {
        tally.case("SHAPE (no point to walk from)");
        let mut lent = Lent::new(30);
        let ours = exported::walk(path, lent.lend());
        let expected = refused(Code::Shape);
        let same = ours == expected && lent.holds([].into_iter());
        tally.hold(&path, ours, expected, same);
    }
}

fn no_walk(tally: &mut Tally) {
    for n in [0, 1, (1 << 23) + 1, usize::MAX] {
        tally.case("SHAPE (no such walk)");
        let ours = exported::length_of(n, 0.5);
        tally.equal(&n, ours, (Code::Shape as u32, UNFILLED));
    }
}

/// Starts, deltas and points around 2^23, and double deltas around 2^30.
fn out_of_range(tally: &mut Tally) {
    let edge = 8388608.0;
    let positions: [([f32; 2], &[i32]); 7] = [
        ([edge, 0.0], &[]),
        ([0.0, edge], &[]),
        ([0.0, -edge - 1.0], &[1, 1]),
        ([f32::NAN, 0.0], &[1, 1]),
        ([f32::NEG_INFINITY, 0.0], &[]),
        ([edge - 1.0, 0.0], &[1, 0]),
        ([-5.0, 0.0], &[1 << 22, 0, 1 << 22, 0]),
    ];
    for (start, deltas) in positions {
        tally.case("POSITION");
        curve(tally, start, deltas, Code::Position);
    }
    for double in [1 << 30, -(1 << 30), i32::MIN, i32::MAX] {
        tally.case("DELTA");
        curve(tally, [0.0, 0.0], &[1, 1, 0, double], Code::Delta);
    }
}

fn curve(tally: &mut Tally, start: [f32; 2], deltas: &[i32], code: Code) {
    let mut lent = Lent::new(200);
    let ours = exported::curve(start, deltas, lent.lend());
    let same = ours == refused(code) && lent.holds([].into_iter());
    tally.hold(&(start, deltas), ours, refused(code), same);
}

/// A walk of one point more than any walk has.
fn too_long(tally: &mut Tally) {
    tally.case("ROOM (2^23 points)");
    let mut case = along_case("ordinary", 0);
    case.walk = vec![[0.0, 0.0, 1.0]; (1 << 23) + 1];
    let mut lent = Lent::new(80);
    let ours = exported::add_segments(&case, lent.lend());
    let same = ours == refused(Code::Room) && lent.holds([].into_iter());
    tally.hold(&"2^23 + 1 points", ours, refused(Code::Room), same);
}
