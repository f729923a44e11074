//! The curve: paths in buffers with exact room, with more, and without.

use crate::exported::{self, ROOM};
use crate::lent::Lent;
use crate::tally::Tally;
use cases::random::Random;

pub const CURVES: u64 = 50_000;
pub const OUTCOMES: [&str; 7] = [
    "fibres",
    "at the edge",
    "anywhere",
    "short steps, none among them",
    "done",
    "ROOM (one cell short)",
    "ROOM (2^23 points)",
];

const EDGE: i64 = 1 << 23;

/// A start and double deltas with every delta and point in range.
#[derive(Clone, Debug)]
pub struct Control {
    pub start: [i32; 2],
    pub deltas: Vec<i32>,
}

impl Control {
    /// The path in the lent buffer.
    fn curve(&self, path: &mut [f32]) -> exported::Counted {
        exported::curve(self.start.map(|cell| cell as f32), &self.deltas, path)
    }

    /// The control points, which f32 holds exactly.
    pub fn points(&self) -> Vec<[f32; 2]> {
        let (mut point, mut delta) = (self.start, [0; 2]);
        let mut points = vec![point.map(|cell| cell as f32)];
        for pair in self.deltas.chunks_exact(2) {
            for axis in 0..2 {
                delta[axis] += pair[axis];
                point[axis] += delta[axis];
            }
            points.push(point.map(|cell| cell as f32));
        }
        points
    }
}

/// Where the next point may lie.
pub const KINDS: [&str; 4] = [
    "fibres",
    "at the edge",
    "anywhere",
    "short steps, none among them",
];

fn target(r: &mut Random, kind: &str, at: i64) -> i64 {
    match kind {
        "fibres" => at + r.within(-40, 40),
        "at the edge" if at.abs() > EDGE / 2 && r.once_in(2) => at + r.within(-9, 9),
        "at the edge" => r.pick(&[-EDGE, EDGE - 1, 0]) + r.within(-3, 3),
        "anywhere" => r.within(-EDGE, EDGE - 1) >> r.below(24),
        _ => at + r.within(-1, 1),
    }
}

pub fn control(kind: &str, seed: u64) -> Control {
    let r = &mut Random::new(kind, seed);
    let start = [target(r, kind, 0), target(r, kind, 0)].map(|cell| cell.clamp(-EDGE, EDGE - 1));
    let (mut point, mut delta) = (start, [0; 2]);
    let mut deltas = Vec::new();
    for _ in 0..r.below(7) {
        for axis in 0..2 {
            let wanted = target(r, kind, point[axis]).clamp(-EDGE, EDGE - 1);
            let next = (wanted - point[axis]).clamp(-EDGE, EDGE - 1);
            deltas.push((next - delta[axis]) as i32);
            delta[axis] = next;
            point[axis] += next;
        }
    }
    Control {
        start: start.map(|cell| cell as i32),
        deltas,
    }
}

pub fn compare(tally: &mut Tally) {
    for (kind, seed) in cases::each(&KINDS, CURVES / 4) {
        let control = control(kind, seed);
        let Some(path) = oracle::curve(&control.points()).done() else {
            panic!("spline.rs gives no curve of {control:?}");
        };
        tally.case(kind);
        let more = (seed % 5) as usize;
        fits(tally, &control, &path, 2 * path.len() + more);
        short(tally, &control, 2 * path.len() - 1);
    }
    greatest(tally);
}

/// Room for the path: its points, and every other cell as it was.
fn fits(tally: &mut Tally, control: &Control, path: &[[f32; 2]], room: usize) {
    tally.also("done");
    let mut lent = Lent::new(room);
    let count = control.curve(lent.lend());
    let same = count == (0, path.len()) && lent.holds(path.concat().into_iter());
    tally.hold(
        control,
        (count, &lent.lend()[..]),
        ((0, path.len()), &path.concat()),
        same,
    );
}

/// A cell less than the path takes: nothing is written.
fn short(tally: &mut Tally, control: &Control, room: usize) {
    tally.also("ROOM (one cell short)");
    let mut lent = Lent::new(room);
    let count = control.curve(lent.lend());
    let same = count == ROOM && lent.holds([].into_iter());
    tally.hold(
        &(control, room),
        (count, "written"),
        (ROOM, "as it was"),
        same,
    );
}

/// The most double deltas whose path has 2^23 points or fewer, and one more, in a buffer with room for both.
fn greatest(tally: &mut Tally) {
    let most = ((1 << 23) - 1) / 16;
    let room = 2 * (16 * (most + 1) + 1);
    let along = |n: usize| Control {
        start: [0, 0],
        deltas: (0..2 * n).map(|cell| i32::from(cell == 0)).collect(),
    };
    let control = along(most);
    let path = oracle::curve(&control.points()).done().unwrap_or_default();
    tally.case("done");
    let mut lent = Lent::new(room);
    let count = control.curve(lent.lend());
    let same = count == (0, path.len()) && lent.holds(path.concat().into_iter());
    tally.hold(&("points along x", most), count, (0, path.len()), same);
    let control = along(most + 1);
    tally.case("ROOM (2^23 points)");
    let mut lent = Lent::new(room);
    let count = control.curve(lent.lend());
    let same = count == ROOM && lent.holds([].into_iter());
    tally.hold(&("points along x", most + 1), count, ROOM, same);
}
