//! The walk: along curves, hostile paths, paths near 2^23 and beyond; in buffers with exact room, with more, and without.

use crate::curve;
use crate::exported::{self, ROOM};
use crate::lent::Lent;
use crate::tally::Tally;
use cases::bits;
use cases::random::Random;
use compare::curve::hostile_path;
use oracle::Outcome;

pub const WALKS: u64 = 50_000;
pub const OUTCOMES: [&str; 8] = [
    "along a curve",
    "hostile",
    "near 2^23",
    "near 2^24",
    "done",
    "ROOM (one point short)",
    "ROOM (no end in sight)",
    "ROOM (2^23 points)",
];

/// The most points that a walk may have.
const MOST: usize = 1 << 23;

/// Walks longer than this are not walked to their end here, whether they have one or not.
const ENOUGH: usize = 1_000;

const KINDS: [&str; 4] = ["along a curve", "hostile", "near 2^23", "near 2^24"];

type Path = Vec<[f32; 2]>;

pub fn compare(tally: &mut Tally) {
    for (kind, seed) in cases::each(&KINDS, WALKS / 4) {
        let path = match kind {
            "along a curve" => {
                let control = curve::control("fibres", seed);
                oracle::curve(&control.points()).done().unwrap_or_default()
            }
            "hostile" => hostile_path(seed),
            "near 2^23" => near(kind, seed, 8388608.0),
            _ => near(kind, seed, 16777216.0),
        };
        tally.case(kind);
        walks(tally, &path);
    }
    greatest(tally);
}

/// Short moves around a great number of either sign, where a step may round away.
fn near(kind: &str, seed: u64, great: f32) -> Path {
    let r = &mut Random::new(kind, seed);
    let corner = [
        great * r.pick(&[1.0, -1.0]),
        r.pick(&[great, -great, 0.0, 5.5]),
    ];
    let points = r.within(1, 5);
    (0..points)
        .map(|_| corner.map(|cell| cell + r.within(-24, 24) as f32 / r.pick(&[1.0, 2.0, 8.0])))
        .collect()
}

fn walks(tally: &mut Tally, path: &Path) {
    match oracle::walk(path, ENOUGH) {
        Outcome::Done(walk) => {
            fits(tally, path, &walk, 3 * walk.len() + path.len() % 5);
            short(tally, path, 3 * walk.len() - 1);
            let last = walk[walk.len() - 1][2];
            let (number, ours) = exported::length_of(walk.len(), last);
            let expected = oracle::length_of_walk(&walk);
            let same = number == 0 && bits(ours) == bits(expected);
            tally.hold(path, (number, ours), (0, expected), same);
        }
        Outcome::NoMemory => {
            tally.also("ROOM (no end in sight)");
            no_room(tally, path, 3 * ENOUGH);
        }
        other => tally.hold(path, "an answer", "none", other == Outcome::Done(vec![])),
    }
}

/// Room for the walk: its points, and every other cell as it was.
fn fits(tally: &mut Tally, path: &Path, walk: &[[f32; 3]], room: usize) {
    tally.also("done");
    let mut lent = Lent::new(room);
    let count = exported::walk(&path.concat(), lent.lend());
    let same = count == (0, walk.len()) && lent.holds(walk.concat().into_iter());
    tally.hold(
        path,
        (count, &lent.lend()[..]),
        ((0, walk.len()), &walk.concat()),
        same,
    );
}

/// A cell less than the walk takes.
fn short(tally: &mut Tally, path: &Path, room: usize) {
    tally.also("ROOM (one point short)");
    no_room(tally, path, room);
}

fn no_room(tally: &mut Tally, path: &Path, room: usize) {
    let mut lent = Lent::new(room);
    let count = exported::walk(&path.concat(), lent.lend());
    tally.hold(&(path, room), count, ROOM, count == ROOM && lent.inside());
}

/// In a buffer with room for more than 2^23 points: the longest walk, one that is a point longer, and one that never ends.
fn greatest(tally: &mut Tally) {
    let room = 3 * (MOST + 2);
    let longest = vec![[0.0, 0.0], [(MOST - 2) as f32, 0.0]];
    let walk = oracle::walk(&longest, MOST).done().unwrap_or_default();
    assert_eq!(walk.len(), MOST, "the longest walk");
    tally.case("done");
    let mut lent = Lent::new(room);
    let count = exported::walk(&longest.concat(), lent.lend());
    let same = count == (0, MOST) && lent.holds(walk.concat().into_iter());
    tally.hold(&longest, count, (0, MOST), same);
    for path in [
        vec![[0.0, 0.0], [(MOST - 1) as f32, 0.0]],
        vec![[16777216.0, 0.0], [16777218.0, 0.0]],
    ] {
        assert_eq!(
            oracle::walk(&path, MOST),
            Outcome::NoMemory,
            "past 2^23 points"
        );
        tally.case("ROOM (2^23 points)");
        no_room(tally, &path, room);
    }
}
