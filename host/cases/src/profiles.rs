//! Descriptions to be held against the fineness profile, with an edition and an image to build them for, by kind and seed.

use crate::descriptions::{build_case, push, BuildCase, KINDS};
use crate::random::Random;
use crate::Description;

/// What a build by profile is given.
#[derive(Clone, Debug, PartialEq)]
pub struct ProfileCase {
    pub case: BuildCase,
    pub edition: u32,
}

pub const PROFILE_KINDS: [&str; 6] = ["plain", "edges", "pairs", "editions", "before", "any"];

/// The kinds with thousands of splines, of which a few are enough.
pub const GREAT_KINDS: [&str; 1] = ["many"];

/// The case of this kind and seed.
pub fn profile_case(kind: &str, seed: u64) -> ProfileCase {
    let mut random = Random::new(kind, seed);
    let r = &mut random;
    // The image of some fibres.
    let mut case = build_case("fibres", r.next());
    case.description = plain(r);
    let mut edition = 1 + (seed % 2) as u32;
    match kind {
        "plain" => {}
        "edges" => change(r, &mut case.description, edge(seed / 2)),
        "pairs" => pair(r, seed / 2, &mut case.description),
        "editions" => {
            edition = r.pick(&[0, 1, 2, 3, 4, 1 << 31, u32::MAX - 1, u32::MAX]);
            pair(r, seed, &mut case.description);
        }
        "before" => before(r, &mut case),
        "any" => case = build_case(r.pick(&KINDS), r.next()),
        "many" => case.description = many(seed / 2),
        _ => panic!("no kind of profile is called {kind}"),
    }
    ProfileCase { case, edition }
}

/// A few splines that meet edition 1.
fn plain(r: &mut Random) -> Description {
    let mut description = Description::default();
    for _ in 0..r.within(1, 4) {
        let start = (r.within(-9, 150) as f32, r.within(-9, 150) as f32);
        let count = r.pick(&[1, 1, 2, 3, 5]);
        let sigma = r.pick(&[1, 2, 9, 400, 30, 7]);
        push(
            &mut description,
            start,
            &steps(r, count),
            &coefficients(r, sigma),
        );
    }
    description
}

/// So many double deltas: a step to the right first, which then hardly changes.
fn steps(r: &mut Random, count: usize) -> Vec<i32> {
    let mut deltas = vec![0; 2 * count];
    if let [x, y, ..] = &mut deltas[..] {
        (*x, *y) = (r.within(3, 9) as i32, r.within(-4, 4) as i32);
    }
    deltas.iter_mut().skip(3).step_by(4).for_each(|y| *y = 1);
    deltas.iter_mut().skip(5).step_by(4).for_each(|y| *y = -1);
    deltas
}

/// Any Y, and a steady sigma.
fn coefficients(r: &mut Random, sigma: i32) -> Vec<i32> {
    let mut values = vec![0; 128];
    values[32] = r.within(-200, 200) as i32;
    values[32 + r.below(32) as usize] = r.any_i32() >> 12;
    values[96] = sigma;
    values
}

/// One number of a description, and what it becomes.
#[derive(Clone, Copy, Debug)]
enum Change {
    /// No splines at all.
    NoSplines,
    Adjustment(i32),
    /// The double deltas of a spline.
    Count(usize),
    /// A coefficient of a spline, by its place among the 128.
    Coefficient(usize, i32),
}

/// Numbers at the edges of each rule in both editions: one below, at and one above; each coefficient that is to be zero, and some of Y.
fn edges() -> Vec<Change> {
    let extremes = [i32::MIN, -1, 1, i32::MAX];
    let mut edges = vec![Change::NoSplines];
    let adjustments = [-9, -8, -7, 0, 7, 8, 9].into_iter().chain(extremes);
    edges.extend(adjustments.map(Change::Adjustment));
    edges.extend([0, 1, 2, 63, 64, 65, 255, 256, 257].map(Change::Count));
    let sigmas = [0, 2, 399, 400, 401, 1599, 1600, 1601]
        .into_iter()
        .chain(extremes);
    edges.extend(sigmas.map(|sigma| Change::Coefficient(96, sigma)));
    for place in (0..96).chain(97..128) {
        edges.extend(extremes.map(|value| Change::Coefficient(place, value)));
    }
    edges
}

fn edge(number: u64) -> Change {
    let edges = edges();
    edges[number as usize % edges.len()]
}

/// Changes that break the rules 1 to 6 in both editions.
fn breaking(r: &mut Random, rule: u64) -> Change {
    let other = r.pick(&[1, -1, i32::MIN, i32::MAX]);
    match rule {
        1 => Change::NoSplines,
        2 => Change::Count(r.pick(&[0, 257])),
        3 => Change::Adjustment(r.pick(&[-9, 9, i32::MIN])),
        4 => Change::Coefficient(97 + r.below(31) as usize, other),
        5 => Change::Coefficient(96, r.pick(&[0, -1, 1601])),
        _ => Change::Coefficient(r.pick(&[0, 31, 64, 95, 7, 70]), other),
    }
}

/// Changes one spline, or the whole.
fn change(r: &mut Random, description: &mut Description, change: Change) {
    let splines = description.counts.len() as u64;
    let spline = r.below(splines.max(1)) as usize;
    match change {
        Change::NoSplines => {
            let adjustment = description.adjustment;
            *description = Description {
                adjustment,
                ..Description::default()
            };
        }
        Change::Adjustment(adjustment) => description.adjustment = adjustment,
        _ if splines == 0 => {}
        Change::Count(count) => {
            let ends = [spline, spline + 1].map(|end| {
                let before = description.counts[..end].iter();
                2 * before.map(|&count| count as usize).sum::<usize>()
            });
            description.deltas.splice(ends[0]..ends[1], steps(r, count));
            description.counts[spline] = count as u32;
        }
        Change::Coefficient(place, value) => {
            description.coefficients[128 * spline + place] = value;
        }
    }
}

/// Two rules broken at once, in every pair of the six, in one spline or in two.
fn pair(r: &mut Random, number: u64, description: &mut Description) {
    let rules = [1 + number % 6, 1 + number / 6 % 6];
    for rule in rules {
        let broken = breaking(r, rule);
        change(r, description, broken);
    }
}

/// A broken rule beside what is looked at before it, and after it.
fn before(r: &mut Random, case: &mut BuildCase) {
    let rule = r.within(1, 6) as u64;
    let broken = breaking(r, rule);
    if r.once_in(2) {
        change(r, &mut case.description, broken);
    }
    match r.below(6) {
        0 => case.given.width = (1 << 23) + r.below(2) as u32,
        1 => case.given.height = (1 << 23) + 1,
        2 => case.description.starts.push(1.0),
        3 => case.description.coefficients.truncate(127),
        // What only building refuses.
        4 => case.description.starts.fill(f32::NAN),
        _ => case.description.deltas.fill(0),
    }
}

/// As many short splines as the profile allows, one fewer and one more, and the last of them another one.
fn many(seed: u64) -> Description {
    let mut random = Random::new("many-splines", seed);
    let r = &mut random;
    let splines = [4096, 4097, 4095][seed as usize % 3];
    let mut description = Description::default();
    for k in 0..splines {
        push(
            &mut description,
            (k as f32, 5.0),
            &[1, 0],
            &coefficients(r, 1),
        );
    }
    if seed / 3 % 2 == 1 {
        let last = description.coefficients.len() - 1;
        description.coefficients[last] = 1;
    }
    description
}
