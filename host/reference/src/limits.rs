//! Descriptions on either side of a limit: who takes them. docs/DIFFERENCES.md tells of each, and what is answered is held against it.

use crate::files::{file, sample, File, Spline, CONFIGURED};
use cases::{Description, Given};
use oracle::{code_of, Outcome};

/// A file, and what spline.rs at Level5, at Level10, and libjxl 0.7 answer.
pub struct Limit {
    pub file: File,
    pub known: [&'static str; 3],
}

const DONE: &str = "done";
const BOUNDS: &str = "Spline coordinates out of bounds";
const COVERED: &str = "Too many pixels covered with splines";

/// Lines of the page: the name, the size of the image, the splines by their points and their sigma, the three answers.
type Line = (&'static str, [u32; 2], &'static [Bare], [&'static str; 3]);
/// Control points, and the first coefficients of sigma; the colours are black.
type Bare = (&'static [[i32; 2]], &'static [i32]);

const DOT: Bare = (&[[0, 0]], &[1]);
#[rustfmt::skip]
const LINES: [Line; 19] = [
    ("starts", [2, 1], &[(&[[0, 0], [1, 0]], &[1])], [DONE, DONE, "Too many control points: 2"]),
    ("points", [2, 1], &[(&[[0, 0], [1, 0], [2, 0]], &[1])], ["Points", "Points", "Too many control points: 3"]),
    ("splines", [2, 1], &[DOT, DOT], ["Splines", "Splines", "Too many splines: 2"]),
    ("dot", [2, 1], &[DOT], [DONE; 3]),
    ("least", [8, 1], &[DOT, (&[[-8388606, 0], [-8388607, 0]], &[1])], [DONE; 3]),
    ("less", [8, 1], &[DOT, (&[[-8388607, 0], [-8388608, 0]], &[1])], [DONE, DONE, BOUNDS]),
    ("greatest", [8, 1], &[DOT, (&[[8388606, 0], [8388607, 0]], &[1])], [DONE; 3]),
    ("greater", [8, 1], &[DOT, (&[[8388607, 0], [8388608, 0]], &[1])], ["Position", "Position", BOUNDS]),
    ("start", [8, 1], &[DOT, (&[[-8388608, 0]], &[1])], ["Coord", "Coord", BOUNDS]),
    ("delta", [8, 1], &[(&[[0, 0], [1 << 30, 0]], &[1])], ["Delta", "Delta", "Spline delta-delta is out of bounds"]),
    ("coincide", [8, 1], &[(&[[0, 0], [1, 0], [1, 0]], &[1])], ["Coincide", "Coincide", "identical successive control points in spline 0"]),
    ("covered", [4, 1], &[(&[[0, 0], [1, 0]], &[58])], [DONE; 3]),
    ("over", [4, 1], &[(&[[0, 0], [1, 0]], &[59])], [DONE, DONE, COVERED]),
    ("wider", [64, 64], &[(&[[0, 0], [1, 0]], &[83])], [DONE; 3]),
    ("wider-over", [64, 64], &[(&[[0, 0], [1, 0]], &[84])], [DONE, DONE, COVERED]),
    ("none-made", [4, 1], &[(&[[0, 0], [16397, 0]], &[])], [DONE; 3]),
    ("none-over", [4, 1], &[(&[[0, 0], [16398, 0]], &[])], [DONE, DONE, COVERED]),
    // Coefficient 3 takes back what coefficient 1 gives where the three points of the walk lie.
    ("taken-back", [4, 1], &[(&[[0, 0], [1, 0]], &[0, 4076, 0, -4115])], [DONE; 3]),
    ("one-more", [4, 1], &[(&[[0, 0], [1, 0]], &[0, 4076, 0, -4116])], ["Area", DONE, DONE]),
];

pub fn all() -> Result<Vec<Limit>, String> {
    let sample = Limit {
        file: sample(400)?,
        known: [DONE, DONE, COVERED],
    };
    let limit = |&(name, size, bare, known): &Line| {
        let splines: Vec<Spline> = bare
            .iter()
            .map(|&(points, sigma)| (points, [&[], &[], &[], sigma]))
            .collect();
        Limit {
            file: file(&format!("limit-{name}"), size, 0, &splines),
            known,
        }
    };
    Ok(LINES.iter().map(limit).chain([sample]).collect())
}

/// What spline.rs answers, reading the list and then building.
pub fn here(file: &File, level10: bool) -> String {
    let read = oracle::read(
        &list(&file.description),
        CONFIGURED,
        file.width * file.height,
    );
    let given = Given {
        level10,
        ..file.given(true)
    };
    let outcome = match read.outcome {
        Outcome::Done(description) => oracle::build(&description, &given).map(|_| ()),
        other => other.map(|_| ()),
    };
    match outcome {
        Outcome::Done(()) => String::from(DONE),
        Outcome::Refused(why) => format!("{:?}", code_of(why)),
        other => format!("{other:?}"),
    }
}

/// What libjxl answered: whether there is a picture, or else the first failure it told of.
pub fn there(picture: bool, said: &str) -> String {
    if picture {
        return String::from(DONE);
    }
    let failure = said
        .lines()
        .find_map(|line| line.split_once("JXL_FAILURE: "));
    failure.map_or("refused", |(_, why)| why).to_string()
}

/// The list of a description whose first start has no sign, whatever its limits.
fn list(description: &Description) -> Vec<u32> {
    let pack = model::list::pack;
    let mut list = vec![description.counts.len() as u32 - 1];
    for (i, &at) in description.starts.iter().enumerate() {
        list.push(match i {
            0 | 1 => at as u32,
            _ => pack((at - description.starts[i - 2]) as i32),
        });
    }
    list.push(pack(description.adjustment));
    let mut deltas = description.deltas.iter();
    for (&count, coefficients) in description
        .counts
        .iter()
        .zip(description.coefficients.chunks(128))
    {
        list.push(count);
        list.extend(
            deltas
                .by_ref()
                .take(2 * count as usize)
                .map(|&delta| pack(delta)),
        );
        list.extend(coefficients.iter().map(|&value| pack(value)));
    }
    list
}
