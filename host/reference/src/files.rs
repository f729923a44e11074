//! The descriptions that are compared: the sample, small ones that show one thing each, and random ones from fixed seeds.

use cases::descriptions::push;
use cases::random::Random;
use cases::{Description, Given};
use oracle::Outcome;

/// The usual configured limit.
pub const CONFIGURED: u32 = 1 << 20;
const SAMPLE: &str = "samples/fibres.values";
/// Random descriptions of each kind.
const SEEDS: u64 = 40;
const KINDS: [&str; 8] = [
    "curved", "left", "above", "short", "corner", "broad", "wide", "rough",
];

/// A description in an image, under a name that is also its file's.
pub struct File {
    pub name: String,
    pub kind: &'static str,
    pub width: u32,
    pub height: u32,
    pub description: Description,
    /// Whether its figures are told by themselves.
    pub shown: bool,
}

impl File {
    /// What spline.rs is given beside it: as in a frame whose colours are not correlated any further.
    pub fn given(&self, high_precision: bool) -> Given {
        Given {
            high_precision,
            ..Given::of(self.width, self.height)
        }
    }
}

/// A spline by its control points, which are whole, and the first coefficients of X, Y, B and sigma.
pub type Spline<'a> = (&'a [[i32; 2]], [&'a [i32]; 4]);

/// A file of these splines.
pub fn file(name: &str, size: [u32; 2], adjustment: i32, splines: &[Spline]) -> File {
    let mut description = Description {
        adjustment,
        ..Description::default()
    };
    for (points, rows) in splines {
        let mut coefficients = [0; 128];
        for (row, values) in rows.iter().enumerate() {
            coefficients[32 * row..32 * row + values.len()].copy_from_slice(values);
        }
        let start = (points[0][0] as f32, points[0][1] as f32);
        let deltas = double_deltas(points);
        push(&mut description, start, &deltas, &coefficients);
    }
    File {
        name: String::from(name),
        kind: "small",
        width: size[0],
        height: size[1],
        description,
        shown: false,
    }
}

fn double_deltas(points: &[[i32; 2]]) -> Vec<i32> {
    let mut before = [0, 0];
    let mut deltas = Vec::new();
    for pair in points.windows(2) {
        let delta = [pair[1][0] - pair[0][0], pair[1][1] - pair[0][1]];
        deltas.extend([delta[0] - before[0], delta[1] - before[1]]);
        before = delta;
    }
    deltas
}

/// The control points of spline k.
pub fn points(description: &Description, k: usize) -> Vec<[i64; 2]> {
    let before: u32 = description.counts[..k].iter().sum();
    let count = description.counts[k] as usize;
    let deltas = &description.deltas[2 * before as usize..][..2 * count];
    let mut point = [0, 1].map(|i| description.starts[2 * k + i] as i64);
    let mut delta = [0, 0];
    let mut points = vec![point];
    for pair in deltas.chunks(2) {
        for i in [0, 1] {
            delta[i] += i64::from(pair[i]);
            point[i] += delta[i];
        }
        points.push(point);
    }
    points
}

/// samples/fibres.values, read by spline.rs, in an image 640 pixels wide.
pub fn sample(height: u32) -> Result<File, String> {
    let text = std::fs::read_to_string(SAMPLE).map_err(|why| format!("{SAMPLE}: {why}"))?;
    let list: Result<Vec<u32>, _> = text.split_whitespace().map(str::parse).collect();
    let list = list.map_err(|why| format!("{SAMPLE}: {why}"))?;
    let width = 640;
    match oracle::read(&list, CONFIGURED, width * height).outcome {
        Outcome::Done(description) => Ok(File {
            name: format!("fibres-{height}"),
            kind: "sample",
            width,
            height,
            description,
            shown: true,
        }),
        other => Err(format!("{SAMPLE}: {other:?}")),
    }
}

/// A small file: its name, the size of its image, its adjustment, its splines.
type Small = (&'static str, [u32; 2], i32, &'static [Spline<'static>]);

const DOT: Spline = (&[[0, 0]], [&[]; 4]);
const STEP: &[[i32; 2]] = &[[0, 0], [1, 0]];
/// A straight fibre that goes down by one row.
const FIBRE: &[[i32; 2]] = &[[16, 32], [48, 33]];
const FAR_ABOVE: Spline = (&[[0, -34], [1, -34]], [&[59], &[], &[], &[16]]);
/// The smallest that were found to show each rule and each order, and three fibres.
#[rustfmt::skip]
const SMALL: [Small; 11] = [
    ("a", [4, 1], 0, &[(&[[0, 0], [-1, 0]], [&[1], &[], &[], &[2]])]),
    ("b", [1, 4], 0, &[(&[[0, 0], [-4, 1]], [&[1], &[], &[], &[1]])]),
    ("c", [4, 1], 0, &[(&[[2, 3], [2, 0]], [&[1], &[], &[], &[1]])]),
    ("turns", [4, 1], 0, &[(&[[0, 0], [2, 0]], [&[], &[0, 0, 0, 0, 0, 1], &[], &[1]])]),
    ("root", [4, 1], 0, &[(STEP, [&[], &[1, 1], &[], &[1]])]),
    ("square", [4, 1], 0, &[(STEP, [&[], &[1], &[], &[1]])]),
    ("double", [1, 23], 20, &[(STEP, [&[223], &[], &[], &[50]])]),
    ("halves", [6, 1], -3, &[DOT, FAR_ABOVE]),
    ("sigma-0.33", [64, 64], 0, &[(FIBRE, [&[], &[19], &[], &[1]])]),
    ("sigma-1.33", [64, 64], 0, &[(FIBRE, [&[], &[19], &[], &[4]])]),
    ("sigma-2.67", [64, 64], 0, &[(FIBRE, [&[], &[19], &[], &[8]])]),
];

fn small(&(name, size, adjustment, splines): &Small) -> File {
    File {
        shown: true,
        ..file(name, size, adjustment, splines)
    }
}

/// All files that are compared pixel by pixel.
pub fn all() -> Result<Vec<File>, String> {
    let mut files = vec![sample(800)?];
    files.extend(SMALL.iter().map(small));
    for kind in KINDS {
        files.extend((0..SEEDS).map(|seed| random(kind, seed)));
    }
    Ok(files)
}

fn random(kind: &'static str, seed: u64) -> File {
    let mut random = Random::new(kind, seed);
    let size = match kind {
        "wide" => [random.within(257, 300), random.within(20, 40)],
        "short" | "corner" => [random.within(4, 12), random.within(4, 12)],
        _ => [random.within(64, 128), random.within(64, 128)],
    };
    let mut description = Description {
        adjustment: random.within(-2, 24) as i32,
        ..Description::default()
    };
    let splines = if kind == "corner" { 1 } else { 3 };
    for k in 0..random.within(1, splines) {
        let start = start(kind, k == 0, size, &mut random);
        let deltas = double_deltas(&walk(kind, &mut random));
        let coefficients = coefficients(kind, &mut random);
        push(&mut description, start, &deltas, &coefficients);
    }
    File {
        name: format!("{kind}-{seed}"),
        kind,
        width: size[0] as u32,
        height: size[1] as u32,
        description,
        shown: false,
    }
}

/// A start anywhere in the image or near it; that of the first spline has no sign.
fn start(kind: &str, first: bool, [width, height]: [i64; 2], random: &mut Random) -> (f32, f32) {
    let mut along = |last: i64, before: bool| {
        let x = match kind {
            _ if before => random.within(-30, 2),
            "corner" => random.within(0, 7),
            _ => random.within(-8, last + 8),
        };
        (if first { x.max(0) } else { x }) as f32
    };
    (along(width, kind == "left"), along(height, kind == "above"))
}

/// Control points from the origin, no two neighbours equal.
fn walk(kind: &str, random: &mut Random) -> Vec<[i32; 2]> {
    let (most, far) = match kind {
        "short" | "corner" => (1, 3),
        _ => (4, 10),
    };
    let mut point = [0, 0];
    let mut points = vec![point];
    for _ in 0..random.within(1, most) {
        let mut step = [random.within(-far, far), random.within(-far, far)];
        if kind == "corner" && random.once_in(2) {
            step[random.below(2) as usize] = 0;
        }
        if step == [0, 0] {
            step[0] = 1;
        }
        if (kind == "left" && step[0] > 0) || (kind == "above" && step[1] > 0) {
            step = [-step[0], -step[1]];
        }
        point = [point[0] + step[0] as i32, point[1] + step[1] as i32];
        points.push(point);
    }
    points
}

fn coefficients(kind: &str, random: &mut Random) -> [i32; 128] {
    let mut coefficients = [0; 128];
    if kind == "corner" {
        coefficients[0] = random.within(1, 4) as i32;
        coefficients[96] = random.within(1, 6) as i32;
        return coefficients;
    }
    let (colour, sigma) = match kind {
        "short" => (4, 4),
        "broad" => (60, 30),
        _ => (60, 8),
    };
    let few = if kind == "rough" { 32 } else { 4 };
    for (row, values) in coefficients.chunks_mut(32).enumerate() {
        let size = if row == 3 { 1 } else { colour / 8 };
        for value in &mut values[1..few] {
            *value = random.within(-size, size) as i32;
        }
        values[0] = if row == 3 {
            random.within(1, sigma)
        } else {
            random.within(-colour / 4, colour)
        } as i32;
    }
    coefficients
}
