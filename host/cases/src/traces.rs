//! Trace files, and descriptions to be written as such, by kind and seed.

use crate::descriptions::{build_case, push};
use crate::random::Random;
use crate::Description;

pub const FILE_KINDS: [&str; 11] = [
    "sound",
    "head",
    "wrapped",
    "cut",
    "left-over",
    "counts",
    "starts",
    "deltas",
    "several",
    "replaced",
    "bare",
];

pub const TRACED_KINDS: [&str; 6] = ["sound", "starts", "deltas", "several", "shape", "anything"];

/// The kinds that there are of version 2 beside those above.
pub const FILE2_KINDS: [&str; 2] = ["edition", "version"];

/// The file of version 1 of this kind and seed.
pub fn trace_file(kind: &str, seed: u64) -> Vec<u8> {
    file_of(kind, seed, None)
}

/// The file of version 2 of this kind and seed: 1024 of edition 1, then as many of edition 2, and so on.
pub fn trace_file2(kind: &str, seed: u64) -> Vec<u8> {
    file_of(kind, seed, Some(1 + (seed / 1024 % 2) as u32))
}

/// Of version 2 if there is an edition.
fn file_of(kind: &str, seed: u64, edition: Option<u32>) -> Vec<u8> {
    let mut random = Random::new(kind, seed);
    let r = &mut random;
    let mut file = TraceFile::of(&traced_well(r), edition);
    match kind {
        "sound" => {}
        "edition" => another_edition(r, &mut file),
        "version" => file.header[0] = r.pick(&[0, 1, 2, 3, 1 << 8, 2 << 24, u32::MAX]),
        "head" => head(r, &mut file),
        "wrapped" => wrapped(r, &mut file),
        "cut" => return cut(seed, edition),
        "left-over" => return left_over(r, &file),
        "counts" => counts(r, &mut file),
        "starts" => damage(r, &mut file.starts, 1 << 23),
        "deltas" => damage(r, &mut file.deltas, 1 << 30),
        "several" => return several(r, &mut file),
        "replaced" => return replaced(r, seed, edition),
        "bare" => return bare(seed, edition),
        _ => panic!("no kind of trace file is called {kind}"),
    }
    file.bytes()
}

/// The description of this kind and seed.
pub fn traced(kind: &str, seed: u64) -> Description {
    let mut random = Random::new(kind, seed);
    let r = &mut random;
    let mut description = traced_well(r);
    match kind {
        "sound" => {}
        "starts" => untraceable_start(r, &mut description.starts),
        "deltas" => damage(r, &mut description.deltas, 1 << 30),
        "several" => {
            damage(r, &mut description.deltas, 1 << 30);
            untraceable_start(r, &mut description.starts);
            if r.once_in(2) {
                description.counts.push(r.pick(&[0, 1, u32::MAX]));
            }
        }
        "shape" => description = build_case("shape", r.next()).description,
        "anything" => description = build_case("anything", r.next()).description,
        _ => panic!("no kind of description is called {kind}"),
    }
    description
}

/// No spline or a few, with numbers of every size that a file can hold.
fn traced_well(r: &mut Random) -> Description {
    let mut description = Description {
        adjustment: r.any_i32(),
        ..Description::default()
    };
    for _ in 0..r.pick(&[0, 1, 1, 1, 2, 3]) {
        let start = (coordinate(r), coordinate(r));
        let points = r.below(4);
        let deltas: Vec<i32> = (0..2 * points).map(|_| r.any_i32() % (1 << 30)).collect();
        let coefficients: Vec<i32> = (0..128).map(|_| r.any_i32()).collect();
        push(&mut description, start, &deltas, &coefficients);
    }
    description
}

/// A whole number that a start may be, often one at an edge.
fn coordinate(r: &mut Random) -> f32 {
    match r.below(4) {
        0 => r.pick(&[0.0, -1.0, 8_388_607.0, -8_388_607.0, -8_388_608.0]),
        1 => r.within(-(1 << 23), (1 << 23) - 1) as f32,
        _ => r.within(-200, 200) as f32,
    }
}

/// A coordinate that a file cannot hold, or only just can.
fn untraceable_start(r: &mut Random, starts: &mut [f32]) {
    if starts.is_empty() {
        return;
    }
    let place = r.below(starts.len() as u64) as usize;
    let edge = ((1i64 << 23) + r.within(-1, 1)) as f32;
    starts[place] = match r.below(4) {
        0 => r.pick(&[edge, -edge]),
        1 => r.pick(&[-0.0, 0.5, -0.5, f32::NAN, f32::INFINITY, f32::NEG_INFINITY]),
        2 => r.within(-30, 30) as f32 / 2.0,
        _ => r.any_f32(),
    };
}

/// One number one below, at or one above an edge on either side, or any.
fn damage(r: &mut Random, numbers: &mut [i32], edge: i64) {
    if numbers.is_empty() {
        return;
    }
    let place = r.below(numbers.len() as u64) as usize;
    let near = edge + r.within(-1, 1);
    let value = r.pick(&[near, -near, i64::from(i32::MIN), i64::from(i32::MAX)]);
    numbers[place] = value as i32;
}

/// A trace file's numbers, whether they go together or not.
struct TraceFile {
    header: Vec<u32>,
    counts: Vec<u32>,
    starts: Vec<i32>,
    deltas: Vec<i32>,
    coefficients: Vec<i32>,
}

impl TraceFile {
    /// Of a description whose starts are whole numbers and whose lengths agree.
    fn of(description: &Description, edition: Option<u32>) -> TraceFile {
        let splines = description.counts.len() as u32;
        let points = description.deltas.len() as u32 / 2;
        let adjustment = description.adjustment as u32;
        let (version, first) = if edition.is_some() { (2, 36) } else { (1, 32) };
        let (second, third) = (first + 4 * splines, first + 12 * splines);
        let last = third + 8 * points;
        let mut header = vec![
            version, splines, points, adjustment, first, second, third, last,
        ];
        header.extend(edition);
        TraceFile {
            header,
            counts: description.counts.clone(),
            starts: description.starts.iter().map(|&x| x as i32).collect(),
            deltas: description.deltas.clone(),
            coefficients: description.coefficients.clone(),
        }
    }

    fn bytes(&self) -> Vec<u8> {
        let unsigned = self.header.iter().chain(&self.counts).copied();
        let signed = self.starts.iter().chain(&self.deltas);
        let signed = signed.chain(&self.coefficients).map(|&z| z as u32);
        unsigned.chain(signed).flat_map(u32::to_le_bytes).collect()
    }
}

/// One number of the header another one.
fn head(r: &mut Random, file: &mut TraceFile) {
    let place = r.below(file.header.len() as u64) as usize;
    let number = &mut file.header[place];
    *number = match r.below(4) {
        0 => *number ^ 1 << r.below(32),
        1 => r.next() as u32 >> r.below(32),
        2 => number.swap_bytes(),
        _ => number.wrapping_add(r.pick(&[1, 2, 4, u32::MAX, u32::MAX - 3])),
    };
}

/// Counts beyond 2^28 with which the offsets are those of the parts in 32 bits alone.
fn wrapped(r: &mut Random, file: &mut TraceFile) {
    if r.once_in(2) {
        file.header[1] = file.header[1].wrapping_add(1 << 30);
    }
    if r.once_in(2) {
        let more = r.pick(&[1, 1 << 29, 1 << 30, 1 << 31]);
        file.header[2] = file.header[2].wrapping_add(more);
    }
    if r.once_in(4) {
        let (splines, points, first) = (file.header[1], file.header[2], file.header[4]);
        file.header[5] = first.wrapping_add(splines.wrapping_mul(4));
        file.header[6] = first.wrapping_add(splines.wrapping_mul(12));
        file.header[7] = file.header[6].wrapping_add(points.wrapping_mul(8));
    }
}

/// Counts with another sum, or with the same in 32 bits alone.
fn counts(r: &mut Random, file: &mut TraceFile) {
    let splines = file.counts.len();
    if splines == 0 {
        return;
    }
    let place = r.below(splines as u64) as usize;
    let share = r.pick(&[1, u32::MAX, 1 << 31, r.clone().next() as u32]);
    file.counts[place] = file.counts[place].wrapping_add(share);
    if r.once_in(2) {
        let other = (place + 1) % splines;
        file.counts[other] = file.counts[other].wrapping_sub(share);
    }
}

/// Seeds that follow each other cut the same file at one place after another; each 1024 of them take the next file of one spline.
fn cut(seed: u64, edition: Option<u32>) -> Vec<u8> {
    let mut file = one_spline("cut-file", seed / 1024, edition);
    file.truncate(seed as usize % 1024 % (file.len() + 1));
    file
}

/// A sound file of one spline with up to three points, which is shorter than 600 bytes.
fn one_spline(name: &str, seed: u64, edition: Option<u32>) -> Vec<u8> {
    let mut random = Random::new(name, seed);
    loop {
        let description = traced_well(&mut random);
        if description.counts.len() == 1 {
            return TraceFile::of(&description, edition).bytes();
        }
    }
}

fn left_over(r: &mut Random, file: &TraceFile) -> Vec<u8> {
    let mut bytes = file.bytes();
    let more = r.pick(&[1, 2, 3, 4, 8, 512, 524]);
    bytes.extend((0..more).map(|_| r.next() as u8));
    bytes
}

/// Two things wrong at once, so that the order of the checks shows.
fn several(r: &mut Random, file: &mut TraceFile) -> Vec<u8> {
    for _ in 0..2 {
        match r.below(5) {
            0 => head(r, file),
            1 => counts(r, file),
            2 => damage(r, &mut file.starts, 1 << 23),
            3 => damage(r, &mut file.deltas, 1 << 30),
            _ => {
                file.coefficients.pop();
            }
        }
    }
    if file.header.len() == 9 && r.once_in(2) {
        another_edition(r, file);
    }
    let mut bytes = file.bytes();
    if r.once_in(4) {
        bytes.push(0);
    }
    bytes
}

/// An edition of a version 2 file, or a number that is none, and sometimes a file that is cut behind it.
fn another_edition(r: &mut Random, file: &mut TraceFile) {
    file.header[8] = r.pick(&[0, 1, 2, 3, 4, 1 << 8, 2 << 24, 1 << 31, u32::MAX]);
    if r.once_in(4) {
        file.coefficients.clear();
    }
}

/// Each byte of a file in its turn another one: 2048 seeds take one file of one spline, each of its bytes three times at least.
fn replaced(r: &mut Random, seed: u64, edition: Option<u32>) -> Vec<u8> {
    let mut file = one_spline("replaced-file", seed / 2048, edition);
    let place = seed as usize % 2048 % file.len();
    file[place] = file[place].wrapping_add(1 + r.below(255) as u8);
    file
}

/// A file without splines, each of its bytes in its turn each other one.
fn bare(seed: u64, edition: Option<u32>) -> Vec<u8> {
    let mut file = TraceFile::of(&Description::default(), edition).bytes();
    let place = (seed / 255) as usize % file.len();
    file[place] = file[place].wrapping_add(1 + (seed % 255) as u8);
    file
}
