//! Lists of decoded values, with the two numbers that give the limit, by kind and seed.

use crate::descriptions::build_case;
use crate::random::Random;
use crate::Description;

/// What reading is given.
#[derive(Clone, Debug, PartialEq)]
pub struct ListCase {
    pub list: Vec<u32>,
    pub configured: u32,
    pub pixels: u32,
}

pub const KINDS: [&str; 9] = [
    "fibres",
    "limit",
    "count",
    "start",
    "points",
    "delta",
    "cut",
    "left-over",
    "damaged",
];

/// What writing is given.
#[derive(Clone, Debug, PartialEq)]
pub struct WriteCase {
    pub description: Description,
    pub configured: u32,
    pub pixels: u32,
    pub list_room: u64,
}

pub const WRITE_KINDS: [&str; 8] = [
    "fibres", "limit", "start", "delta", "points", "shape", "room", "anything",
];

/// The usual configured limit.
const USUAL: u32 = 1 << 20;

/// The case of this kind and seed.
pub fn list_case(kind: &str, seed: u64) -> ListCase {
    let mut random = Random::new(kind, seed);
    let r = &mut random;
    let mut case = ListCase {
        list: listed(r),
        configured: USUAL,
        pixels: 1 << 16,
    };
    match kind {
        "fibres" => {}
        "limit" => limit(r, &mut case),
        "count" => count(r, &mut case),
        "start" => start(r, &mut case),
        "points" => points(r, &mut case),
        "delta" => delta(r, &mut case),
        "cut" => return cut(seed),
        "left-over" => (0..r.within(1, 3)).for_each(|_| case.list.push(r.next() as u32)),
        "damaged" => damaged(r, &mut case),
        _ => panic!("no kind of list is called {kind}"),
    }
    case
}

/// The description to be written of this kind and seed.
pub fn write_case(kind: &str, seed: u64) -> WriteCase {
    let mut random = Random::new(kind, seed);
    let r = &mut random;
    let description = listable(r);
    let mut case = WriteCase {
        description,
        configured: USUAL,
        pixels: 1 << 16,
        list_room: 1 << 20,
    };
    let splines = case.description.counts.len() as i64;
    let points = case.description.deltas.len() as i64 / 2;
    match kind {
        "fibres" => {}
        "limit" => case.configured = (splines + r.within(-1, 1)) as u32,
        "start" => unlistable_start(r, &mut case.description.starts),
        "delta" => case.description = build_case("double-deltas", r.next()).description,
        "points" => case.pixels = (2 * points + r.within(-2, 2)).max(0) as u32,
        "shape" => case.description = build_case("shape", r.next()).description,
        "room" => {
            case.list_room = (encoded(&case.description).len() as i64 + r.within(-2, 1)) as u64
        }
        "anything" => case.description = build_case("anything", r.next()).description,
        _ => panic!("no kind of writing is called {kind}"),
    }
    case
}

/// One coordinate that a list cannot hold, or only just can.
fn unlistable_start(r: &mut Random, starts: &mut [f32]) {
    let place = r.below(starts.len() as u64) as usize;
    let edge = ((1i64 << 23) + r.within(-1, 1)) as f32;
    starts[place] = match r.below(4) {
        0 => r.pick(&[edge, -edge]),
        1 => r.pick(&[-0.0, 0.5, -0.5, -1.0, f32::NAN, f32::INFINITY]),
        2 => r.within(-30, 30) as f32 / 2.0,
        _ => r.any_f32(),
    };
}

/// Some fibres that a list can hold, with coefficients of every size.
fn listable(r: &mut Random) -> Description {
    let kind = r.pick(&[
        "fibres",
        "fibres",
        "straight",
        "one-point",
        "crowd",
        "colours",
    ]);
    let mut description = build_case(kind, r.next()).description;
    // A first start is not negative.
    for start in description.starts.iter_mut().take(2) {
        *start = start.abs();
    }
    description
}

/// Their list.
fn listed(r: &mut Random) -> Vec<u32> {
    encoded(&listable(r))
}

/// The list of a description whose starts are whole numbers; what is past a limit is written all the same.
pub fn encoded(description: &Description) -> Vec<u32> {
    let mut list = vec![(description.counts.len() as u32).wrapping_sub(1)];
    let mut last = [0i64; 2];
    for (index, start) in description.starts.chunks(2).enumerate() {
        let whole = [start[0] as i64, start[1] as i64];
        let differences = [whole[0] - last[0], whole[1] - last[1]];
        let packed = if index == 0 {
            differences.map(|v| v as u32)
        } else {
            differences.map(|v| packed(v as i32))
        };
        list.extend(packed);
        last = whole;
    }
    list.push(packed(description.adjustment));
    let mut deltas = description.deltas.iter();
    for (index, &count) in description.counts.iter().enumerate() {
        list.push(count);
        list.extend(
            deltas
                .by_ref()
                .take(2 * count as usize)
                .map(|&value| packed(value)),
        );
        let own = description.coefficients.iter().skip(128 * index).take(128);
        list.extend(own.map(|&value| packed(value)));
    }
    list
}

/// The u32 that stands for a signed value.
pub fn packed(value: i32) -> u32 {
    (value as u32) << 1 ^ (value >> 31) as u32
}

/// How many splines the list says it has; the list is whole.
fn splines(list: &[u32]) -> usize {
    list[0] as usize + 1
}

/// Where the point count of the first spline stands.
fn first_count(list: &[u32]) -> usize {
    2 + 2 * splines(list)
}

/// Both numbers of the limit close to what the list needs.
fn limit(r: &mut Random, case: &mut ListCase) {
    let need = splines(&case.list) as i64;
    let near = (need + r.within(-2, 6)).max(0) as u32;
    if r.once_in(2) {
        case.configured = near;
    } else {
        case.pixels = 2 * near + r.below(2) as u32;
    }
    if r.once_in(8) {
        (case.configured, case.pixels) = (u32::MAX, u32::MAX);
    }
}

/// The spline count one below, at and one above the limit, and near 2^32.
fn count(r: &mut Random, case: &mut ListCase) {
    let need = splines(&case.list) as u32;
    let limit = match r.below(3) {
        0 => need.saturating_sub(1),
        1 => need,
        _ => need + 1,
    };
    case.configured = limit;
    if r.once_in(4) {
        case.list[0] = r.pick(&[
            u32::MAX,
            u32::MAX - 1,
            1 << 31,
            limit,
            limit.wrapping_sub(1),
        ]);
    }
    if r.once_in(8) {
        (case.configured, case.pixels) = (u32::MAX, u32::MAX);
    }
}

/// A start one below, at and one above 2^23 on either side.
fn start(r: &mut Random, case: &mut ListCase) {
    let edge = (1i64 << 23) + r.within(-1, 1);
    let axis = r.below(2) as usize;
    if splines(&case.list) == 1 || r.once_in(2) {
        case.list[1 + axis] = r.pick(&[edge as u32, edge as u32, u32::MAX, 1 << 31]);
        return;
    }
    // The second start is the first plus a signed difference.
    let first = i64::from(case.list[1 + axis]);
    let aim = r.pick(&[edge, -edge]);
    let difference = r.pick(&[
        aim - first,
        aim - first,
        i64::from(i32::MIN),
        i64::from(i32::MAX),
    ]);
    case.list[3 + axis] = packed(difference as i32);
}

/// Point counts whose sum is one below, at and one above the limit, or near 2^32.
fn points(r: &mut Random, case: &mut ListCase) {
    let place = first_count(&case.list);
    if r.once_in(3) {
        case.list[place] = r.pick(&[u32::MAX, u32::MAX - 1, 1 << 31, USUAL, USUAL + 1]);
        return;
    }
    let total = all_points(&case.list) as i64;
    let limit = (total + r.within(-1, 1)).max(splines(&case.list) as i64);
    case.pixels = 2 * limit as u32 + r.below(2) as u32;
    // A later count that would bring a sum of 32 bits round to a small number.
    if splines(&case.list) > 1 && r.once_in(3) {
        let next = place + 129 + 2 * case.list[place] as usize;
        case.list[next] = u32::MAX - r.below(4) as u32;
    }
}

/// The sum of the point counts of a whole list.
fn all_points(list: &[u32]) -> u64 {
    let mut place = first_count(list);
    let mut total = 0;
    for _ in 0..splines(list) {
        total += u64::from(list[place]);
        place += 129 + 2 * list[place] as usize;
    }
    total
}

/// A double delta one below, at and one above 2^30 on either side.
fn delta(r: &mut Random, case: &mut ListCase) {
    let place = first_count(&case.list);
    let count = u64::from(case.list[place]);
    if count > 0 {
        let edge = (1i64 << 30) + r.within(-1, 1);
        let value = r.pick(&[edge, -edge, i64::from(i32::MIN), i64::from(i32::MAX)]);
        case.list[place + 1 + r.below(2 * count) as usize] = packed(value as i32);
    }
}

/// Seeds that follow each other cut the same list at one place after another; each 512 of them take the next list,
/// which is shorter than that.
fn cut(seed: u64) -> ListCase {
    let list = encoded(&build_case("fibres", seed / 512).description);
    let length = seed as usize % 512 % (list.len() + 1);
    ListCase {
        list: list[..length].to_vec(),
        configured: USUAL,
        pixels: 1 << 16,
    }
}

/// One value replaced by another of any size.
fn damaged(r: &mut Random, case: &mut ListCase) {
    let header = first_count(&case.list) as u64 + 4;
    let among = if r.once_in(2) {
        header
    } else {
        case.list.len() as u64
    };
    let place = r.below(among.min(case.list.len() as u64)) as usize;
    case.list[place] = match r.below(3) {
        0 => case.list[place] ^ 1 << r.below(32),
        1 => r.next() as u32 >> r.below(32),
        _ => case.list[place].wrapping_add(r.within(-2, 2) as u32),
    };
}
