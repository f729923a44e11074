//! Texts of points, as the value of an SVG `points` attribute, and descriptions to be exported as such, by kind and seed.

use crate::descriptions::push;
use crate::random::Random;
use crate::Description;

pub const TEXT_KINDS: [&str; 10] = [
    "sound", "cut", "replaced", "inserted", "removed", "digits", "edges", "steps", "coincide",
    "several",
];

/// The kinds of descriptions that are for exports alone.
pub const EXPORT_KINDS: [&str; 1] = ["faults"];

/// Bytes that a hasty reader lets in: of the form, of SVG's own wider one, and of neither.
const TEMPTING: [u8; 32] = *b"0123456789-, +.eE;\t\n\r\x0c\0/:x\x0b\x7f\x80\xac\xb0\xff";

const EDGE: i64 = 1 << 23;

/// The text of this kind and seed.
pub fn text(kind: &str, seed: u64) -> Vec<u8> {
    let mut random = Random::new(kind, seed);
    let r = &mut random;
    match kind {
        "sound" => sound(r),
        "cut" => cut(seed),
        "replaced" => replaced(seed),
        "inserted" => inserted(r, seed),
        "removed" => removed(r),
        "digits" => digits(r),
        "edges" => edges(r),
        "steps" => steps(r),
        "coincide" => coincide(r),
        "several" => several(r),
        _ => panic!("no kind of text is called {kind}"),
    }
}

/// Pairs as they are written.
pub fn written(points: &[(i64, i64)]) -> Vec<u8> {
    let pairs: Vec<String> = points.iter().map(|(x, y)| format!("{x},{y}")).collect();
    pairs.join(" ").into_bytes()
}

/// A few points near each other; mostly no two adjacent ones coincide.
fn points(r: &mut Random, most: i64) -> Vec<(i64, i64)> {
    let reach = r.pick(&[2, 9, 120, 5000, EDGE / 4]);
    (0..r.within(1, most))
        .map(|_| (r.within(-reach, reach), r.within(-reach, reach)))
        .collect()
}

fn sound(r: &mut Random) -> Vec<u8> {
    let most = r.pick(&[1, 2, 4, 9, 40]);
    written(&points(r, most))
}

/// Three short points, shorter than 64 bytes, another text for each seed.
fn short(name: &str, seed: u64) -> Vec<u8> {
    written(&points(&mut Random::new(name, seed), 3))
}

/// Seeds that follow each other cut the same text at one length after another; each 64 of them take the next text.
fn cut(seed: u64) -> Vec<u8> {
    let mut text = short("cut-text", seed / 64);
    text.truncate(seed as usize % 64 % (text.len() + 1));
    text
}

/// Each byte of a text in its turn each tempting one: 2048 seeds take one text, the first 64 of its places.
fn replaced(seed: u64) -> Vec<u8> {
    let mut text = short("replaced-text", seed / 2048);
    let place = seed as usize % 2048 / TEMPTING.len() % text.len();
    text[place] = TEMPTING[seed as usize % TEMPTING.len()];
    text
}

/// Likewise one tempting byte more.
fn inserted(r: &mut Random, seed: u64) -> Vec<u8> {
    let mut text = short("inserted-text", seed / 2048);
    let place = seed as usize % 2048 / TEMPTING.len() % (text.len() + 1);
    text.insert(place, TEMPTING[seed as usize % TEMPTING.len()]);
    // Some with a second one beside it, as two spaces or two commas.
    if r.once_in(4) {
        text.insert(place, text[place]);
    }
    text
}

fn removed(r: &mut Random) -> Vec<u8> {
    let mut text = sound(r);
    for _ in 0..r.within(1, 2) {
        if !text.is_empty() {
            text.remove(r.below(text.len() as u64) as usize);
        }
    }
    text
}

/// Numbers of 1 to 60 digits in one place of a text, some with a leading zero, some with a value that 32 or 64 bits make a small one of.
fn digits(r: &mut Random) -> Vec<u8> {
    let mut numbers: Vec<String> = points(r, 3)
        .into_iter()
        .flat_map(|(x, y)| [x.to_string(), y.to_string()])
        .collect();
    let place = r.below(numbers.len() as u64) as usize;
    let length = r.within(1, 60);
    let mut long: String = (0..length)
        .map(|_| char::from(b'0' + r.below(10) as u8))
        .collect();
    match r.below(6) {
        0 => {}
        1 => {
            let wrapped = (1u128 << r.pick(&[23, 24, 31, 32, 63, 64])) + r.below(100) as u128;
            long = wrapped.to_string();
        }
        // No leading zero.
        _ => long.replace_range(..1, r.pick(&["1", "9"])),
    }
    if r.once_in(3) {
        long.insert(0, '-');
    }
    numbers[place] = long;
    let pairs: Vec<String> = numbers.chunks(2).map(|pair| pair.join(",")).collect();
    pairs.join(" ").into_bytes()
}

/// Near 2^23 or -2^23: one and two below, at and above.
fn near_edge(r: &mut Random) -> i64 {
    r.pick(&[-EDGE, EDGE]) + r.within(-2, 2)
}

/// One number of a text at an edge of the positions.
fn edges(r: &mut Random) -> Vec<u8> {
    let mut points = points(r, 4);
    let place = r.below(points.len() as u64) as usize;
    let edge = near_edge(r);
    // The points before lie so that the step to it is short, or as they were.
    if r.once_in(2) {
        for (index, point) in (1..).zip(&mut points[..=place]) {
            point.0 = edge - edge.signum() * 3 * (place as i64 + 1 - index);
        }
    }
    if r.once_in(2) {
        points[place].0 = edge;
    } else {
        points[place].1 = edge;
    }
    written(&points)
}

/// A step of nearly 2^23, or across it, between two good positions.
fn steps(r: &mut Random) -> Vec<u8> {
    let mut points = points(r, 4);
    let place = r.below(points.len() as u64) as usize;
    let step = near_edge(r);
    let from = -step.signum() * r.pick(&[1, 3, 1000, EDGE / 2, EDGE - 3]);
    let other = r.within(-3, 3);
    let mut pair = [(from, other), (from + step, other + r.within(-1, 1))];
    if r.once_in(2) {
        pair = pair.map(|(x, y)| (y, x));
    }
    points.splice(place..place, pair);
    written(&points)
}

/// Two adjacent pairs equal, or one apart; and sometimes two that are equal but not adjacent.
fn coincide(r: &mut Random) -> Vec<u8> {
    let mut points = points(r, 6);
    let place = r.below(points.len() as u64) as usize;
    let (x, y) = points[place];
    let miss = r.pick(&[(0, 0), (0, 0), (1, 0), (0, -1)]);
    points.insert(place + 1, (x + miss.0, y + miss.1));
    if r.once_in(3) {
        points.push((x, y));
    }
    written(&points)
}

/// Two of the faults above in one text, so that the order of the checks shows.
fn several(r: &mut Random) -> Vec<u8> {
    let kinds: [fn(&mut Random) -> Vec<u8>; 5] = [digits, edges, steps, coincide, removed];
    let (first, second) = (r.pick(&kinds), r.pick(&kinds));
    [first(r), second(r)].join(&b' ')
}

/// Three splines of one to five steps with two faults in the first two of them, in one or in both, so that the order of the checks shows and whose
/// fault it is.
pub fn exported(kind: &str, seed: u64) -> Description {
    assert_eq!(kind, "faults", "no other kind is for exports alone");
    let mut random = Random::new(kind, seed);
    let r = &mut random;
    let faulty = [r.below(2), r.below(2)];
    let mut description = Description::default();
    for spline in 0..3 {
        let faults = faulty.iter().filter(|&&number| number == spline).count();
        let mut start = [r.within(-90, 90) as f32, r.within(-90, 90) as f32];
        let count = r.within(1, 5);
        let mut steps: Vec<[i64; 2]> = (0..count).map(|_| [r.within(1, 9), 2]).collect();
        let mut double = None;
        for _ in 0..faults {
            let place = r.below(count as u64) as usize;
            match r.below(5) {
                0 => start[place % 2] = r.pick(&[f32::NAN, 8_388_607.5, -8_388_608.5]),
                1 | 2 => steps[place] = [0, 0],
                3 => steps[place] = [EDGE - 1 + r.within(0, 1), 1],
                _ => double = Some(place),
            }
        }
        let mut before = [0; 2];
        let mut deltas: Vec<i32> = Vec::new();
        for step in steps {
            deltas.extend([step[0] - before[0], step[1] - before[1]].map(|delta| delta as i32));
            before = step;
        }
        if let Some(place) = double {
            deltas[2 * place] = (1 << 30) - 1 + r.within(0, 1) as i32;
        }
        push(&mut description, (start[0], start[1]), &deltas, &[0; 128]);
    }
    description
}
