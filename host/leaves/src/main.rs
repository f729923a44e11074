//! Compares the proved leaves with Rust and the hardware, and the logarithm with the host's.
//!
//! `leaves` tries a stride of all bit patterns, `leaves --all` every one, `--stride N` every N-th, `--only NAME` one leaf.
//! It fails where a leaf differs, or where the two logarithms lie further apart than neighbours.

mod exported;
mod patterns;
mod tally;

use exported as ours;
use patterns::{mixed, patterns, whole, wide};
use std::cell::Cell;
use std::process::ExitCode;
use tally::Tally;

/// A prime, so that every end of the patterns is met.
const STRIDE: u32 = 4_001;

struct Wanted {
    stride: u32,
    only: Option<String>,
}

fn main() -> ExitCode {
    quiet::end_with_the_reader();
    let Some(wanted) = wanted(std::env::args().skip(1)) else {
        eprintln!("usage: leaves [--all | --stride N] [--only NAME]");
        return ExitCode::from(2);
    };
    println!("{}", Tally::HEAD);
    let mut run = 0;
    let mut failed = 0;
    for (name, compare) in LEAVES {
        if wanted.only.as_deref().map_or(true, |only| only == name) {
            let tally = compare(name, wanted.stride);
            println!("{tally}");
            run += 1;
            failed += u32::from(tally.differences > 0);
        }
    }
    println!("{} of {run} leaves agree", run - failed);
    ExitCode::from(u8::from(failed > 0 || run == 0))
}

fn wanted(mut words: impl Iterator<Item = String>) -> Option<Wanted> {
    let mut wanted = Wanted {
        stride: STRIDE,
        only: None,
    };
    while let Some(word) = words.next() {
        match word.as_str() {
            "--all" => wanted.stride = 1,
            "--stride" => wanted.stride = words.next()?.parse().ok().filter(|&n| n > 0)?,
            "--only" => wanted.only = Some(words.next()?),
            _ => return None,
        }
    }
    Some(wanted)
}

type Compare = fn(&'static str, u32) -> Tally;

const LEAVES: [(&str, Compare); 29] = [
    ("floor", |n, s| floats(n, s, ours::floor, f32::floor)),
    ("ceil", |n, s| floats(n, s, ours::ceil, f32::ceil)),
    ("round", |n, s| floats(n, s, ours::round, f32::round)),
    ("root", |n, s| floats(n, s, ours::root, f32::sqrt)),
    ("root_by", |n, s| floats(n, s, ours::root_by, f32::sqrt)),
    ("cos", |n, s| floats(n, s, ours::fast_cos, oracle::fast_cos)),
    ("erf", |n, s| {
        floats(n, s, ours::fast_erff, oracle::fast_erff)
    }),
    ("abs", |n, s| floats(n, s, ours::abs, f32::abs)),
    ("i64", |n, s| {
        Tally::of(n, values(s), ours::to_i64, |x| x as i64)
    }),
    ("i32", |n, s| {
        Tally::of(n, values(s), ours::to_i32, |x| x as i32)
    }),
    ("u64", |n, s| {
        Tally::of(n, values(s), ours::to_u64, |x| x as u64)
    }),
    ("i64 by kind", |n, s| {
        kinds(n, s, ours::kind_i64, i64::MIN.into(), i64::MAX.into())
    }),
    ("i32 by kind", |n, s| {
        kinds(n, s, ours::kind_i32, i32::MIN.into(), i32::MAX.into())
    }),
    ("u64 by kind", |n, s| {
        kinds(n, s, ours::kind_u64, 0, u64::MAX.into())
    }),
    ("negative", |n, s| {
        Tally::of(n, values(s), ours::negative, |x| {
            !x.is_nan() && x.is_sign_negative()
        })
    }),
    ("is_infinite", |n, s| {
        Tally::of(n, values(s), ours::is_infinite, f32::is_infinite)
    }),
    ("from u32", |n, s| {
        Tally::of(
            n,
            patterns(s),
            |b| Bits::of(ours::from_u32(b)),
            |b| Bits::of(b as f32),
        )
    }),
    ("from i32", |n, s| {
        Tally::of(
            n,
            patterns(s),
            |b| Bits::of(ours::from_i32(b as i32)),
            |b| Bits::of(b as i32 as f32),
        )
    }),
    ("from u64", |n, s| {
        Tally::of(
            n,
            wholes(s),
            |w| Bits::of(ours::from_u64(w)),
            |w| Bits::of(w as f32),
        )
    }),
    ("from i64", |n, s| {
        Tally::of(
            n,
            wholes(s),
            |w| Bits::of(ours::from_i64(w as i64)),
            |w| Bits::of(w as i64 as f32),
        )
    }),
    ("from f64", |n, s| {
        Tally::of(
            n,
            patterns(s).map(wide),
            |x| Bits::of(ours::from_f64(x)),
            |x| Bits::of(x as f32),
        )
    }),
    ("min", |n, s| {
        Tally::of(
            n,
            pairs(s),
            |(a, b)| Level::of(ours::min(a, b)),
            |(a, b)| Level::of(a.min(b)),
        )
    }),
    ("max", |n, s| {
        Tally::of(
            n,
            pairs(s),
            |(a, b)| Level::of(ours::max(a, b)),
            |(a, b)| Level::of(a.max(b)),
        )
    }),
    ("top", |n, s| {
        Tally::of(
            n,
            pairs(s),
            |(a, b)| Bits::of(ours::top(a.abs(), b.abs())),
            |(a, b)| Bits::of(greater(a.abs(), b.abs())),
        )
    }),
    ("u64 sum", |n, s| {
        Tally::of(
            n,
            whole_pairs(s),
            |(a, b)| ours::saturating_add(a, b),
            |(a, b)| a.saturating_add(b),
        )
    }),
    ("u64 product", |n, s| {
        Tally::of(
            n,
            whole_pairs(s),
            |(a, b)| ours::saturating_mul(a, b),
            |(a, b)| a.saturating_mul(b),
        )
    }),
    ("ceil_log2", |n, s| {
        Tally::of(
            n,
            wholes(s).map(|w| w.max(1)),
            ours::ceil_log2,
            oracle::ceil_log2,
        )
    }),
    ("length", lengths),
    ("ln", logarithms),
];

/// A float by its pattern, with one NaN.
#[derive(Clone, Copy, PartialEq, Debug)]
enum Bits {
    NotNumber,
    Pattern(u32),
}

impl Bits {
    fn of(x: f32) -> Bits {
        if x.is_nan() {
            Bits::NotNumber
        } else {
            Bits::Pattern(x.to_bits())
        }
    }
}

/// A float with one zero: which of two zeros `min` and `max` give is left open by Rust.
#[derive(PartialEq, Debug)]
struct Level(Bits);

impl Level {
    fn of(x: f32) -> Level {
        Level(Bits::of(if x == 0.0 { 0.0 } else { x }))
    }
}

fn values(stride: u32) -> impl Iterator<Item = f32> {
    patterns(stride).map(f32::from_bits)
}

fn wholes(stride: u32) -> impl Iterator<Item = u64> {
    patterns(stride).map(whole)
}

/// Every value beside one far away, itself, its negative, a NaN or an infinity.
fn pairs(stride: u32) -> impl Iterator<Item = (f32, f32)> {
    patterns(stride).map(|pattern| {
        let x = f32::from_bits(pattern);
        let far = f32::from_bits(mixed(pattern) as u32);
        let others = [far, far, x, -x, f32::NAN, f32::INFINITY];
        (x, others[(mixed(pattern) >> 32) as usize % others.len()])
    })
}

fn whole_pairs(stride: u32) -> impl Iterator<Item = (u64, u64)> {
    patterns(stride).map(|pattern| (whole(pattern), whole(mixed(pattern) as u32)))
}

fn greater(a: f32, b: f32) -> f32 {
    std::cmp::max_by(a, b, f32::total_cmp)
}

fn floats(name: &'static str, stride: u32, ours: fn(f32) -> f32, theirs: fn(f32) -> f32) -> Tally {
    Tally::of(
        name,
        values(stride),
        |x| Bits::of(ours(x)),
        |x| Bits::of(theirs(x)),
    )
}

/// The kind of each value as a whole number from `least` through `most`, by the number that the port gives it: 0 exact, 1 NaN, 2 below, 3 above. What 128 bits
/// cannot hold saturates, and is beyond every range all the same.
fn kinds(name: &'static str, stride: u32, ours: fn(f32) -> u32, least: i128, most: i128) -> Tally {
    Tally::of(name, values(stride), ours, |x| {
        if x.is_nan() {
            1
        } else if (x as i128) < least {
            2
        } else if x as i128 > most {
            3
        } else {
            0
        }
    })
}

/// All differences up to 200 either way, then 10^7 of any size (with a stride, every 100th of these).
fn lengths(name: &'static str, stride: u32) -> Tally {
    let small = (-200..=200).flat_map(|dx| (-200..=200).map(move |dy| (dx, dy)));
    let any = (0..10_000_000)
        .step_by(if stride == 1 { 1 } else { 100 })
        .map(|seed| {
            let bits = mixed(seed);
            let cut = |half: u64| (half as i32 >> 7) >> (seed % 25);
            (cut(bits), cut(bits >> 32))
        });
    let theirs = |(dx, dy): (i32, i32)| Bits::of(model::numbers::length(dx.into(), dy.into()));
    Tally::of(
        name,
        small.chain(any),
        |(dx, dy)| Bits::of(ours::length(dx, dy)),
        theirs,
    )
}

/// All positive finite values: a difference is more than one neighbour; smaller ones are counted in the note.
fn logarithms(name: &'static str, stride: u32) -> Tally {
    let positive = patterns(stride)
        .filter(|pattern| (1..0x7f80_0000).contains(pattern))
        .map(f32::from_bits);
    let beside = Cell::new(0);
    let near = |x: f32| {
        let steps = neighbours(ours::ln(x), x.ln());
        beside.set(beside.get() + u64::from(steps == 1));
        steps <= 1
    };
    let mut tally = Tally::of(name, positive, near, |_| true);
    tally.note = format!("{} differ by one neighbour", beside.get());
    tally
}

/// How many steps from one f32 to the other.
fn neighbours(a: f32, b: f32) -> u64 {
    let place = |x: f32| {
        let magnitude = i64::from(x.to_bits() & 0x7fff_ffff);
        if x.is_sign_negative() {
            -magnitude
        } else {
            magnitude
        }
    };
    place(a).abs_diff(place(b))
}
