//! A day on the sampling line: calls of every kind, at random, each on what earlier ones left: descriptions, lists, trace files of both versions, texts of points, a table of our
//! own and one of the other maker, the bits and the bands of two desks, and rows that are being drawn. Every answer and every cell is held against the second reading, and
//! against spline.rs where that decides.

mod tables;
mod traces;

use super::tally::Tally;
use super::{ln, pages};
use cases::random::Random;
use tables::Tables;
use traces::Traces;

/// The calls, and how many in a hundred each of them is.
const CALLS: [(&str, u64); 18] = [
    ("read", 7),
    ("write", 5),
    ("trace-in", 5),
    ("trace-out", 4),
    ("trace2-in", 5),
    ("trace2-out", 5),
    ("line-in", 6),
    ("line-out", 6),
    ("profile", 4),
    ("build", 7),
    ("by-profile", 4),
    ("check", 5),
    ("draw", 12),
    ("reach", 6),
    ("hide", 8),
    ("bands", 4),
    ("band", 6),
    ("ln", 1),
];

/// So many calls of the day with this seed: what each kind of them came to.
pub fn run(seed: u64, count: u64, progress: bool) -> Vec<Tally> {
    pages::sides_from(seed);
    let r = &mut Random::new("mixed", seed);
    let mut tallies = CALLS.map(|(name, _)| Tally::new(name, false));
    let (mut traces, mut tables) = (Traces::new(), Tables::new());
    for step in 0..count {
        let call = next(r);
        let (name, tally) = (CALLS[call].0, &mut tallies[call]);
        tally.cases += 1;
        let words = || format!("mixed {seed}, call {step}");
        match name {
            "read" => traces.read(tally, r, words),
            "write" => traces.write(tally, r, words),
            "trace-in" => traces.trace_read(tally, r, words),
            "trace-out" => traces.trace_write(tally, r, words),
            "trace2-in" => traces.trace_read2(tally, r, words),
            "trace2-out" => traces.trace_write2(tally, r, words),
            "line-in" => traces.points_read(tally, r, words),
            "line-out" => traces.points_write(tally, r, words),
            "profile" => traces.profile(tally, r, words),
            "build" | "by-profile" => {
                let edition = (name == "by-profile").then(|| traces::edition(r));
                let description = traces.any(r);
                tables.build(tally, r, description, edition, words);
            }
            "check" => tables.check(tally, r, words),
            "draw" => tables.draw(tally, r, words),
            "reach" => tables.reach(tally, r, words),
            "hide" => tables.hide(tally, r),
            "bands" => tables.bands(tally, r, words),
            "band" => tables.band(tally, r, words),
            _ => ln::compare_one(tally, r.any_f32()),
        }
        if progress && (step + 1) % CALLS_A_LINE == 0 {
            eprintln!("mixed {seed}: {} calls", step + 1);
        }
    }
    tallies.into()
}

/// Calls from one line of progress to the next.
const CALLS_A_LINE: u64 = 100_000;

/// The next call, by its number.
fn next(r: &mut Random) -> usize {
    let all = CALLS.iter().map(|call| call.1).sum();
    let mut left = r.below(all);
    let chosen = CALLS.iter().position(|&(_, share)| match left < share {
        true => true,
        false => {
            left -= share;
            false
        }
    });
    chosen.expect("the shares are all of them")
}

/// What an earlier call left, as far as it goes, in what is lent to a later one.
fn leave<T: Copy>(left: &[T], lent: &mut [T]) {
    let both = left.len().min(lent.len());
    lent[..both].copy_from_slice(&left[..both]);
}

/// A room: just what is due, more, and now and then one too few or none.
fn room(r: &mut Random, due: u64) -> u64 {
    match r.below(12) {
        0 => due.saturating_sub(1),
        1 => r.below(due + 1),
        2..=5 => due,
        _ => due + r.below(9),
    }
}
