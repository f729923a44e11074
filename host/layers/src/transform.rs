//! The transform: four rows of any coefficients at any t.

use crate::exported;
use crate::tally::Tally;
use cases::random::Random;
use compare::transform::{row, sum_starts_from_plus_zero};
use compare::verdict::same_floats;

pub const TRANSFORMS: u64 = 100_000;
pub const OUTCOMES: [&str; 5] = ["in range", "below 0", "above 31", "not finite", "NaN sums"];

/// Mostly ordinary ones with none, one or two of any kind among them; else special ones throughout.
fn coefficients(r: &mut Random, t: f32) -> [f32; 32] {
    if r.once_in(4) {
        return row(r, t);
    }
    let mut cells = [(); 32].map(|()| r.between(-5.0, 5.0));
    for _ in 0..r.below(3) {
        cells[r.below(32) as usize] = r.any_f32();
    }
    cells
}

pub fn compare(tally: &mut Tally) {
    for seed in 0..TRANSFORMS {
        let r = &mut Random::new("sums", seed);
        let t = match r.below(4) {
            0 => r.any_f32(),
            1 => r.within(-8, 70) as f32 / 2.0,
            _ => r.between(0.0, 31.0),
        };
        let rows = [(); 4].map(|()| coefficients(r, t));
        tally.case(match t {
            _ if !t.is_finite() => "not finite",
            _ if t < 0.0 => "below 0",
            _ if t > 31.0 => "above 31",
            _ => "in range",
        });
        let ours = exported::sums_at(&rows, t);
        let theirs = rows.map(|row| oracle::transform(&row, t));
        if theirs.iter().any(|sum| sum.is_nan()) {
            tally.also("NaN sums");
        }
        let same = if sum_starts_from_plus_zero() {
            // An older compiler's sum differs in the sign of a zero: docs/DIFFERENCES.md.
            same_floats(&ours.map(|sum| sum + 0.0), &theirs.map(|sum| sum + 0.0))
        } else {
            same_floats(&ours, &theirs)
        };
        tally.hold(&(t, rows), ours, theirs, same);
    }
}
