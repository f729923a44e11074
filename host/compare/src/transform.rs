//! The transform at a t.

use crate::tally::Tally;
use crate::verdict::{equal, same_floats, Verdict};
use cases::random::Random;
use model::transform::{cosines, transform};

const CASES: u64 = 3_000;

pub fn compare(tally: &mut Tally) {
    for seed in 0..CASES {
        let r = &mut Random::new("transform", seed);
        let t = if r.once_in(4) {
            r.any_f32()
        } else {
            r.between(0.0, 31.0)
        };
        let row = row(r, t);
        let verdict = against_oracle(tally, &row, t);
        tally.add("any", seed, &(row, t), verdict);
    }
}

fn against_oracle(tally: &mut Tally, row: &[f32; 32], t: f32) -> Verdict {
    let cosines = cosines(t);
    let (mine, theirs) = (transform(row, &cosines), oracle::transform(row, t));
    if mine.to_bits() != theirs.to_bits() && mine == theirs && sum_starts_from_plus_zero() {
        tally.listed("the sign of a zero sum");
        return Verdict::Same;
    }
    let same = same_floats(&cosines, &oracle::cosines(t)) && same_floats(&[mine], &[theirs]);
    equal(same, &mine, &theirs)
}

/// Older compilers start a float sum there, newer ones from minus zero, which is as good as from the first number.
pub fn sum_starts_from_plus_zero() -> bool {
    std::iter::empty::<f32>().sum::<f32>().is_sign_positive()
}

/// Ordinary coefficients, zeros of both signs, products that are all minus zero, or anything.
pub fn row(r: &mut Random, t: f32) -> [f32; 32] {
    let kind = r.below(4);
    cosines(t).map(|cosine| match kind {
        0 => r.between(-5.0, 5.0),
        1 => r.pick(&[0.0, -0.0, 1.0]),
        2 => 0f32.copysign(-cosine),
        _ => r.any_f32(),
    })
}
