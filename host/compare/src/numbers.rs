//! Single numbers: unpacking, limits, inverse quant, lengths, cosine and error function.

use crate::tally::Tally;
use crate::verdict::{equal, same_floats, Verdict};
use cases::random::Random;
use model::{dequantize, draw, list, numbers, transform};
use std::fmt::Debug;

const CASES: u64 = 4_000;

pub fn compare(tally: &mut Tally) {
    for seed in 0..CASES {
        let r = &mut Random::new("numbers", seed);
        whole_numbers(tally, seed, r);
        floats(tally, seed, r);
    }
    let mine: Vec<f32> = (0..32).map(transform::multiplier).collect();
    let theirs = oracle::dct_multipliers();
    let verdict = equal(same_floats(&mine, &theirs), &mine, &theirs);
    tally.add("multipliers", 0, &"all 32", verdict);
}

fn whole_numbers(tally: &mut Tally, seed: u64, r: &mut Random) {
    let u = r.any_i32() as u32;
    let unpacked = whole(list::unpack(u), oracle::unpack_signed(u));
    tally.add("unpack", seed, &u, unpacked);

    let level10 = r.once_in(2);
    let area = r.next() >> (18 + r.below(46));
    let (mine, theirs) = (dequantize::area_limit, oracle::spline_area_limit);
    let limit = whole(mine(level10, area), theirs(level10, area));
    tally.add("area limit", seed, &(level10, area), limit);

    let n = (r.next() >> r.below(64)).wrapping_add(r.below(3)).max(1);
    let logarithm = whole(dequantize::ceil_log2(n), oracle::ceil_log2(n));
    tally.add("ceil_log2", seed, &n, logarithm);
}

fn floats(tally: &mut Tally, seed: u64, r: &mut Random) {
    let a = r.any_i32();
    let inverse = float(dequantize::inverse_quant(a), oracle::inv_adjusted_quant(a));
    tally.add("inverse quant", seed, &a, inverse);

    let x = r.any_f32();
    let cosine = float(transform::fast_cos(x), oracle::fast_cos(x));
    tally.add("cosine", seed, &x, cosine);
    let erf = float(draw::erf(x), oracle::fast_erff(x));
    tally.add("erf", seed, &x, erf);

    let (dx, dy) = (r.any_i32() >> 8, r.any_i32() >> 8);
    let mine = numbers::length(dx.into(), dy.into());
    let length = float(mine, oracle::length(dx as f32, dy as f32));
    tally.add("length", seed, &(dx, dy), length);
}

fn whole<N: PartialEq + Debug>(mine: N, theirs: N) -> Verdict {
    equal(mine == theirs, &mine, &theirs)
}

fn float(mine: f32, theirs: f32) -> Verdict {
    equal(same_floats(&[mine], &[theirs]), &mine, &theirs)
}
