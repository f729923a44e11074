//! The area limit and the inverse quant.

use crate::exported;
use crate::tally::Tally;
use cases::random::Random;

pub const LIMITS: u64 = 100_000;
pub const OUTCOMES: [&str; 4] = [
    "area below the greatest limit",
    "area at the greatest limit",
    "adjustment below 0",
    "adjustment 0 or above",
];

/// The area limit of images of every size and around where it stops growing; the inverse quant of every adjustment.
pub fn compare(tally: &mut Tally) {
    for seed in 0..LIMITS / 2 {
        let r = &mut Random::new("limits", seed);
        let level10 = r.once_in(2);
        let stops: i64 = if level10 { 4290772992 } else { 130023424 };
        let area = if r.once_in(2) {
            (stops + r.within(-3, 3)) as u64
        } else {
            r.next() >> r.below(64)
        };
        tally.case(if area < stops as u64 {
            "area below the greatest limit"
        } else {
            "area at the greatest limit"
        });
        let ours = exported::spline_area_limit(level10, area);
        let theirs = oracle::spline_area_limit(level10, area);
        tally.equal(&(level10, area), ours, theirs);
        let adjustment = r.any_i32();
        tally.case(if adjustment < 0 {
            "adjustment below 0"
        } else {
            "adjustment 0 or above"
        });
        let ours = exported::inv_adjusted_quant(adjustment).to_bits();
        let theirs = oracle::inv_adjusted_quant(adjustment).to_bits();
        tally.equal(&("adjustment", adjustment), ours, theirs);
    }
}
