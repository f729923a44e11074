//! The logarithm, against the second reading's steps; host/leaves has it over all patterns.

use super::tally::Tally;
use cases::random::Random;
use cases::{bits, each, Refusal};

const CASES: u64 = 50_000;

pub fn compare(tally: &mut Tally) {
    for (kind, seed) in each(&["ln"], CASES) {
        tally.cases += 1;
        compare_one(tally, Random::new(kind, seed).any_f32());
    }
}

pub(super) fn compare_one(tally: &mut Tally, x: f32) {
    tally.called::<()>(&Ok::<_, Refusal>(()));
    let (found, expected) = (port::ln(x), model::logarithm::ln(x));
    if bits(found) != bits(expected) {
        tally.differs(format!(
            "ln {x:?}\n  port: {found:?}\n  model: {expected:?}"
        ));
    }
}
