//! Reading.

use crate::tally::Tally;
use crate::verdict::{equal, hold, same_floats, Verdict};
use cases::lists::{list_case, ListCase, KINDS};
use cases::{each, Code, Description, Refusal};
use model::ListRooms;
use oracle::{Outcome, Read};

const CASES_A_KIND: u64 = 800;

/// More than any list here needs.
pub const ROOMS: ListRooms = ListRooms {
    counts: u64::MAX,
    starts: u64::MAX,
    deltas: u64::MAX,
    coefficients: u64::MAX,
};

pub fn compare(tally: &mut Tally) {
    for (kind, seed) in each(&KINDS, CASES_A_KIND) {
        let case = list_case(kind, seed);
        tally.add(kind, seed, &case, against_oracle(&case));
    }
    for (seed, list) in (0..).zip(CUT_IN_A_PAIR) {
        let case = ListCase {
            list: list.to_vec(),
            configured: 9,
            pixels: 99,
        };
        tally.add("cut in a pair", seed, &case, against_oracle(&case));
    }
}

/// A pair whose x is refused, cut after its x and after its y: a first start, a later one, a double delta.
const CUT_IN_A_PAIR: [&[u32]; 6] = [
    &[0, 1 << 23],
    &[0, 1 << 23, 5],
    &[1, 5, 6, u32::MAX],
    &[1, 5, 6, u32::MAX, 0],
    &[0, 1, 2, 3, 1, u32::MAX],
    &[0, 1, 2, 3, 1, u32::MAX, 0],
];

fn against_oracle(case: &ListCase) -> Verdict {
    let mine = model::read(&case.list, case.configured, case.pixels, &ROOMS);
    let theirs = oracle::read(&case.list, case.configured, case.pixels);
    if !same_progress(&mine, &theirs, case.list.len()) {
        return equal(false, &mine, &theirs);
    }
    hold(
        &mine.map_err(|refusal| refusal.code),
        &theirs.outcome,
        same_description,
    )
}

/// Whether spline.rs took as many values as the model's place says, and ran short only where the model says SHORT.
fn same_progress(mine: &Result<Description, Refusal>, theirs: &Read, length: usize) -> bool {
    let taken = theirs.consumed as u64;
    match mine {
        Ok(_) => taken == length as u64 && !theirs.ran_short,
        Err(Refusal { code, place }) => match code {
            Code::Short => theirs.ran_short && *place == length as u64,
            Code::Trail => taken == *place && matches!(theirs.outcome, Outcome::Done(_)),
            Code::Splines | Code::Points => taken == place + 1 && !theirs.ran_short,
            _ => taken == place + 2 && !theirs.ran_short,
        },
    }
}

pub fn same_description(a: &Description, b: &Description) -> bool {
    a.counts == b.counts
        && same_floats(&a.starts, &b.starts)
        && a.deltas == b.deltas
        && a.coefficients == b.coefficients
        && a.adjustment == b.adjustment
}
