//! Writing, judged by reading back: spline.rs has no writer.

use crate::read::{same_description, ROOMS};
use crate::tally::Tally;
use crate::verdict::{equal, hold, Verdict};
use cases::lists::{encoded, list_case, write_case, ListCase, WriteCase, KINDS, WRITE_KINDS};
use cases::{each, Code};

const CASES_A_KIND: u64 = 400;

pub fn compare(tally: &mut Tally) {
    for (kind, seed) in each(&WRITE_KINDS, CASES_A_KIND) {
        let case = write_case(kind, seed);
        tally.add(kind, seed, &case, read_back(&case));
    }
    for (kind, seed) in each(&KINDS, CASES_A_KIND) {
        let case = list_case(kind, seed);
        tally.add(kind, seed, &case, written_again(&case));
    }
}

/// What is written is read by spline.rs as the description; what is refused would be refused by it too, if it can be listed.
fn read_back(case: &WriteCase) -> Verdict {
    let written = model::write(
        &case.description,
        case.configured,
        case.pixels,
        case.list_room,
    );
    let list = match &written {
        Ok(list) => list.clone(),
        Err(refusal) if unlistable(case, refusal.code) => return Verdict::Outside(refusal.code),
        Err(_) => encoded(&case.description),
    };
    let read = oracle::read(&list, case.configured, case.pixels);
    let mine = written
        .map(|_| &case.description)
        .map_err(|refusal| refusal.code);
    hold(&mine, &read.outcome, |mine, theirs| {
        same_description(mine, theirs)
    })
}

/// Whether this refusal is the writer's own, so that no list would show it to a reader.
fn unlistable(case: &WriteCase, code: Code) -> bool {
    let starts = &case.description.starts;
    let listable = |start: &f32| {
        start.abs() < 2f32.powi(30) && start.fract() == 0.0 && start.to_bits() != 1 << 31
    };
    match code {
        Code::Shape | Code::Room => true,
        Code::Splines => case.description.counts.is_empty(),
        Code::Coord => {
            !starts.iter().all(listable) || starts.iter().take(2).any(|&start| start < 0.0)
        }
        _ => false,
    }
}

/// What spline.rs reads whole is written as the same list.
fn written_again(case: &ListCase) -> Verdict {
    let read = match model::read(&case.list, case.configured, case.pixels, &ROOMS) {
        Err(refusal) => return Verdict::Outside(refusal.code),
        Ok(_) => oracle::read(&case.list, case.configured, case.pixels)
            .outcome
            .done(),
    };
    let Some(description) = read else {
        return equal(false, &"read", &"not read");
    };
    let written = model::write(
        &description,
        case.configured,
        case.pixels,
        case.list.len() as u64,
    );
    equal(written.as_ref() == Ok(&case.list), &written, &case.list)
}
