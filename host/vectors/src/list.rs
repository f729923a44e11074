//! Reading lists, and writing back what was read.

use crate::frame::Case;
use crate::{kinds, words};
use cases::lists::{list_case, ListCase, KINDS};
use cases::{each, Code};
use oracle::{Outcome, Read};

const LONGEST: usize = 600;

/// Code, place, and after a success the description.
fn answer(case: &ListCase, read: &Read) -> Vec<u32> {
    let (length, taken) = (case.list.len(), read.consumed);
    let refused = |code: Code, place: usize| vec![code as u32, place as u32];
    match &read.outcome {
        _ if read.ran_short => refused(Code::Short, length),
        Outcome::Done(_) if taken < length => refused(Code::Trail, taken),
        Outcome::Done(description) => [vec![0, 0], words::description(description)].concat(),
        Outcome::Refused(why) => match oracle::code_of(*why) {
            code @ (Code::Splines | Code::Points) => refused(code, taken - 1),
            code => refused(code, taken - 2),
        },
        Outcome::Panicked(message) => panic!("reading panicked: {message}"),
        Outcome::NoMemory => panic!("reading ran out of memory"),
    }
}

pub fn cases(seeds: u64) -> Vec<Case> {
    let mut reads = Vec::new();
    let mut writes = Vec::new();
    for (kind, seed) in each(&KINDS, seeds) {
        let case = list_case(kind, seed);
        if case.list.len() > LONGEST {
            continue;
        }
        let read = oracle::read(&case.list, case.configured, case.pixels);
        let output = answer(&case, &read);
        let limits = vec![case.configured, case.pixels];
        if output[0] == 0 {
            let input = [limits.clone(), output[2..].to_vec()].concat();
            writes.push(Case {
                kind: kinds::WRITE,
                input,
                output: case.list.clone(),
            });
        }
        reads.push(Case {
            kind: kinds::READ,
            input: [limits, case.list].concat(),
            output,
        });
    }
    reads.extend(writes);
    reads
}
