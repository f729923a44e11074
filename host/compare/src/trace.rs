//! The trace file of both versions, which spline.rs does not know: the second reading against itself. What is read is written as the same bytes, what
//! is written is read as the same description, and every code of it is given.

use crate::tally::Tally;
use crate::verdict::{equal, same_floats, Verdict};
use cases::traces::{trace_file, trace_file2, traced, FILE2_KINDS, FILE_KINDS, TRACED_KINDS};
use cases::{each, Description};
use model::ListRooms;

const CASES_A_KIND: u64 = 2_048;

const AMPLE: ListRooms = ListRooms {
    counts: u64::MAX,
    starts: u64::MAX,
    deltas: u64::MAX,
    coefficients: u64::MAX,
};

pub fn compare(tally: &mut Tally) {
    for (kind, seed) in each(&FILE_KINDS, CASES_A_KIND) {
        let file = trace_file(kind, seed);
        tally.add(kind, seed, &file, read_and_written(&file));
    }
    for (kind, seed) in each(&TRACED_KINDS, CASES_A_KIND) {
        let description = traced(kind, seed);
        tally.add(kind, seed, &description, written_and_read(&description));
    }
}

pub fn compare2(tally: &mut Tally) {
    for (kind, seed) in each(&FILE_KINDS, CASES_A_KIND).chain(each(&FILE2_KINDS, CASES_A_KIND)) {
        let file = trace_file2(kind, seed);
        tally.add(kind, seed, &file, read_and_written2(&file));
    }
    for (kind, seed) in each(&TRACED_KINDS, CASES_A_KIND) {
        let description = traced(kind, seed);
        for (version, edition) in VERSIONS_AND_EDITIONS {
            let verdict = written_and_read2(&description, version, edition);
            tally.add(kind, seed, &(version, edition, &description), verdict);
        }
    }
}

/// Those that go together first.
pub const VERSIONS_AND_EDITIONS: [(u32, u32); 10] = [
    (1, 1),
    (2, 1),
    (2, 2),
    (1, 2),
    (0, 1),
    (3, 2),
    (2, 0),
    (2, 3),
    (u32::MAX, u32::MAX),
    (1, 0),
];

fn read_and_written2(file: &[u8]) -> Verdict {
    match model::trace_read2(file, &AMPLE) {
        Err(refusal) => Verdict::Outside(refusal.code),
        Ok((description, edition)) => {
            let version = u32::from(file[0]);
            let written = model::trace_write2(&description, version, edition, u64::MAX);
            let older = model::trace_read(file, &AMPLE).is_ok();
            let same = written.as_deref() == Ok(file) && older == (version == 1);
            equal(same, &file, &written)
        }
    }
}

fn written_and_read2(description: &Description, version: u32, edition: u32) -> Verdict {
    match model::trace_write2(description, version, edition, u64::MAX) {
        Err(refusal) => Verdict::Outside(refusal.code),
        Ok(file) => {
            let read = model::trace_read2(&file, &AMPLE);
            let same = |(read, told): &(Description, u32)| {
                *told == edition
                    && read == description
                    && same_floats(&read.starts, &description.starts)
            };
            equal(read.as_ref().is_ok_and(same), description, &read)
        }
    }
}

fn read_and_written(file: &[u8]) -> Verdict {
    match model::trace_read(file, &AMPLE) {
        Err(refusal) => Verdict::Outside(refusal.code),
        Ok(description) => {
            let written = model::trace_write(&description, u64::MAX);
            equal(written.as_deref() == Ok(file), &file, &written)
        }
    }
}

fn written_and_read(description: &Description) -> Verdict {
    match model::trace_write(description, u64::MAX) {
        Err(refusal) => Verdict::Outside(refusal.code),
        Ok(file) => {
            let read = model::trace_read(&file, &AMPLE);
            let same = |read: &Description| {
                read == description && same_floats(&read.starts, &description.starts)
            };
            equal(read.as_ref().is_ok_and(same), description, &read)
        }
    }
}
