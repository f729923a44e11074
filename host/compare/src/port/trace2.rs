//! Trace files of either version: reading with rooms exact, larger, one short each and none, writing likewise with every version and edition, both
//! round trips, version 1 as the older calls have it, and the older reader on files of version 2.

use super::read::{rooms, rooms_of, PortRead};
use super::tally::Tally;
use super::trace::{compare_zeros, said_rooms, PortTrace};
use super::{parts, told_read, told_write};
use crate::trace::VERSIONS_AND_EDITIONS;
use cases::random::Random;
use cases::traces::{trace_file, trace_file2, traced, FILE2_KINDS, FILE_KINDS, TRACED_KINDS};
use cases::{each, Description, Refusal};
use model::ListRooms;
use port::Answer;

/// Enough for each byte of a file without splines to be each other one.
const FILES_A_KIND: u64 = 9_216;
const OLD_FILES_A_KIND: u64 = 2_048;
const DESCRIPTIONS_A_KIND: u64 = 1_024;

/// More than any of the files holds.
const MOST_SPLINES: u64 = 8;
const MOST_POINTS: u64 = 64;

pub fn compare_read(tally: &mut Tally) {
    for (kind, seed) in each(&FILE_KINDS, FILES_A_KIND).chain(each(&FILE2_KINDS, FILES_A_KIND)) {
        compare_file(tally, kind, seed, &trace_file2(kind, seed));
    }
    for (kind, seed) in each(&FILE_KINDS, OLD_FILES_A_KIND) {
        compare_file(tally, kind, seed, &trace_file(kind, seed));
    }
}

fn compare_file(tally: &mut Tally, kind: &str, seed: u64, file: &[u8]) {
    tally.cases += 1;
    let said = said_rooms(file, MOST_SPLINES, MOST_POINTS);
    for rooms in &rooms(said, &mut Random::new("rooms", seed)) {
        let expected = model::trace_read2(file, rooms);
        tally.called(&expected);
        tally.round_trips += u64::from(expected.is_ok());
        if let Some(words) = wrong_read(file, rooms, &expected) {
            tally.differs(format!(
                "trace file of either version, kind {kind}, seed {seed}, {rooms:?}: {file:?}\n  {words}"
            ));
        }
    }
}

pub(super) type Expected = Result<(Description, u32), Refusal>;

/// The code and answer that stand for a description that was read with its edition, or for a refusal.
pub(super) fn told_read2(expected: &Expected) -> (u32, Answer) {
    let (code, mut answer) = told_read(&expected.clone().map(|(description, _)| description));
    if let Ok((_, edition)) = expected {
        answer[4] = (*edition).into();
    }
    (code, answer)
}

/// In words, if the port reads this file otherwise, if its older call does, or if it does not write what it read as the same bytes.
pub fn wrong_read(file: &[u8], rooms: &ListRooms, expected: &Expected) -> Option<String> {
    let read = PortRead::of_trace2(file, rooms);
    let (told, due) = (read.told(), told_read2(expected));
    let nothing = Description::default();
    let description = match expected {
        Ok((description, _)) => description,
        Err(_) => &nothing,
    };
    if told != due || !read.holds(description) {
        return Some(format!(
            "port:  {told:?}, or cells differ\n  model: {due:?}"
        ));
    }
    let older = PortRead::of_trace(file, rooms);
    if !older.is(&model::trace_read(file, rooms)) {
        return Some(format!("the older call: {:?}", older.told()));
    }
    let Ok((_, edition)) = expected else {
        return None;
    };
    let parts = read.parts().expect("counts as expected");
    let written = PortTrace::of_version(&parts, file[0].into(), *edition, file.len() as u64);
    let same = written.is(&Ok(file.to_vec()));
    (!same).then(|| format!("written back: {:?}, or other bytes", written.told()))
}

pub fn compare_write(tally: &mut Tally) {
    for (kind, seed) in each(&TRACED_KINDS, DESCRIPTIONS_A_KIND) {
        let description = traced(kind, seed);
        tally.cases += 1;
        for (version, edition) in VERSIONS_AND_EDITIONS {
            compare_description(tally, (kind, seed), &description, version, edition);
        }
    }
    for (place, numbers) in too_great() {
        compare_zeros(tally, place, numbers, |parts, bytes| {
            port::trace_write2(parts, 2, 2, bytes)
        });
    }
}

fn compare_description(
    tally: &mut Tally,
    (kind, seed): (&str, u64),
    description: &Description,
    version: u32,
    edition: u32,
) {
    let exact = match model::trace_write2(description, version, edition, u64::MAX) {
        Ok(file) => file.len() as u64,
        Err(_) => 600,
    };
    for room in [exact, exact + 1 + seed % 9, exact - 1, 35, 0] {
        let expected = model::trace_write2(description, version, edition, room);
        tally.called(&expected);
        tally.round_trips += u64::from(expected.is_ok());
        if let Some(words) = wrong_write(description, version, edition, room, &expected) {
            tally.differs(format!(
                "trace to be written, kind {kind}, seed {seed}, version {version}, edition {edition}, room {room}: {description:?}\n  {words}"
            ));
        }
    }
}

/// In words, if the port writes this description otherwise, or not as its older call at version 1 and edition 1, or does not read what it wrote as
/// the same.
pub fn wrong_write(
    description: &Description,
    version: u32,
    edition: u32,
    room: u64,
    expected: &Result<Vec<u8>, Refusal>,
) -> Option<String> {
    let parts = parts(description);
    let written = PortTrace::of_version(&parts, version, edition, room);
    if !written.is(expected) {
        let (told, due) = (written.told(), told_write(expected));
        return Some(format!(
            "port:  {told:?}, or cells differ\n  model: {due:?}"
        ));
    }
    if (version, edition) == (1, 1) {
        let older = PortTrace::of(&parts, room);
        if !older.is(expected) {
            return Some(format!("the older call: {:?}", older.told()));
        }
    }
    let Ok(file) = expected else { return None };
    let due = Ok((description.clone(), edition));
    let read = PortRead::of_trace2(file, &rooms_of(description));
    let same = read.told() == told_read2(&due) && read.holds(description);
    (!same).then(|| format!("read back: {:?}, or cells differ", read.told()))
}

/// As of version 1, with parts that start four bytes later.
fn too_great() -> Vec<(u64, (u64, u64))> {
    let mut sizes = vec![(28, (1, 1 << 29)), (8, (2, 1 << 32))];
    if cases::whole_run() {
        sizes.extend([(24, (357_913_939, 0)), (20, ((1 << 30) - 9, 0))]);
    }
    sizes
}
