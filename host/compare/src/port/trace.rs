//! The trace file: reading with rooms exact, larger, one short each and none, writing likewise, both round trips, and descriptions so great that a
//! header cannot hold them.

use super::lent::Lent;
use super::pages::endless;
use super::read::{rooms, rooms_of, PortRead};
use super::tally::Tally;
use super::{great, guarded, parts, told_read, told_write};
use cases::random::Random;
use cases::traces::{trace_file, traced, FILE_KINDS, TRACED_KINDS};
use cases::{each, Code, Description, Refusal};
use model::ListRooms;
use port::{Answer, Parts};

const FILES_A_KIND: u64 = 8_192;
const DESCRIPTIONS_A_KIND: u64 = 4_096;

/// A file that says more of itself is given no room for it.
const MOST_SPLINES: u64 = 1 << 10;
const MOST_POINTS: u64 = 1 << 20;
/// Nor is one that says more points than it has bytes, but for one in so many: most of the time went to filling such rooms.
const WITH_ROOM: u64 = 64;

pub fn compare_read(tally: &mut Tally) {
    for (kind, seed) in each(&FILE_KINDS, FILES_A_KIND) {
        compare_file(tally, kind, seed, &trace_file(kind, seed));
    }
    for (seed, file) in (0..).zip(great::files()) {
        compare_file(tally, "great", seed, &file);
    }
}

fn compare_file(tally: &mut Tally, kind: &str, seed: u64, file: &[u8]) {
    tally.cases += 1;
    let most_points = match seed % WITH_ROOM {
        0 => MOST_POINTS,
        _ => MOST_POINTS.min(file.len() as u64),
    };
    let said = said_rooms(file, MOST_SPLINES, most_points);
    for rooms in &rooms(said, &mut Random::new("rooms", seed)) {
        let expected = model::trace_read(file, rooms);
        tally.called(&expected);
        let wrong = wrong_read(file, rooms, &expected);
        tally.round_trips += u64::from(expected.is_ok());
        if let Some(words) = wrong {
            tally.differs(format!(
                "trace file, kind {kind}, seed {seed}, {rooms:?}: {file:?}\n  {words}"
            ));
        }
    }
}

/// In words, if the port reads this file otherwise, or does not write what it read as the same bytes.
pub fn wrong_read(
    file: &[u8],
    rooms: &ListRooms,
    expected: &Result<Description, Refusal>,
) -> Option<String> {
    let read = PortRead::of_trace(file, rooms);
    if !read.is(expected) {
        let (told, due) = (read.told(), told_read(expected));
        return Some(format!(
            "port:  {told:?}, or cells differ\n  model: {due:?}"
        ));
    }
    if expected.is_err() {
        return None;
    }
    let parts = read.parts().expect("counts as expected");
    let written = PortTrace::of(&parts, file.len() as u64);
    let same = written.is(&Ok(file.to_vec()));
    (!same).then(|| format!("written back: {:?}, or other bytes", written.told()))
}

/// What the file says of itself, as far as it goes, up to so many splines and points.
pub(super) fn said_rooms(file: &[u8], most_splines: u64, most_points: u64) -> ListRooms {
    let number = |first: usize| match file.get(first..first + 4) {
        Some(four) => u64::from(u32::from_le_bytes(four.try_into().expect("four of them"))),
        None => 1,
    };
    let splines = number(4).min(most_splines);
    ListRooms {
        counts: splines,
        starts: 2 * splines,
        deltas: 2 * number(8).min(most_points),
        coefficients: 128 * splines,
    }
}

/// What the port answered, and the bytes afterwards.
pub struct PortTrace {
    code: u32,
    answer: Answer,
    bytes: Lent<u8>,
}

impl PortTrace {
    pub fn of(parts: &Parts, room: u64) -> PortTrace {
        PortTrace::by(room, |bytes| guarded::trace_write(parts, bytes))
    }

    pub fn of_version(parts: &Parts, version: u32, edition: u32, room: u64) -> PortTrace {
        PortTrace::by(room, |bytes| {
            guarded::trace_write2(parts, version, edition, bytes)
        })
    }

    /// By a call that is lent so many bytes.
    pub(super) fn by(room: u64, call: impl FnOnce(&mut [u8]) -> (u32, Answer)) -> PortTrace {
        let mut bytes = Lent::new(room as usize);
        let (code, answer) = call(bytes.lend());
        PortTrace {
            code,
            answer,
            bytes,
        }
    }

    /// Every byte.
    pub(super) fn left(&self) -> &[u8] {
        self.bytes.lent()
    }

    pub fn told(&self) -> (u32, Answer) {
        (self.code, self.answer)
    }

    /// Whether code, place, count and every byte are as expected.
    pub fn is(&self, expected: &Result<Vec<u8>, Refusal>) -> bool {
        self.told() == told_write(expected) && self.bytes.holds(expected.as_deref().unwrap_or(&[]))
    }
}

pub fn compare_write(tally: &mut Tally) {
    for (kind, seed) in each(&TRACED_KINDS, DESCRIPTIONS_A_KIND) {
        compare_description(tally, kind, seed, &traced(kind, seed));
    }
    for (seed, case) in (0..).zip(great::descriptions()) {
        compare_description(tally, "great", seed, &case.description);
    }
    for (place, numbers) in too_great() {
        compare_too_great(tally, place, numbers);
    }
}

fn compare_description(tally: &mut Tally, kind: &str, seed: u64, description: &Description) {
    tally.cases += 1;
    // The header, and four bytes a number.
    let numbers = description.counts.len()
        + description.starts.len()
        + description.deltas.len()
        + description.coefficients.len();
    let exact = 32 + 4 * numbers as u64;
    for room in [exact, exact + 1 + seed % 9, exact - 1, 31, 0] {
        let expected = model::trace_write(description, room);
        tally.called(&expected);
        tally.round_trips += u64::from(expected.is_ok());
        if let Some(words) = wrong_write(description, room, &expected) {
            tally.differs(format!(
                "trace to be written, kind {kind}, seed {seed}, room {room}: {description:?}\n  {words}"
            ));
        }
    }
}

/// In words, if the port writes this description otherwise, or does not read what it wrote as the same.
pub fn wrong_write(
    description: &Description,
    room: u64,
    expected: &Result<Vec<u8>, Refusal>,
) -> Option<String> {
    let written = PortTrace::of(&parts(description), room);
    if !written.is(expected) {
        let (told, due) = (written.told(), told_write(expected));
        return Some(format!(
            "port:  {told:?}, or cells differ\n  model: {due:?}"
        ));
    }
    let Ok(file) = expected else { return None };
    let read = PortRead::of_trace(file, &rooms_of(description));
    let same = read.is(&Ok(description.clone()));
    (!same).then(|| format!("read back: {:?}, or cells differ", read.told()))
}

/// Splines and points of descriptions of zeros, with the place of the header's number that 32 bits cannot hold. All points are the first
/// splines', as far as a count goes. The slow ones are for a whole run: every count is added up.
fn too_great() -> Vec<(u64, (u64, u64))> {
    let mut sizes = vec![(28, (1, 1 << 29)), (8, (2, 1 << 32))];
    if cases::whole_run() {
        sizes.extend([
            (24, (357_913_939, 0)),
            (20, ((1 << 30) - 8, 0)),
            (4, (1 << 32, 0)),
        ]);
    }
    sizes
}

fn compare_too_great(tally: &mut Tally, place: u64, (splines, points): (u64, u64)) {
    compare_zeros(tally, place, (splines, points), |parts, bytes| {
        port::trace_write(parts, bytes)
    });
}

/// A description of zeros that is to be refused with HEADER at this place.
pub(super) fn compare_zeros(
    tally: &mut Tally,
    place: u64,
    (splines, points): (u64, u64),
    call: impl FnOnce(&Parts, &mut [u8]) -> (u32, Answer),
) {
    tally.cases += 1;
    let expected: Result<Vec<u8>, Refusal> = Err(Refusal {
        code: Code::Header,
        place,
    });
    tally.called(&expected);
    let first = u32::try_from(points).unwrap_or(u32::MAX);
    let few = [first, (points - u64::from(first)) as u32];
    let parts = Parts {
        counts: match splines {
            1 | 2 => &few[..splines as usize],
            _ => endless(splines),
        },
        starts: endless(2 * splines),
        deltas: endless(2 * points),
        coefficients: endless(128 * splines),
        adjustment: 0,
    };
    let mut bytes = Lent::new(64);
    let (code, answer) = call(&parts, bytes.lend());
    if (code, answer) != told_write(&expected) || !bytes.holds(&[]) {
        tally.differs(format!(
            "trace to be written, {splines} splines, {points} points: {:?}, due {expected:?}",
            (code, answer)
        ));
    }
}
