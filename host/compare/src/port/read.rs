//! Reading: every list with rooms exact, larger, one short each, and none.

use super::lent::Lent;
use super::tally::Tally;
use super::{great, guarded, told_read, told_write};
use crate::verdict::{code_of, same_floats};
use cases::lists::{list_case, ListCase, KINDS};
use cases::random::Random;
use cases::{each, Code, Description, Refusal};
use model::list::limit;
use model::ListRooms;
use oracle::Outcome;
use port::{Answer, Parts};

const CASES_A_KIND: u64 = 6_000;

/// More splines or points are given no room.
const MOST_SPLINES: u64 = 1 << 10;
const MOST_POINTS: u64 = 1 << 20;

pub fn compare(tally: &mut Tally) {
    for (kind, seed) in each(&KINDS, CASES_A_KIND) {
        compare_case(tally, kind, seed, &list_case(kind, seed));
    }
    for (seed, case) in great::lists().iter().enumerate() {
        compare_case(tally, "great", seed as u64, case);
    }
}

fn compare_case(tally: &mut Tally, kind: &str, seed: u64, case: &ListCase) {
    tally.cases += 1;
    let original = original(case);
    for rooms in &rooms(exact_rooms(case), &mut Random::new("rooms", seed)) {
        let read = PortRead::of(case, rooms);
        let expected = model::read(&case.list, case.configured, case.pixels, rooms);
        tally.called(&expected);
        let mut wrong = Vec::new();
        if !read.is(&expected) {
            wrong.push(format!("model:     {:?}", told_read(&expected)));
        }
        let room = matches!(&expected, Err(refusal) if refusal.code == Code::Room);
        if let (Some(original), false) = (&original, room) {
            match original {
                Err(refusal) if matches!(refusal.code, Code::Short | Code::Trail) => {
                    tally.by_taken += 1
                }
                _ => tally.by_rust += 1,
            }
            if !read.is(original) {
                wrong.push(format!("spline.rs: {:?}", told_read(original)));
            }
        }
        if expected.is_ok() {
            tally.round_trips += 1;
            wrong.extend(read.not_written_back(case));
        }
        if !wrong.is_empty() {
            let told = read.told();
            tally.differs(format!(
                "read, kind {kind}, seed {seed}, {rooms:?}: {case:?}\n  port:      {told:?}, or cells differ\n  {}",
                wrong.join("\n  ")
            ));
        }
    }
}

/// These lengths, the same with one short each, larger ones, and none.
pub fn rooms(exact: ListRooms, r: &mut Random) -> Vec<ListRooms> {
    let more = |n: u64, r: &mut Random| n + r.within(1, 9) as u64;
    let larger = ListRooms {
        counts: more(exact.counts, r),
        starts: more(exact.starts, r),
        deltas: more(exact.deltas, r),
        coefficients: more(exact.coefficients, r),
    };
    let none = ListRooms {
        counts: 0,
        starts: 0,
        deltas: 0,
        coefficients: 0,
    };
    let less = |n: u64| n.saturating_sub(1);
    let short = [
        ListRooms {
            counts: less(exact.counts),
            ..exact
        },
        ListRooms {
            starts: less(exact.starts),
            ..exact
        },
        ListRooms {
            deltas: less(exact.deltas),
            ..exact
        },
        ListRooms {
            coefficients: less(exact.coefficients),
            ..exact
        },
    ];
    [exact, larger, none].into_iter().chain(short).collect()
}

/// What the list says of itself, as far as it goes and within the limit.
fn exact_rooms(case: &ListCase) -> ListRooms {
    let list = &case.list;
    let most = limit(case.configured, case.pixels);
    let said = list.first().map_or(1, |&less_one| u64::from(less_one) + 1);
    let splines = said.min(most).min(MOST_SPLINES);
    let (mut place, mut points) = (2 + 2 * said as usize, 0);
    for _ in 0..splines {
        let Some(&count) = list.get(place) else { break };
        points += u64::from(count);
        place += 129 + 2 * count as usize;
    }
    ListRooms {
        counts: splines,
        starts: 2 * splines,
        deltas: 2 * points.min(most).min(MOST_POINTS),
        coefficients: 128 * splines,
    }
}

/// What spline.rs makes of the list in the scope's words; `None` if it lacks memory or panics.
pub fn original(case: &ListCase) -> Option<Result<Description, Refusal>> {
    let read = oracle::read(&case.list, case.configured, case.pixels);
    let length = case.list.len();
    let refuse = |code, place| {
        Some(Err(Refusal {
            code,
            place: place as u64,
        }))
    };
    match read.outcome {
        Outcome::Panicked(_) | Outcome::NoMemory => None,
        _ if read.ran_short => refuse(Code::Short, length),
        Outcome::Done(_) if read.consumed < length => refuse(Code::Trail, read.consumed),
        Outcome::Done(description) => Some(Ok(description)),
        Outcome::Refused(why) => {
            let code = code_of(why);
            let values = match code {
                Code::Splines | Code::Points => 1,
                _ => 2,
            };
            refuse(code, read.consumed - values)
        }
    }
}

/// What the port answered, and the buffers afterwards.
pub struct PortRead {
    code: u32,
    answer: Answer,
    counts: Lent<u32>,
    starts: Lent<f32>,
    deltas: Lent<i32>,
    coefficients: Lent<i32>,
}

impl PortRead {
    pub fn of(case: &ListCase, rooms: &ListRooms) -> PortRead {
        PortRead::by(rooms, |counts, starts, deltas, coefficients| {
            guarded::read(
                &case.list,
                case.configured,
                case.pixels,
                counts,
                starts,
                deltas,
                coefficients,
            )
        })
    }

    pub fn of_trace(file: &[u8], rooms: &ListRooms) -> PortRead {
        PortRead::by_trace(port::trace_read_into, file, rooms)
    }

    pub fn of_trace2(file: &[u8], rooms: &ListRooms) -> PortRead {
        PortRead::by_trace(port::trace_read2_into, file, rooms)
    }

    fn by_trace(call: guarded::TraceRead, file: &[u8], rooms: &ListRooms) -> PortRead {
        PortRead::by(rooms, |counts, starts, deltas, coefficients| {
            guarded::trace_read(call, file, counts, starts, deltas, coefficients)
        })
    }

    /// By a call that is lent the four parts of a description.
    pub(super) fn by(
        rooms: &ListRooms,
        call: impl FnOnce(&mut [u32], &mut [f32], &mut [i32], &mut [i32]) -> (u32, Answer),
    ) -> PortRead {
        let mut counts = Lent::new(rooms.counts as usize);
        let mut starts = Lent::new(rooms.starts as usize);
        let mut deltas = Lent::new(rooms.deltas as usize);
        let mut coefficients = Lent::new(rooms.coefficients as usize);
        let (code, answer) = call(
            counts.lend(),
            starts.lend(),
            deltas.lend(),
            coefficients.lend(),
        );
        PortRead {
            code,
            answer,
            counts,
            starts,
            deltas,
            coefficients,
        }
    }

    pub fn told(&self) -> (u32, Answer) {
        (self.code, self.answer)
    }

    /// Whether code, place, counts and every cell are as expected.
    pub fn is(&self, expected: &Result<Description, Refusal>) -> bool {
        let nothing = Description::default();
        self.told() == told_read(expected) && self.holds(expected.as_ref().unwrap_or(&nothing))
    }

    /// Whether every cell is this description's.
    pub fn holds(&self, description: &Description) -> bool {
        self.counts.holds(&description.counts)
            && self.starts.holds(&description.starts)
            && self.deltas.holds(&description.deltas)
            && self.coefficients.holds(&description.coefficients)
    }

    /// Every cell of the four parts.
    pub(super) fn left(&self) -> (&[u32], &[f32], &[i32], &[i32]) {
        (
            self.counts.lent(),
            self.starts.lent(),
            self.deltas.lent(),
            self.coefficients.lent(),
        )
    }

    /// What was read, to be written; `None` if the counts pass the buffers.
    pub fn parts(&self) -> Option<Parts<'_>> {
        let [_, splines, points, adjustment, _] = self.answer;
        let (splines, points) = (splines as usize, points as usize);
        Some(Parts {
            counts: self.counts.lent().get(..splines)?,
            starts: self.starts.lent().get(..2 * splines)?,
            deltas: self.deltas.lent().get(..2 * points)?,
            coefficients: self.coefficients.lent().get(..128 * splines)?,
            adjustment: adjustment as i32,
        })
    }

    /// In words, if the port does not write what it read as the same list.
    pub fn not_written_back(&self, case: &ListCase) -> Option<String> {
        let Some(parts) = self.parts() else {
            return Some(String::from("the counts pass the buffers"));
        };
        let mut list = Lent::new(case.list.len());
        let told = guarded::write(&parts, case.configured, case.pixels, list.lend());
        let same = told == told_write(&Ok(case.list.clone())) && list.holds(&case.list);
        (!same).then(|| format!("written back: {told:?}, or another list"))
    }
}

/// The lengths that hold just this description.
pub fn rooms_of(description: &Description) -> ListRooms {
    ListRooms {
        counts: description.counts.len() as u64,
        starts: description.starts.len() as u64,
        deltas: description.deltas.len() as u64,
        coefficients: description.coefficients.len() as u64,
    }
}

/// In words, if the port does not read this list as the description, or spline.rs does not.
pub fn not_read_back(case: &ListCase, description: &Description) -> Option<String> {
    let read = PortRead::of(case, &rooms_of(description));
    if !read.is(&Ok(description.clone())) {
        let told = read.told();
        return Some(format!("read back: {told:?}, or cells differ"));
    }
    let same = matches!(original(case), Some(Ok(other)) if other == *description && same_floats(&other.starts, &description.starts));
    (!same).then(|| String::from("spline.rs reads another description"))
}
