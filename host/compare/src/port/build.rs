//! Building: every description with rooms exact, larger, one short each, and none.

use super::lent::{Cell, Lent};
use super::tally::Tally;
use super::{guarded, parts, told_build};
use crate::build::same_table;
use crate::verdict::{code_of, no_equality};
use cases::descriptions::{build_case, BuildCase, KINDS, OWNER_KINDS, SLOW_KINDS};
use cases::random::Random;
use cases::{bits, each, few, Code, FlatTable, Given, Refusal, Table};
use model::list::well_shaped;
use model::{BuildRooms, Taken};
use oracle::Outcome;
use port::{Answer, Buffers, Image};
use std::borrow::Cow;
use std::thread;

const CASES_A_KIND: u64 = 1_200;
const SLOW_CASES_A_KIND: u64 = 12;

/// Rooms for a description that is refused before it is drawn, in records; the row starts are as many as are due, but for SIZE, which comes before them.
const SOME: u64 = 40;
/// No more row starts are lent than the tallest image has.
const MOST_ROW_STARTS: u64 = (1 << 23) + 1;
/// A table with more numbers than this is left out: the buffers would not fit into memory.
const MOST_NUMBERS: u64 = 1 << 28;

/// Building takes longer than all other calls together, so threads share its cases by turns, the same in every run.
const THREADS: usize = 2;

pub fn compare(tally: &mut Tally) {
    thread::scope(|threads| {
        let share = |first| {
            let share = tally.none_yet();
            threads.spawn(move || compare_share(share, first))
        };
        let running: Vec<_> = (0..THREADS).map(share).collect();
        for share in running {
            tally.join(&share.join().expect("a share of the cases ends"));
        }
    });
    // These need much memory and go one by one.
    for (kind, seed) in few(&SLOW_KINDS, SLOW_CASES_A_KIND) {
        compare_case(tally, kind, seed);
    }
}

fn compare_share(mut share: Tally, first: usize) -> Tally {
    let all = each(&KINDS, CASES_A_KIND).chain(each(&OWNER_KINDS, CASES_A_KIND));
    for (kind, seed) in all.skip(first).step_by(THREADS) {
        compare_case(&mut share, kind, seed);
    }
    share
}

fn compare_case(tally: &mut Tally, kind: &str, seed: u64) {
    let case = build_case(kind, seed);
    let whole = original(&case);
    let model = Expected::of(&case);
    let Some(exact) = exact_rooms(&case, &model) else {
        return;
    };
    tally.cases += 1;
    for rooms in rooms(&exact, &mut Random::new("rooms", seed)) {
        let expected = &*model.in_rooms(&case, &rooms, seed);
        tally.called(expected);
        let built = PortBuilt::of(&case, &rooms);
        let mut wrong = Vec::new();
        if !built.is(expected) {
            wrong.push(format!("model:     {:?}", told_build(expected)));
        }
        if let (Some(original), true) = (&whole, rust_decides(expected)) {
            tally.by_rust += 1;
            if !same_outcome(original, expected) || !built.is(original) {
                wrong.push(format!("spline.rs: {:?}", told_build(original)));
            }
        }
        if !wrong.is_empty() {
            let told = built.told();
            tally.differs(format!(
                "build, kind {kind}, seed {seed}, {rooms:?}: {case:?}\n  port:      {told:?}, or cells differ\n  {}",
                wrong.join("\n  ")
            ));
        }
    }
}

/// What the second reading builds of a case: once in ample rooms where it is done there, and else in each rooms.
pub(super) struct Expected {
    ample: Result<Table, Refusal>,
    taken: Option<Taken>,
}

/// Of so many seeds one is built in each rooms in any case, and held against what follows from the ample ones.
const BUILT_AGAIN: u64 = 16;

impl Expected {
    pub(super) fn of(case: &BuildCase) -> Expected {
        match model::measure(&case.description, &case.given) {
            Ok((table, taken)) => Expected {
                ample: Ok(table),
                taken: Some(taken),
            },
            Err(refusal) => Expected {
                ample: Err(refusal),
                taken: None,
            },
        }
    }

    pub(super) fn in_rooms(
        &self,
        case: &BuildCase,
        rooms: &BuildRooms,
        seed: u64,
    ) -> Cow<'_, Result<Table, Refusal>> {
        let built = || model::build(&case.description, &case.given, rooms);
        let Some(taken) = &self.taken else {
            return Cow::Owned(built());
        };
        let expected = match taken.in_rooms(rooms) {
            Ok(()) => Cow::Borrowed(&self.ample),
            Err(refusal) => Cow::Owned(Err(refusal)),
        };
        if seed % BUILT_AGAIN == 0 {
            assert!(
                same_outcome(&built(), &expected),
                "what a build takes does not tell what it is in {rooms:?}: {case:?}"
            );
        }
        expected
    }
}

/// The lengths with which the build is just done, or some where it is refused; `None` for a table past all memory.
pub(super) fn exact_rooms(case: &BuildCase, model: &Expected) -> Option<BuildRooms> {
    let row_starts = match model.ample {
        Err(refusal) if refusal.code == Code::Size => SOME,
        _ => (u64::from(case.given.height) + 1).min(MOST_ROW_STARTS),
    };
    let some = BuildRooms {
        path: 2 * SOME,
        walk: 3 * SOME,
        segments: 8 * SOME,
        owners: SOME,
        row_starts,
        entries: SOME,
    };
    let least = model.taken.as_ref().map_or(some, |taken| taken.least);
    let numbers = least.path + least.walk + least.segments + least.entries;
    (numbers <= MOST_NUMBERS).then_some(least)
}

/// Exact, larger, one short each, and none; no owners beside exact others; and owners or segments one short beside larger
/// others, so that each of the two bounds the segments alone.
pub(super) fn rooms(exact: &BuildRooms, r: &mut Random) -> Vec<BuildRooms> {
    let mut more = |n: u64| n + r.within(1, 9) as u64;
    let larger = BuildRooms {
        path: more(exact.path),
        walk: more(exact.walk),
        segments: more(exact.segments),
        owners: more(exact.owners),
        row_starts: more(exact.row_starts),
        entries: more(exact.entries),
    };
    let none = BuildRooms {
        path: 0,
        walk: 0,
        segments: 0,
        owners: 0,
        row_starts: 0,
        entries: 0,
    };
    let short = |part: fn(&mut BuildRooms) -> &mut u64| {
        let mut rooms = *exact;
        let length = part(&mut rooms);
        *length = length.saturating_sub(1);
        rooms
    };
    vec![
        *exact,
        larger,
        none,
        short(|rooms| &mut rooms.path),
        short(|rooms| &mut rooms.walk),
        short(|rooms| &mut rooms.segments),
        short(|rooms| &mut rooms.owners),
        BuildRooms {
            owners: 0,
            ..*exact
        },
        BuildRooms {
            owners: exact.owners.saturating_sub(1),
            ..larger
        },
        BuildRooms {
            segments: exact.segments.saturating_sub(1),
            ..larger
        },
        short(|rooms| &mut rooms.row_starts),
        short(|rooms| &mut rooms.entries),
    ]
}

/// Whether the answer is one that spline.rs gives too.
pub(super) fn rust_decides(expected: &Result<Table, Refusal>) -> bool {
    !matches!(expected, Err(refusal) if no_equality(refusal.code) || refusal.code == Code::Delta)
}

/// What spline.rs makes of a description in the scope's words; `None` if its lengths disagree, or if it lacks memory or panics.
pub(super) fn original(case: &BuildCase) -> Option<Result<Table, Refusal>> {
    let BuildCase { description, given } = case;
    if !well_shaped(description) {
        return None;
    }
    match oracle::build(description, given) {
        Outcome::Panicked(_) | Outcome::NoMemory => None,
        Outcome::Done(built) => Some(Ok(built.table)),
        Outcome::Refused(why) => {
            let place = oracle::refused_spline(description, given)? as u64;
            Some(Err(Refusal {
                code: code_of(why),
                place,
            }))
        }
    }
}

fn same_outcome(a: &Result<Table, Refusal>, b: &Result<Table, Refusal>) -> bool {
    match (a, b) {
        (Ok(a), Ok(b)) => same_table(a, b),
        (Err(a), Err(b)) => a == b,
        _ => false,
    }
}

pub(super) fn image(given: &Given) -> Image {
    Image {
        width: given.width,
        height: given.height,
        y_to_x: given.y_to_x,
        y_to_b: given.y_to_b,
        high_precision: given.high_precision,
        level10: given.level10,
    }
}

/// What the port answered, and the buffers afterwards.
pub struct PortBuilt {
    code: u32,
    answer: Answer,
    path: Lent<f32>,
    walk: Lent<f32>,
    segments: Lent<f32>,
    owners: Lent<u64>,
    row_starts: Lent<u32>,
    entries: Lent<u32>,
}

impl PortBuilt {
    pub fn of(case: &BuildCase, rooms: &BuildRooms) -> PortBuilt {
        let (parts, image) = (parts(&case.description), image(&case.given));
        PortBuilt::by(rooms, |lent| guarded::build(&parts, &image, lent))
    }

    pub fn of_profile(case: &BuildCase, edition: u32, rooms: &BuildRooms) -> PortBuilt {
        let (parts, image) = (parts(&case.description), image(&case.given));
        PortBuilt::by(rooms, |lent| {
            guarded::build_profile(&parts, &image, edition, lent)
        })
    }

    /// By a call that is lent the buffers of a build.
    pub(super) fn by(rooms: &BuildRooms, call: impl FnOnce(Buffers) -> (u32, Answer)) -> PortBuilt {
        let mut path = lent(rooms.path);
        let mut walk = lent(rooms.walk);
        let mut segments = lent(rooms.segments);
        let mut owners = lent(rooms.owners);
        let mut row_starts = lent(rooms.row_starts);
        let mut entries = lent(rooms.entries);
        let (code, answer) = call(Buffers {
            path: path.lend(),
            walk: walk.lend(),
            segments: segments.lend(),
            owners: owners.lend(),
            row_starts: row_starts.lend(),
            entries: entries.lend(),
        });
        PortBuilt {
            code,
            answer,
            path,
            walk,
            segments,
            owners,
            row_starts,
            entries,
        }
    }

    pub fn told(&self) -> (u32, Answer) {
        (self.code, self.answer)
    }

    /// Whether code, place, counts and every cell are as expected; any NaN counts as NaN.
    pub fn is(&self, expected: &Result<Table, Refusal>) -> bool {
        let nothing = Table::default();
        self.told() == told_build(expected) && self.holds(expected.as_ref().unwrap_or(&nothing))
    }

    /// Whether every cell is this table's.
    pub fn holds(&self, table: &Table) -> bool {
        self.path.holds(&[])
            && self.walk.holds(&[])
            && self
                .segments
                .holds_as(&table.segments.concat(), |a, b| bits(a) == bits(b))
            && self.owners.holds(&table.owners)
            && self.row_starts.holds(&table.row_starts)
            && self.entries.holds(&table.entries)
    }

    /// The cells of the table, with its counts as they were told, for an image of this height.
    pub(super) fn table(&self, height: u32) -> FlatTable {
        FlatTable {
            segments: self.segments.lent().to_vec(),
            owners: self.owners.lent().to_vec(),
            segment_count: self.answer[1] as u32,
            entries: self.entries.lent().to_vec(),
            entry_count: self.answer[2] as u32,
            row_starts: self.row_starts.lent().to_vec(),
            height,
        }
    }

    /// Whether another build of as many cells told and left the same, bit by bit.
    pub fn is_as(&self, other: &PortBuilt) -> bool {
        self.told() == other.told()
            && self.path.holds(other.path.lent())
            && self.walk.holds(other.walk.lent())
            && self.segments.holds(other.segments.lent())
            && self.owners.holds(other.owners.lent())
            && self.row_starts.holds(other.row_starts.lent())
            && self.entries.holds(other.entries.lent())
    }
}

fn lent<T: Cell>(room: u64) -> Lent<T> {
    Lent::new(room as usize)
}
