//! Writing: every description with list rooms exact, larger, one short, and none.

use super::lent::Lent;
use super::read::not_read_back;
use super::tally::Tally;
use super::{great, guarded, parts, told_write};
use cases::lists::{write_case, ListCase, WriteCase, WRITE_KINDS};
use cases::random::Random;
use cases::{each, Description, Refusal};
use port::Answer;

const CASES_A_KIND: u64 = 3_000;

pub fn compare(tally: &mut Tally) {
    for (kind, seed) in each(&WRITE_KINDS, CASES_A_KIND) {
        compare_case(tally, kind, seed, &write_case(kind, seed));
    }
    for (kind, seed) in each(&HOSTILE, CASES_A_KIND) {
        compare_case(tally, kind, seed, &hostile_case(kind, seed));
    }
    for (seed, case) in great::descriptions().iter().enumerate() {
        compare_case(tally, "great", seed as u64, case);
    }
}

fn compare_case(tally: &mut Tally, kind: &str, seed: u64, case: &WriteCase) {
    tally.cases += 1;
    let exact = exact_room(&case.description);
    let mut rooms = vec![
        exact,
        exact + 1 + seed % 9,
        0,
        case.list_room.min(exact + 4),
    ];
    rooms.extend(exact.checked_sub(1));
    for room in rooms {
        let written = PortWritten::of(case, room);
        let expected = model::write(&case.description, case.configured, case.pixels, room);
        tally.called(&expected);
        let mut wrong = Vec::new();
        if !written.is(&expected) {
            wrong.push(format!("model: {:?}", told_write(&expected)));
        }
        if let Ok(list) = expected {
            let list_case = ListCase {
                list,
                configured: case.configured,
                pixels: case.pixels,
            };
            tally.by_rust += 1;
            tally.round_trips += 1;
            wrong.extend(not_read_back(&list_case, &case.description));
        }
        if !wrong.is_empty() {
            let told = written.told();
            tally.differs(format!(
                "write, kind {kind}, seed {seed}, room {room}: {case:?}\n  port:  {told:?}, or cells differ\n  {}",
                wrong.join("\n  ")
            ));
        }
    }
}

/// How many values the list of a description has, if its lengths agree.
pub(super) fn exact_room(description: &Description) -> u64 {
    (2 + 131 * description.counts.len() + description.deltas.len()) as u64
}

/// Descriptions that only a hostile caller has.
const HOSTILE: [&str; 3] = ["sum-of-32-bits", "double-of-32-bits", "two-starts"];

fn hostile_case(kind: &str, seed: u64) -> WriteCase {
    let mut case = write_case("fibres", seed);
    let r = &mut Random::new(kind, seed);
    let description = &mut case.description;
    let splines = description.counts.len();
    match kind {
        // In 32 bits the sum of the counts is what the double deltas hold.
        "sum-of-32-bits" => {
            if splines == 1 {
                description.counts.push(0);
                description.starts.extend([1.0, 2.0]);
                description.coefficients.extend([3; 128]);
            }
            let share = 1 + r.next() as u32 / 2;
            for (index, more) in [(0, share), (1, share.wrapping_neg())] {
                description.counts[index] = description.counts[index].wrapping_add(more);
            }
        }
        // In 32 bits twice the sum is.
        "double-of-32-bits" => {
            let index = r.below(splines as u64) as usize;
            description.counts[index] = description.counts[index].wrapping_add(1 << 31);
        }
        // Any two numbers as a start.
        _ => {
            let first = 2 * r.below(splines as u64) as usize;
            description.starts[first] = r.any_f32();
            description.starts[first + 1] = r.any_f32();
        }
    }
    case
}

/// What the port answered, and the list afterwards.
pub struct PortWritten {
    code: u32,
    answer: Answer,
    list: Lent<u32>,
}

impl PortWritten {
    pub fn of(case: &WriteCase, room: u64) -> PortWritten {
        let parts = parts(&case.description);
        PortWritten::by(room, |list| {
            guarded::write(&parts, case.configured, case.pixels, list)
        })
    }

    /// By a call that is lent so much of a list.
    pub(super) fn by(room: u64, call: impl FnOnce(&mut [u32]) -> (u32, Answer)) -> PortWritten {
        let mut list = Lent::new(room as usize);
        let (code, answer) = call(list.lend());
        PortWritten { code, answer, list }
    }

    /// Every cell of the list.
    pub(super) fn left(&self) -> &[u32] {
        self.list.lent()
    }

    pub fn told(&self) -> (u32, Answer) {
        (self.code, self.answer)
    }

    /// Whether code, place, count and every cell are as expected.
    pub fn is(&self, expected: &Result<Vec<u32>, Refusal>) -> bool {
        self.told() == told_write(expected) && self.list.holds(expected.as_deref().unwrap_or(&[]))
    }
}
