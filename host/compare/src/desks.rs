//! Drawing and reach of built tables for either desk: spline.rs builds the description without the hidden splines, and draws its own segments in its own rows.

use crate::draw::{Channels, Judge};
use crate::reach::Probe;
use crate::tally::Tally;
use crate::verdict::{equal, same_floats, Verdict};
use cases::descriptions::{build_case, BuildCase};
use cases::desks::{without, Sight};
use cases::random::Random;
use cases::{each, FlatTable};
use oracle::Outcome;

const CASES_A_KIND: u64 = 150;

/// Descriptions of several splines.
pub const DESK_KINDS: [&str; 4] = ["crowd", "fibres", "skipped", "sigma"];

/// Rows drawn for each desk, and the width that they are drawn to.
const ROWS: u64 = 6;
const WIDTH: u32 = 160;

pub fn compare(tally: &mut Tally) {
    for (kind, seed) in each(&DESK_KINDS, CASES_A_KIND) {
        let case = build_case(kind, seed);
        let Ok(built) = model::build(&case.description, &case.given, &model::AMPLE) else {
            continue;
        };
        let table = FlatTable::from(&built);
        let r = &mut Random::new("desks", seed);
        let mut sight = any_sight(&case, r);
        for desk in [0, 1] {
            sight.desk = desk;
            let Some(judge) = judge(&case, &sight) else {
                continue;
            };
            for _ in 0..ROWS.min(table.height.into()) {
                let y = r.below(table.height.into()) as u32;
                let verdict = against_oracle(&table, &sight, &judge, y);
                tally.add(kind, seed, &(&case, &sight, y), verdict);
            }
        }
    }
}

/// Any bytes, one a spline or more, some of them with neither desk's bit.
pub fn any_sight(case: &BuildCase, r: &mut Random) -> Sight {
    let splines = case.description.counts.len() as u64;
    let bytes = splines + r.pick(&[0, 0, 1, 7]);
    Sight {
        splines,
        bits: (0..bytes)
            .map(|_| r.next() as u8 & r.pick(&[0xff, 0xfc]))
            .collect(),
        desk: 0,
    }
}

/// What spline.rs builds of the description without what the desk has hidden; `None` where it lacks memory.
pub fn judge(case: &BuildCase, sight: &Sight) -> Option<Judge> {
    let hidden = |spline: u64| sight.bits[spline as usize] >> sight.desk & 1 == 1;
    let rest = without(&case.description, hidden);
    match oracle::build(&rest, &case.given) {
        Outcome::Done(built) => Some(Judge::of(FlatTable::from(&built.table))),
        Outcome::NoMemory => None,
        other => panic!("spline.rs takes fewer splines of what it takes: {case:?}, {other:?}"),
    }
}

/// One row whole, and its reach.
fn against_oracle(table: &FlatTable, sight: &Sight, judge: &Judge, y: u32) -> Verdict {
    let before: Channels = [0.5, -1.0, 0.25].map(|cell| vec![cell; WIDTH as usize]);
    let mut mine = before.clone();
    let [r0, r1, r2] = &mut mine;
    let updates = match model::draw(table, sight, y, 0, WIDTH, [r0, r1, r2]) {
        Err(refusal) => return equal(false, &refusal, &"a row of the image"),
        Ok(updates) => updates,
    };
    let theirs = judge.draw(y, 0, WIDTH, &before);
    if theirs.0 != Some(updates) || !same_floats(&mine.concat(), &theirs.1.concat()) {
        return equal(false, &(updates, mine), &theirs);
    }
    let reach = model::reach(table, sight, y, WIDTH).unwrap_or((u32::MAX, 0));
    match Probe::of(&judge.table, y).wrong(WIDTH, reach) {
        None => Verdict::Same,
        Some(words) => equal(false, &reach, &words),
    }
}
