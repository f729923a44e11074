//! Two desks over built tables: hides by either, and rows drawn in parts between which the other desk hides and shows what it likes. Each part is held against spline.rs, which
//! builds the description without what the desk has hidden. Then hides as they come, with every byte.

use super::draw::{row_in_parts, WIDTH};
use super::reach::compare_reach;
use super::tally::Tally;
use super::{guarded, told_refusal};
use crate::desks::{any_sight, judge, DESK_KINDS};
use crate::draw::Judge;
use crate::reach::Probe;
use cases::descriptions::build_case;
use cases::desks::Sight;
use cases::random::Random;
use cases::{each, FlatTable};

const TABLES_A_KIND: u64 = 400;
const HIDES: u64 = 40_000;

/// Turns of a desk with a table, and the rows that it draws in each.
const TURNS: u32 = 4;
const ROWS: u64 = 6;

pub fn compare(tally: &mut Tally) {
    for (kind, seed) in each(&DESK_KINDS, TABLES_A_KIND) {
        let case = build_case(kind, seed);
        let Ok(built) = model::build(&case.description, &case.given, &model::AMPLE) else {
            continue;
        };
        tally.cases += 1;
        let table = FlatTable::from(&built);
        let r = &mut Random::new("two desks", seed);
        let mut sight = any_sight(&case, r);
        for turn in 0..TURNS {
            sight.desk = turn % 2;
            hides(tally, &mut sight, r);
            if let Some(judge) = judge(&case, &sight) {
                let words = format!("{kind}, seed {seed}, turn {turn}");
                draw_rows(tally, &words, &table, &mut sight, &judge, r);
            }
        }
    }
}

/// Some rows in parts, with the other desk and nobody's bits at work between them, and the reach of each.
fn draw_rows(
    tally: &mut Tally,
    turn: &str,
    table: &FlatTable,
    sight: &mut Sight,
    judge: &Judge,
    r: &mut Random,
) {
    for _ in 0..ROWS.min(table.height.into()) {
        let y = r.below(table.height.into()) as u32;
        let words = format!("{turn}, row {y}");
        row_in_parts(tally, &words, table, sight, judge, y, r, others);
        let wrong = |reach| Probe::of(&judge.table, y).wrong(WIDTH, reach);
        compare_reach(tally, table, sight, y, WIDTH, wrong, || {
            format!("{turn}, {sight:?}")
        });
    }
}

/// Hides and shows splines for both desks, by the port and by the second reading alike.
fn hides(tally: &mut Tally, sight: &mut Sight, r: &mut Random) {
    for _ in 0..r.below(6) {
        let spline = r.below(sight.splines);
        one_hide(
            tally,
            &mut sight.bits,
            r.below(2) as u32,
            spline,
            r.once_in(2),
        );
    }
}

/// What is nothing to the desk: the other desk's hides, other numbers in nobody's bits and in bytes without a spline.
fn others(sight: &mut Sight, r: &mut Random) {
    let other = 1 - sight.desk;
    for _ in 0..r.below(3) {
        let spline = r.below(sight.splines);
        let (code, _) = guarded::hide(&mut sight.bits, other, spline, r.once_in(2));
        assert_eq!(code, 0, "a desk hides what it likes");
    }
    for (spline, byte) in (0..).zip(&mut sight.bits) {
        let free = if spline < sight.splines { 0xfc } else { 0xff };
        *byte ^= r.next() as u8 & free;
    }
    if r.once_in(4) {
        sight.bits.push(r.next() as u8);
    }
}

/// Bytes of every length up to some, desks and splines at their limits.
pub fn compare_hide(tally: &mut Tally) {
    for seed in cases::seeds(HIDES) {
        tally.cases += 1;
        let r = &mut Random::new("hide", seed);
        let mut bits: Vec<u8> = (0..r.below(9)).map(|_| r.next() as u8).collect();
        let lent = bits.len() as u64;
        for hidden in [true, false] {
            let desk = r.pick(&[0, 1, 0, 1, 0, 1, 2, 3, u32::MAX]);
            let inside = r.below(lent + 1);
            let spline = r.pick(&[
                inside,
                inside,
                inside,
                lent.saturating_sub(1),
                lent,
                u64::MAX,
            ]);
            one_hide(tally, &mut bits, desk, spline, hidden);
        }
    }
}

pub(super) fn one_hide(tally: &mut Tally, bits: &mut [u8], desk: u32, spline: u64, hidden: bool) {
    tally.called(&model::hide(&mut bits.to_vec(), desk, spline, hidden));
    if let Some(words) = wrong_hide(bits, desk, spline, hidden) {
        tally.differs(words);
    }
}

/// In words, if the port's hide is not that of the second reading.
pub fn wrong_hide(bits: &mut [u8], desk: u32, spline: u64, hidden: bool) -> Option<String> {
    let before = bits.to_vec();
    let mut due = before.clone();
    let told = match model::hide(&mut due, desk, spline, hidden) {
        Ok(()) => (0, [0; 5]),
        Err(refusal) => told_refusal(&refusal),
    };
    let found = guarded::hide(bits, desk, spline, hidden);
    let same = found == told && *bits == due[..];
    (!same).then(|| format!(
        "hide, desk {desk}, spline {spline}, hidden {hidden}: {before:?}\n  port: {found:?} {bits:?}\n  model: {told:?} {due:?}"
    ))
}
