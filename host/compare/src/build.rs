//! Building the whole table.

use crate::tally::Tally;
use crate::verdict::{equal, hold, no_equality, other_nans, same_floats, Verdict};
use cases::descriptions::{build_case, BuildCase, KINDS, OWNER_KINDS, SLOW_KINDS};
use cases::{each, Code, Table};
use model::segments::all_rows;
use model::AMPLE;
use oracle::{Built, Outcome};

const CASES_A_KIND: u64 = 400;
const SLOW_CASES_A_KIND: u64 = 12;

/// Quick kinds by the hundred, slow ones a few each.
fn all_cases() -> impl Iterator<Item = (&'static str, u64)> {
    let quick = each(&KINDS, CASES_A_KIND).chain(each(&OWNER_KINDS, CASES_A_KIND));
    quick.chain(each(&SLOW_KINDS, SLOW_CASES_A_KIND))
}

pub fn compare(tally: &mut Tally) {
    for (kind, seed) in all_cases() {
        let case = build_case(kind, seed);
        let verdict = against_oracle(tally, &case);
        tally.add(kind, seed, &case, verdict);
    }
}

fn against_oracle(tally: &mut Tally, case: &BuildCase) -> Verdict {
    let BuildCase { description, given } = case;
    let mine = model::build(description, given, &AMPLE);
    if let Err(refusal) = &mine {
        if no_equality(refusal.code) || refusal.code == Code::Delta {
            return Verdict::Outside(refusal.code);
        }
        let place = oracle::refused_spline(description, given).map(|number| number as u64);
        if place != Some(refusal.place) {
            return equal(false, refusal, &place);
        }
    }
    let theirs = oracle::build(description, given);
    match (&mine, &theirs) {
        (Ok(table), Outcome::Done(built)) => note_listed(tally, table, built),
        (Ok(table), Outcome::NoMemory) if stored(table) < 1 << 22 => {
            return equal(false, &"a small table", &theirs);
        }
        _ => {}
    }
    let mine = mine.map_err(|refusal| refusal.code);
    hold(&mine, &theirs, |mine, built| same_table(mine, &built.table))
}

/// How many segments and rows, those below the image too, spline.rs has to store.
fn stored(table: &Table) -> i128 {
    table
        .segments
        .iter()
        .map(|segment| 1 + all_rows(segment).end - all_rows(segment).start)
        .sum()
}

/// What docs/DIFFERENCES.md lists and this comparison looks past.
fn note_listed(tally: &mut Tally, table: &Table, built: &Built) {
    if built.below > 0 {
        tally.listed("rows stored below the image");
    }
    if other_nans(&table.segments.concat(), &built.table.segments.concat()) {
        tally.listed("NaN patterns");
    }
}

pub fn same_table(a: &Table, b: &Table) -> bool {
    same_floats(&a.segments.concat(), &b.segments.concat())
        && a.owners == b.owners
        && a.row_starts == b.row_starts
        && a.entries == b.entries
        && a.estimate == b.estimate
        && a.faint == b.faint
}
