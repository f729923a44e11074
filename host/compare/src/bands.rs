//! The summary of every 64 rows: its columns against those that spline.rs touches, which are the same in every row, so that it draws all that a band shows as one row.

use crate::draw::{sight_by_turns, without_hidden};
use crate::reach::Probe;
use crate::tally::Tally;
use crate::verdict::{equal, Verdict};
use cases::bands::{banded, BANDED_KINDS};
use cases::desks::Sight;
use cases::tables::REACH_WIDTHS;
use cases::{each, FlatTable};
use model::bands::{bands_of, BAND_ROWS, NUMBERS};

const CASES_A_KIND: u64 = 600;

pub fn compare(tally: &mut Tally) {
    for (kind, seed) in each(&BANDED_KINDS, CASES_A_KIND) {
        let table = banded(kind, seed);
        let sight = sight_by_turns(seed, &table);
        let width = width_by_turns(seed);
        let verdict = against_oracle(&table, &sight, width);
        tally.add(kind, seed, &(&table, &sight, width), verdict);
        // From the first band to one past the last.
        let band = (seed % (u64::from(bands_of(table.height)) + 1)) as u32;
        let verdict = refreshed(&table, &sight, width, band);
        tally.add(kind, seed, &(&table, &sight, width, band), verdict);
    }
}

/// A refreshed band is the same band of a summary made afresh, where one can be made, and the others stay.
fn refreshed(table: &FlatTable, sight: &Sight, width: u32, band: u32) -> Verdict {
    let mut numbers = vec![7; NUMBERS * bands_of(table.height) as usize];
    if let Err(refusal) = model::band(table, sight, width, &mut numbers, band) {
        return Verdict::Outside(refusal.code);
    }
    let Ok(fresh) = model::bands(table, sight, width, u64::MAX) else {
        return Verdict::Same;
    };
    let mut due = vec![7; fresh.len()];
    let five = NUMBERS * band as usize..NUMBERS * (band as usize + 1);
    due[five.clone()].copy_from_slice(&fresh[five]);
    equal(numbers == due, &numbers, &due)
}

pub fn width_by_turns(seed: u64) -> u32 {
    REACH_WIDTHS[seed as usize % REACH_WIDTHS.len()]
}

fn against_oracle(table: &FlatTable, sight: &Sight, width: u32) -> Verdict {
    let numbers = match model::bands(table, sight, width, u64::MAX) {
        Err(refusal) => return Verdict::Outside(refusal.code),
        Ok(numbers) => numbers,
    };
    match wrong(table, sight, width, &numbers) {
        None => Verdict::Same,
        Some(words) => equal(false, &numbers, &words),
    }
}

/// What is wrong with the numbers of some band, if anything is: its columns by spline.rs, the others counted.
pub fn wrong(table: &FlatTable, sight: &Sight, width: u32, numbers: &[u32]) -> Option<String> {
    let bands = (0..).zip(numbers.chunks(NUMBERS));
    let mut wrong = bands.filter_map(|(band, five)| {
        let row = as_one_row(table, sight, band);
        let least = row.entries.iter().min().unwrap_or(&0);
        let greatest = row.entries.iter().max().unwrap_or(&0);
        let due = [row.entry_count, *least, *greatest];
        if five[..3] != due {
            return Some(format!("band {band} shows {due:?}"));
        }
        let words = Probe::of(&row, 0).wrong(width, (five[3], five[4]))?;
        Some(format!("band {band}: {words}"))
    });
    wrong.next()
}

/// A table of one row that lists all that the rows of a band show.
fn as_one_row(table: &FlatTable, sight: &Sight, band: u32) -> FlatTable {
    let rows = BAND_ROWS * band..(BAND_ROWS * band + BAND_ROWS).min(table.height);
    let entries: Vec<u32> = rows
        .flat_map(|y| without_hidden(table, sight, y).entries)
        .collect();
    let count = entries.len() as u32;
    FlatTable {
        entries,
        entry_count: count,
        row_starts: vec![0, count],
        height: 1,
        ..table.clone()
    }
}
