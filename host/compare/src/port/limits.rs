//! Tables at the limits of what is counted, and one past each: zeros that take no memory, whose rows list nothing. Of the greatest table the bands too, with room for all and a cell less.

use super::pages::endless;
use super::tally::Tally;
use super::told_refusal;
use cases::{Code, Refusal};
use port::{Answer, Sight, Table};

const SEGMENTS: u32 = 1 << 24;
const ENTRIES: u32 = 1 << 30;
const HEIGHT: u32 = 1 << 23;
/// Of 64 rows each.
const MOST_BANDS: i64 = 1 << 17;
/// More than 32 bits count.
const SPLINES: u64 = (1 << 32) + 1;

/// Each number of a table and a sight as it is said, and how many cells are lent for it.
#[derive(Clone, Copy, Debug)]
struct Said {
    segments: u32,
    entries: u32,
    height: u32,
    splines: u64,
    floats_lent: u64,
    owners_lent: u64,
    entries_lent: u64,
    starts_lent: u64,
    bytes_lent: u64,
}

impl Said {
    /// Just so much lent as is said.
    fn of(segments: u32, entries: u32, height: u32) -> Said {
        Said {
            segments,
            entries,
            height,
            splines: SPLINES,
            floats_lent: 8 * u64::from(segments),
            owners_lent: segments.into(),
            entries_lent: entries.into(),
            starts_lent: u64::from(height) + 1,
            bytes_lent: SPLINES,
        }
    }
}

/// What is said, and the code that it is refused with if it is: the greatest table, one past each limit, and one cell too few of each.
fn all_said() -> Vec<(Said, Option<Code>)> {
    let most = Said::of(SEGMENTS, ENTRIES, HEIGHT);
    let short = |change: fn(&mut Said)| {
        let mut said = most;
        change(&mut said);
        said
    };
    let refused = [
        Said::of(SEGMENTS + 1, ENTRIES, HEIGHT),
        Said::of(SEGMENTS, ENTRIES + 1, HEIGHT),
        Said::of(SEGMENTS, ENTRIES, HEIGHT + 1),
        short(|said| said.floats_lent -= 1),
        short(|said| said.owners_lent -= 1),
        short(|said| said.entries_lent -= 1),
        short(|said| said.starts_lent -= 1),
    ];
    let mut all = vec![(most, None)];
    all.extend(refused.map(|said| (said, Some(Code::Table))));
    all.push((short(|said| said.bytes_lent -= 1), Some(Code::Trace)));
    all
}

/// Zeros of every sort, as many as any of these tables is lent.
struct Zeros {
    floats: &'static [f32],
    owners: &'static [u64],
    entries: &'static [u32],
    starts: &'static [u32],
    bytes: &'static [u8],
}

impl Zeros {
    fn new() -> Zeros {
        Zeros {
            floats: endless(8 * (u64::from(SEGMENTS) + 1)),
            owners: endless(u64::from(SEGMENTS) + 1),
            entries: endless(u64::from(ENTRIES) + 1),
            starts: endless(u64::from(HEIGHT) + 2),
            bytes: endless(SPLINES),
        }
    }

    fn lent(&self, said: &Said) -> (Table<'static>, Sight<'static>) {
        let table = Table {
            segments: &self.floats[..said.floats_lent as usize],
            owners: &self.owners[..said.owners_lent as usize],
            segment_count: said.segments,
            entries: &self.entries[..said.entries_lent as usize],
            entry_count: said.entries,
            row_starts: &self.starts[..said.starts_lent as usize],
            height: said.height,
        };
        let sight = Sight {
            splines: said.splines,
            bits: &self.bytes[..said.bytes_lent as usize],
            desk: 1,
        };
        (table, sight)
    }
}

pub fn compare(tally: &mut Tally) {
    let zeros = Zeros::new();
    for (said, code) in all_said() {
        tally.cases += 1;
        let (table, sight) = zeros.lent(&said);
        let y = HEIGHT - 1;
        let [mut r0, mut r1, mut r2] = [[0.5f32]; 3];
        let channels = [&mut r0[..], &mut r1, &mut r2];
        let drawn = port::draw(&table, &sight, y, HEIGHT - 1, 1, channels);
        hold(tally, "draw", &said, code, 0, drawn);
        let reached = port::reach(&table, &sight, y, HEIGHT);
        hold(tally, "reach", &said, code, 0, reached);
        bands(tally, &said, code, &table, &sight);
    }
}

/// Made in just the room that they take and refreshed there, then with a cell less; ROOM comes after what these tables are refused for.
fn bands(tally: &mut Tally, said: &Said, code: Option<Code>, table: &Table, sight: &Sight) {
    let mut cells = vec![7; 5 * MOST_BANDS as usize];
    for (lent, code) in [
        (5 * MOST_BANDS, code),
        (5 * MOST_BANDS - 1, code.or(Some(Code::Room))),
    ] {
        let cells = &mut cells[..lent as usize];
        let made = port::bands(table, sight, HEIGHT, cells);
        hold(tally, "bands", said, code, MOST_BANDS, made);
        if cells.iter().any(|&cell| cell != 0) {
            tally.differs(format!("bands, {said:?}: no zeros where nothing is listed"));
        }
        for (band, code) in [
            (MOST_BANDS - 1, code),
            (MOST_BANDS, code.or(Some(Code::Band))),
        ] {
            let refreshed = port::band(table, sight, HEIGHT, cells, band as u32);
            hold(tally, "band", said, code, MOST_BANDS, refreshed);
        }
    }
}

/// A call's answer against the code, or against this first count.
fn hold(
    tally: &mut Tally,
    call: &str,
    said: &Said,
    code: Option<Code>,
    count: i64,
    found: (u32, Answer),
) {
    let expected = match code {
        None => Ok(count),
        Some(code) => Err(Refusal { code, place: 0 }),
    };
    tally.called(&expected);
    let told = match &expected {
        Ok(count) => (0, [0, *count, 0, 0, 0]),
        Err(refusal) => told_refusal(refusal),
    };
    if found != told {
        tally.differs(format!(
            "{call}, {said:?}\n  port: {found:?}\n  due: {told:?}"
        ));
    }
}
