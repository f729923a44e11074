//! The reach of a row for a desk against the columns that spline.rs itself touches when it draws the row without what is hidden.

use crate::draw::{entries, sight_by_turns, unflattened, without_hidden};
use crate::tally::Tally;
use crate::verdict::{equal, Verdict};
use cases::desks::Sight;
use cases::tables::{
    edge_row, request, table, EDGE_KINDS, REACH_WIDTHS, REQUEST_KINDS, TABLE_KINDS,
};
use cases::{each, FlatTable};
use oracle::{Loaded, Outcome};

const CASES_A_KIND: u64 = 600;
const EDGE_ROWS: u64 = 60_000;

/// A row at most so wide is drawn whole; of a wider one so many columns at a time.
const WHOLE: u32 = 256;
const WINDOW: u32 = 128;

/// A row with NaN for every colour: each update of spline.rs then shows in its pixel, whatever the segment would have added.
pub struct Probe {
    loaded: Loaded,
    y: u32,
    /// Where its segments end on either side.
    ends: Vec<f32>,
}

impl Probe {
    /// Row y of a table that drawing takes.
    pub fn of(table: &FlatTable, y: u32) -> Probe {
        let mut probe = unflattened(table);
        for segment in &mut probe.segments {
            segment[5..].fill(f32::NAN);
        }
        let ends = entries(table, y).iter().flat_map(|&entry| {
            let [cx, _, d, ..] = table.segment(entry);
            [cx - d, cx + d]
        });
        Probe {
            loaded: oracle::load(&probe),
            y,
            ends: ends.collect(),
        }
    }

    /// The columns that spline.rs touches from x0 up to but not including x0 + n.
    fn touched(&self, (x0, n): (u32, u32)) -> Vec<u32> {
        let [mut r0, mut r1, mut r2] = [(); 3].map(|()| vec![0.0f32; n as usize]);
        let drawn = self.loaded.draw(self.y, x0, [&mut r0, &mut r1, &mut r2]);
        assert!(
            drawn == Outcome::Done(()),
            "spline.rs draws every accepted row"
        );
        let cells = (x0..).zip(r0);
        cells
            .filter(|(_, r0)| r0.is_nan())
            .map(|(x, _)| x)
            .collect()
    }

    /// The parts in which a row of this width is drawn. A wide one is not drawn whole: it is looked at on both its edges, around the
    /// ends of the reach, and around each end of a segment, where a column that is touched can only begin or end.
    fn parts(&self, width: u32, (first, past): (u32, u32)) -> Vec<(u32, u32)> {
        if width <= WHOLE {
            return vec![(0, width)];
        }
        let ends = self.ends.iter().map(|&end| end.clamp(0.0, width as f32));
        let middles = ends.map(|end| end as u32).chain([0, width, first, past]);
        let last = width - WINDOW;
        let mut parts: Vec<(u32, u32)> = middles
            .map(|middle| (middle.saturating_sub(WINDOW / 2).min(last), WINDOW))
            .collect();
        parts.sort_unstable();
        parts.dedup();
        parts
    }

    /// What is wrong with this reach, if anything is: spline.rs touches a column outside, or leaves its first or last one as it was.
    pub fn wrong(&self, width: u32, reach: (u32, u32)) -> Option<String> {
        let (first, past) = reach;
        let parts = self.parts(width, reach).into_iter();
        let touched: Vec<u32> = parts.flat_map(|part| self.touched(part)).collect();
        let inside = |x: &u32| (first..past).contains(x);
        if let Some(x) = touched.iter().find(|x| !inside(x)) {
            return Some(format!("spline.rs touches column {x} outside"));
        }
        let empty = reach == (0, 0);
        let ends = first < past && [first, past - 1].iter().all(|end| touched.contains(end));
        (!empty && !ends).then(|| String::from("spline.rs does not touch both ends"))
    }
}

pub fn compare(tally: &mut Tally) {
    for (kind, seed) in each(&EDGE_KINDS, EDGE_ROWS) {
        let (table, y) = edge_row(kind, seed);
        add(tally, kind, seed, &table, y);
    }
    for (kind, seed) in each(&TABLE_KINDS, CASES_A_KIND) {
        let table = table(kind, seed);
        let y = request(REQUEST_KINDS[seed as usize % 3], seed, table.height.max(1)).y;
        add(tally, kind, seed, &table, y);
    }
}

fn add(tally: &mut Tally, kind: &str, seed: u64, table: &FlatTable, y: u32) {
    let sight = sight_by_turns(seed, table);
    let verdict = against_oracle(table, &sight, y);
    tally.add(kind, seed, &(table, &sight, y), verdict);
}

/// A row in every width.
fn against_oracle(table: &FlatTable, sight: &Sight, y: u32) -> Verdict {
    let mut probe = None;
    for width in REACH_WIDTHS {
        let reach = match model::reach(table, sight, y, width) {
            Err(refusal) => return Verdict::Outside(refusal.code),
            Ok(reach) => reach,
        };
        let probe = probe.get_or_insert_with(|| Probe::of(&without_hidden(table, sight, y), y));
        if let Some(words) = probe.wrong(width, reach) {
            return equal(false, &(width, reach), &words);
        }
    }
    Verdict::Same
}
