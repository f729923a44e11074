//! A picture drawn, every row whole: once all of it, which is more than the caches hold, or a strip of it again and again, which stays in them; or once with every
//! second spline hidden, where spline.rs draws the whole all the same.

use crate::picture::{description, given, SIDE};
use crate::Work;
use cases::{FlatTable, Table};
use oracle::{Loaded, Outcome};

/// The strip: its first row in the picture and how many rows it has.
const FIRST: u32 = SIDE / 2;
const ROWS: u32 = 16;

/// One table of spline.rs, as each side takes it, the three channels, and how often they are drawn.
pub struct Drawing {
    loaded: Loaded,
    flat: FlatTable,
    /// The shared bytes.
    bits: Vec<u8>,
    times: u32,
    cells: [Vec<f32>; 3],
}

impl Drawing {
    /// The whole picture, once.
    pub fn of(sigmas: &[i32]) -> Drawing {
        Drawing::new(&table(sigmas), 1)
    }

    /// The whole picture, once, every second spline of it hidden for the desk.
    pub fn half(sigmas: &[i32]) -> Drawing {
        let mut half = Drawing::of(sigmas);
        half.bits.iter_mut().step_by(2).for_each(|byte| *byte = 1);
        half
    }

    /// A strip, so often that as many rows are drawn as the picture has.
    pub fn strip(sigmas: &[i32]) -> Drawing {
        Drawing::new(&cut(table(sigmas)), SIDE / ROWS)
    }

    fn new(table: &Table, times: u32) -> Drawing {
        let flat = FlatTable::from(table);
        let cells = [(); 3].map(|()| vec![0.0; (SIDE * flat.height) as usize]);
        let splines = flat.owners.last().map_or(0, |&last| last as usize + 1);
        Drawing {
            loaded: oracle::load(table),
            flat,
            bits: vec![0; splines],
            times,
            cells,
        }
    }

    /// What the picture holds; both sides draw the same cells.
    pub fn words(&mut self) -> String {
        self.by_rust();
        let theirs = self.cells.clone();
        self.clear();
        let updates = self.by_port();
        assert!(theirs == self.cells, "both sides draw the same picture");
        let entries = self.flat.entries.len() as u32 * self.times;
        format!(
            "{} rows, {} times: {} segments, {entries} entries drawn, {updates} updates: {:.1} pixels an entry",
            self.flat.height,
            self.times,
            self.flat.segment_count,
            updates as f64 / f64::from(entries)
        )
    }

    fn rows_by_port(&mut self) -> i64 {
        let table = port::Table {
            segments: &self.flat.segments,
            owners: &self.flat.owners,
            segment_count: self.flat.segment_count,
            entries: &self.flat.entries,
            entry_count: self.flat.entry_count,
            row_starts: &self.flat.row_starts,
            height: self.flat.height,
        };
        let sight = port::Sight {
            splines: self.bits.len() as u64,
            bits: &self.bits,
            desk: 0,
        };
        let side = SIDE as usize;
        let [r0, r1, r2] = &mut self.cells;
        let rows = r0.chunks_exact_mut(side).zip(r1.chunks_exact_mut(side));
        let rows = rows.zip(r2.chunks_exact_mut(side));
        let mut updates = 0;
        for (y, ((r0, r1), r2)) in rows.enumerate() {
            let (code, answer) = port::draw(&table, &sight, y as u32, 0, SIDE, [r0, r1, r2]);
            assert_eq!(code, 0, "the port draws the pictures");
            updates += answer[1];
        }
        updates
    }
}

fn table(sigmas: &[i32]) -> Table {
    let Outcome::Done(built) = oracle::build(&description(sigmas), &given()) else {
        panic!("spline.rs builds the pictures");
    };
    built.table
}

/// The strip of a table as a table of its own, with the segments moved up.
fn cut(table: Table) -> Table {
    let starts = &table.row_starts[FIRST as usize..=(FIRST + ROWS) as usize];
    let (first, past) = (starts[0], starts[ROWS as usize]);
    let moved = |mut segment: [f32; 8]| {
        segment[1] -= FIRST as f32;
        segment
    };
    Table {
        row_starts: starts.iter().map(|start| start - first).collect(),
        entries: table.entries[first as usize..past as usize].to_vec(),
        segments: table.segments.into_iter().map(moved).collect(),
        ..table
    }
}

impl Work for Drawing {
    fn clear(&mut self) {
        for channel in &mut self.cells {
            channel.fill(0.0);
        }
    }

    fn by_rust(&mut self) {
        for _ in 0..self.times {
            let [r0, r1, r2] = &mut self.cells;
            let drawn = self.loaded.draw_image(SIDE, self.flat.height, [r0, r1, r2]);
            assert_eq!(drawn, Outcome::Done(()), "spline.rs draws the pictures");
        }
    }

    fn by_port(&mut self) -> i64 {
        (0..self.times).map(|_| self.rows_by_port()).sum()
    }
}
