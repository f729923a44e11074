//! The calls that spline.rs has nothing beside, on the pictures' tables: another maker's table checked, the bands of a table made, and one of them refreshed.

use crate::picture::{description, given, SIDE};
use cases::FlatTable;
use oracle::Outcome;

/// As many rows as an image may have.
const TALLEST: u32 = 1 << 23;

/// The names of the calls.
pub const CALLS: [&str; 3] = ["check", "bands", "band"];

/// Rows and numbers of a band.
const BAND_ROWS: u32 = 64;
const NUMBERS: usize = 5;

/// The band that is refreshed, in the middle of the picture.
const REFRESHED: u32 = SIDE / BAND_ROWS / 2;

/// A table of spline.rs or of segments that lie band by band, with the shared bytes and the cells of its bands.
pub struct Alone {
    flat: FlatTable,
    bits: Vec<u8>,
    bands: Vec<u32>,
}

impl Alone {
    /// The table of a picture.
    pub fn of(sigmas: &[i32]) -> Alone {
        let description = description(sigmas);
        let Outcome::Done(built) = oracle::build(&description, &given()) else {
            panic!("spline.rs builds the pictures");
        };
        Alone::new(FlatTable::from(&built.table), given().height)
    }

    /// 2^20 entries: each band of the picture lists 256 segments in every row.
    pub fn million() -> Alone {
        const A_BAND: u32 = 256;
        let bands = SIDE / BAND_ROWS;
        let record = |number: u32| {
            let (band, column) = (number / A_BAND, number % A_BAND);
            let middle = (BAND_ROWS * band) as f32 + 31.5;
            [(16 * column) as f32, middle, 31.75, 1.0, 1.0, 1.0, 1.0, 1.0]
        };
        let entries = (0..SIDE).flat_map(|y| {
            let first = A_BAND * (y / BAND_ROWS);
            first..first + A_BAND
        });
        let flat = FlatTable {
            segments: (0..A_BAND * bands).flat_map(record).collect(),
            owners: (0..u64::from(A_BAND * bands))
                .map(|number| number / 128)
                .collect(),
            segment_count: A_BAND * bands,
            entries: entries.collect(),
            entry_count: A_BAND * SIDE,
            row_starts: (0..=SIDE).map(|y| A_BAND * y).collect(),
            height: SIDE,
        };
        Alone::new(flat, SIDE)
    }

    fn new(flat: FlatTable, height: u32) -> Alone {
        let splines = flat.owners.last().map_or(0, |&last| last as usize + 1);
        let mut alone = Alone {
            flat,
            bits: vec![0; splines],
            bands: Vec::new(),
        };
        alone.reach_down(height);
        alone
    }

    /// The same segments in the tallest image; none of them has a row below the picture.
    pub fn tall(sigmas: &[i32]) -> Alone {
        let mut alone = Alone::of(sigmas);
        alone.reach_down(TALLEST);
        alone
    }

    /// Makes the image so high.
    fn reach_down(&mut self, height: u32) {
        let FlatTable {
            row_starts,
            entry_count,
            ..
        } = &mut self.flat;
        row_starts.resize(height as usize + 1, *entry_count);
        self.flat.height = height;
        self.bands = vec![0; NUMBERS * height.div_ceil(BAND_ROWS) as usize];
    }

    /// Makes the call of this name.
    #[inline(never)]
    pub fn call(&mut self, name: &str) {
        let table = port::Table {
            segments: &self.flat.segments,
            owners: &self.flat.owners,
            segment_count: self.flat.segment_count,
            entries: &self.flat.entries,
            entry_count: self.flat.entry_count,
            row_starts: &self.flat.row_starts,
            height: self.flat.height,
        };
        let sight = port::Sight {
            splines: self.bits.len() as u64,
            bits: &self.bits,
            desk: 0,
        };
        let (code, _) = match name {
            "check" => port::check(&table),
            "bands" => port::bands(&table, &sight, SIDE, &mut self.bands),
            "band" => port::band(&table, &sight, SIDE, &mut self.bands, REFRESHED),
            _ => panic!("no call is called {name}"),
        };
        assert_eq!(code, 0, "the port takes the pictures");
    }

    /// How many entries the call goes over.
    pub fn entries(&self, name: &str) -> u32 {
        let start = |row: u32| self.flat.row_starts[row as usize];
        match name {
            "band" => start(BAND_ROWS * (REFRESHED + 1)) - start(BAND_ROWS * REFRESHED),
            _ => self.flat.entry_count,
        }
    }
}
