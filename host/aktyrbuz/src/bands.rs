//! A summary of every 64 rows, so that scrolling need not go through the rows.

use crate::cells::zeros;
use crate::code::{judged, Refusal};
use crate::{Desk, Hidden, Table};
use std::ops::{Range, RangeInclusive};

const ROWS: u32 = Bands::ROWS;
/// Numbers of a band.
const NUMBERS: usize = 5;

/// What 64 rows show of a table.
#[derive(Clone, Debug, PartialEq, Eq)]
pub struct Band {
    pub rows: Range<u32>,
    /// How many entries of these rows the desk has not hidden.
    pub entries: u32,
    /// The least and the greatest segment number among them; `None` without an entry.
    pub segments: Option<RangeInclusive<u32>>,
    /// The columns that drawing them touches, from the first to the last; 0..0 if it touches none.
    pub columns: Range<u32>,
}

/// The bands of a table as a desk sees it. [`Table::build`] makes them with nothing hidden; after each hide the desk refreshes those that
/// list the spline, by [`Bands::refresh_after`], or one by one.
#[derive(Clone, Debug, PartialEq, Eq)]
pub struct Bands {
    desk: Desk,
    height: u32,
    numbers: Vec<u32>,
}

impl Bands {
    /// Rows of a band; the last one may have fewer.
    pub const ROWS: u32 = 64;

    /// How many there are.
    pub fn count(&self) -> u32 {
        self.height.div_ceil(ROWS)
    }

    pub fn desk(&self) -> Desk {
        self.desk
    }

    /// The band of this number; none past the last.
    pub fn get(&self, band: u32) -> Option<Band> {
        let first = usize::try_from(band).ok()?.checked_mul(NUMBERS)?;
        let five = self.numbers.get(first..first.checked_add(NUMBERS)?)?;
        Some(Band {
            rows: ROWS * band..(ROWS * band + ROWS).min(self.height),
            entries: five[0],
            segments: (five[0] > 0).then_some(five[1]..=five[2]),
            columns: five[3]..five[4],
        })
    }

    /// All of them, from the top down.
    pub fn iter(&self) -> impl Iterator<Item = Band> + '_ {
        (0..self.count()).filter_map(|band| self.get(band))
    }

    /// Makes one band again, as its desk sees the table now; the others stay. Refused, and nothing changed, with
    /// [`Code::Band`](crate::Code::Band) past the last and with [`Code::Trace`](crate::Code::Trace) where there are fewer bytes than splines.
    /// The table is the one that these are the bands of.
    pub fn refresh(&mut self, table: &Table, hidden: &Hidden, band: u32) -> Result<(), Refusal> {
        let sight = hidden.seen_by(self.desk, table.splines());
        let width = table.image().width;
        judged(port::band(
            &table.lent(),
            &sight,
            width,
            &mut self.numbers,
            band,
        ))
        .map(|_| ())
    }

    /// Makes every band again that lists a segment of this spline: after its desk has hidden or shown it, all are then as made afresh.
    pub fn refresh_after(
        &mut self,
        table: &Table,
        hidden: &Hidden,
        spline: u64,
    ) -> Result<(), Refusal> {
        (table.bands_listing(spline).into_iter())
            .try_for_each(|band| self.refresh(table, hidden, band))
    }
}

impl Table {
    /// The bands as a desk sees them that has hidden nothing, made with the table.
    pub fn bands(&self, desk: Desk) -> Bands {
        Bands {
            desk,
            height: self.image().height,
            numbers: self.kept_bands().to_vec(),
        }
    }

    /// The same without what the desk has hidden, made afresh.
    pub fn bands_for(&self, desk: Desk, hidden: &Hidden) -> Result<Bands, Refusal> {
        Ok(Bands {
            desk,
            height: self.image().height,
            numbers: numbers(self, &hidden.seen_by(desk, self.splines()))?,
        })
    }

    /// The bands whose rows list a segment of this spline.
    pub fn bands_listing(&self, spline: u64) -> Vec<u32> {
        let lists = |&band: &u32| {
            let rows = ROWS * band..(ROWS * band + ROWS).min(self.image().height);
            let past = self.row_starts()[rows.end as usize] as usize;
            let entries = &self.entries()[self.row_starts()[rows.start as usize] as usize..past];
            entries
                .iter()
                .any(|&entry| self.owner(entry) == Some(spline))
        };
        (0..self.image().height.div_ceil(ROWS))
            .filter(lists)
            .collect()
    }
}

/// Five numbers a band of a table that was built.
pub(crate) fn numbers(table: &Table, sight: &port::Sight) -> Result<Vec<u32>, Refusal> {
    let image = table.image();
    let mut numbers = zeros(NUMBERS * image.height.div_ceil(ROWS) as usize)?;
    judged(port::bands(&table.lent(), sight, image.width, &mut numbers))?;
    Ok(numbers)
}

#[cfg(test)]
mod tests {
    use super::*;
    use crate::{Code, Description, Image};

    /// Two fibres, from (10, 8) to (40, 8) and from (20, 60) to (20, 90).
    fn table(height: u32) -> Table {
        let mut coefficients = vec![0; 128];
        coefficients[32] = 20;
        coefficients[96] = 6;
        let fibres = Description {
            counts: vec![1, 1],
            starts: vec![10.0, 8.0, 20.0, 60.0],
            deltas: vec![30, 0, 0, 30],
            coefficients: coefficients.repeat(2),
            adjustment: 0,
        };
        Table::build(&fibres, &Image::new(64, height)).expect("a good description")
    }

    #[test]
    fn bands_come_with_the_table() {
        let table = table(200);
        let bands = table.bands(Desk::Checker);
        assert_eq!((bands.count(), bands.iter().count()), (4, 4));
        for band in bands.iter() {
            let rows = band.rows.clone();
            let entries: u32 = rows.clone().map(|y| table.entries_of(y)).sum();
            assert_eq!(band.entries, entries);
            let reach: Vec<_> = rows.map(|y| table.reach(y).expect("a row")).collect();
            let touched = || reach.iter().filter(|columns| !columns.is_empty());
            let first = touched().map(|columns| columns.start).min().unwrap_or(0);
            let past = touched().map(|columns| columns.end).max().unwrap_or(0);
            assert_eq!(band.columns, first..past);
        }
        let last = bands.get(3).expect("four bands");
        assert_eq!(
            (last.rows, last.entries, last.segments),
            (192..200, 0, None)
        );
        assert_eq!(bands.get(4), None);
        let both = bands.get(0).and_then(|band| band.segments);
        assert_eq!(both.map(|numbers| *numbers.start()), Some(0));
    }

    #[test]
    fn a_refreshed_band_is_a_fresh_one() {
        let table = table(130);
        let mut hidden = Hidden::nothing(2).expect("two bytes");
        let mut bands = [Desk::Operator, Desk::Checker].map(|desk| table.bands(desk));
        assert_eq!(table.bands_listing(0), [0]);
        assert_eq!(table.bands_listing(1), [0, 1]);
        assert_eq!(table.bands_listing(2), []);
        for (desk, spline, hide) in [
            (Desk::Operator, 0, true),
            (Desk::Checker, 1, true),
            (Desk::Operator, 1, true),
            (Desk::Operator, 0, false),
        ] {
            match hide {
                true => hidden.hide(desk, spline).expect("a spline"),
                false => hidden.show(desk, spline).expect("a spline"),
            }
            let mine = &mut bands[desk.number() as usize];
            mine.refresh_after(&table, &hidden, spline)
                .expect("a good table");
            for bands in &bands {
                let fresh = table
                    .bands_for(bands.desk(), &hidden)
                    .expect("a good table");
                assert_eq!(*bands, fresh);
            }
        }
        assert!(bands[0].get(1).is_some_and(|band| band.entries == 0));
        assert!(bands[0].get(0).is_some_and(|band| band.entries > 0));
    }

    #[test]
    fn what_is_refused_changes_nothing() {
        let table = table(64);
        let mut hidden = Hidden::nothing(2).expect("two bytes");
        let mut bands = table.bands(Desk::Operator);
        hidden.hide(Desk::Operator, 0).expect("a spline");
        let refused = bands.refresh(&table, &hidden, 1).expect_err("one band");
        assert_eq!(refused.code, Code::Band);
        let short = Hidden::nothing(1).expect("a byte");
        let refused = bands.refresh(&table, &short, 0).expect_err("two splines");
        assert_eq!(refused.code, Code::Trace);
        assert_eq!(bands, table.bands(Desk::Operator));
        let refused = table
            .bands_for(Desk::Checker, &short)
            .expect_err("two splines");
        assert_eq!(refused.code, Code::Trace);
        assert_eq!(
            super::tests::table(0).bands(Desk::Checker).iter().count(),
            0
        );
    }
}
