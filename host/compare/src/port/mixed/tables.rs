//! One picture: the table of the last build, the other maker's beside it, what two desks have hidden, their bands, and the rows that they are drawing.

use super::{leave, room};
use crate::bands::width_by_turns;
use crate::check::by_rust;
use crate::draw::{without_hidden, Channels, Judge};
use crate::port::bands::{judged, listing, making, refresh};
use crate::port::build::{exact_rooms, image, original, rooms, rust_decides, Expected, PortBuilt};
use crate::port::check::{check, told};
use crate::port::desks::one_hide;
use crate::port::draw::{check as check_part, check_with_rust, drawn_part, expected_part, WIDTH};
use crate::port::profile::{refusal_of, told_unmet};
use crate::port::reach::compare_reach;
use crate::port::tally::Tally;
use crate::port::{guarded, parts, told_build};
use crate::reach::Probe;
use cases::descriptions::{build_case, BuildCase};
use cases::desks::Sight;
use cases::makers::{faulty, FAULTS};
use cases::random::Random;
use cases::{Code, Description, FlatTable, Refusal, Table};
use model::bands::{bands_of, NUMBERS};
use model::{BuildRooms, Unmet};

/// A build that needs more numbers is left out, so that no call is slow.
const MOST_NUMBERS: u64 = 1 << 17;

/// A row that a desk is drawing.
struct Row {
    y: u32,
    cells: Channels,
}

pub struct Tables {
    /// The cells that the last build was lent, with its counts.
    table: FlatTable,
    /// The same as spline.rs built it, if it did.
    own: Option<Table>,
    width: u32,
    splines: u64,
    bits: Vec<u8>,
    bands: [Vec<u32>; 2],
    rows: [Row; 2],
}

impl Tables {
    pub fn new() -> Tables {
        let row = || Row {
            y: 0,
            cells: [(); 3].map(|()| vec![0.25; WIDTH as usize]),
        };
        Tables {
            table: FlatTable {
                row_starts: vec![0],
                ..FlatTable::default()
            },
            own: None,
            width: 0,
            splines: 0,
            bits: Vec::new(),
            bands: Default::default(),
            rows: [row(), row()],
        }
    }

    /// Builds a description, by an edition of the profile where there is one, over the cells of the table before.
    pub fn build(
        &mut self,
        tally: &mut Tally,
        r: &mut Random,
        description: &Description,
        edition: Option<u32>,
        words: impl Fn() -> String,
    ) {
        let mut case = BuildCase {
            description: description.clone(),
            given: build_case("fibres", r.next()).given,
        };
        case.given.height = r.pick(&[200, 130, 64, 65, 128, case.given.height]);
        let Some(rooms) = self.rooms(&case, r) else {
            return;
        };
        let expected = built_by(&case, edition, &rooms);
        tally.called(&refusal_of(&expected));
        let built = PortBuilt::by(&rooms, |lent| {
            leave(&self.table.segments, lent.segments);
            leave(&self.table.owners, lent.owners);
            leave(&self.table.row_starts, lent.row_starts);
            leave(&self.table.entries, lent.entries);
            let (parts, image) = (parts(&case.description), image(&case.given));
            match edition {
                None => guarded::build(&parts, &image, lent),
                Some(edition) => guarded::build_profile(&parts, &image, edition, lent),
            }
        });
        let (due, table) = match &expected {
            Ok(table) => (told_build(&Ok(table.clone())), table.clone()),
            Err(unmet) => (told_unmet(unmet), Table::default()),
        };
        // What the profile refuses spline.rs does not know.
        let plain = expected.map_err(|unmet| unmet.refusal);
        let by_profile =
            matches!(&plain, Err(refusal) if matches!(refusal.code, Code::Profile | Code::Edition));
        let theirs = match !by_profile && rust_decides(&plain) {
            true => original(&case),
            false => None,
        };
        tally.by_rust += u64::from(theirs.is_some());
        let as_rust = theirs.as_ref().map_or(true, |theirs| built.is(theirs));
        if built.told() != due || !built.holds(&table) || !as_rust {
            tally.differs(format!(
                "build, {}: {case:?}, edition {edition:?}, {rooms:?}\n  port: {:?}, or cells differ\n  due: {due:?}",
                words(),
                built.told()
            ));
        }
        self.take(&case, &built, theirs.and_then(Result::ok), r);
    }

    /// Exact rooms or larger ones, now and then one short; `None` for a table that is too great.
    fn rooms(&self, case: &BuildCase, r: &mut Random) -> Option<BuildRooms> {
        let exact = exact_rooms(case, &Expected::of(case))?;
        let numbers = exact.path + exact.walk + exact.segments + exact.row_starts + exact.entries;
        if numbers > MOST_NUMBERS {
            return None;
        }
        let all = rooms(&exact, r);
        let chosen = match r.below(6) {
            0 => r.below(all.len() as u64),
            other => other % 2,
        };
        Some(all[chosen as usize])
    }

    /// The table of a build, done or refused, with nothing hidden; the bands keep what they held.
    fn take(&mut self, case: &BuildCase, built: &PortBuilt, own: Option<Table>, r: &mut Random) {
        self.table = built.table(case.given.height);
        self.own = own;
        self.width = case.given.width;
        self.splines = case.description.counts.len() as u64;
        let bytes = self.splines + r.pick(&[0, 0, 1, 5]);
        self.bits = (0..bytes).map(|_| r.next() as u8 & 0xfc).collect();
        let cells = NUMBERS * bands_of(self.table.height.min(1 << 12)) as usize;
        for bands in &mut self.bands {
            bands.resize(cells + r.below(4) as usize, 7);
        }
    }

    /// The table, in one of twelve times with a count that is off by one.
    fn lent(&self, r: &mut Random) -> FlatTable {
        let mut table = self.table.clone();
        if r.once_in(12) {
            let by = r.pick(&[-1, 1]);
            let count = match r.below(3) {
                0 => &mut table.segment_count,
                1 => &mut table.entry_count,
                _ => &mut table.height,
            };
            *count = count.saturating_add_signed(by);
        }
        table
    }

    /// As a desk sees it, mostly one that there is, with all bytes or one too few.
    fn sight(&self, r: &mut Random) -> Sight {
        let mut sight = Sight {
            splines: self.splines,
            bits: self.bits.clone(),
            desk: r.below(2) as u32,
        };
        match r.below(24) {
            0 => sight.desk = r.pick(&[2, 3, u32::MAX]),
            1 => {
                sight.bits.pop();
            }
            2 => sight.splines = sight.splines.saturating_sub(1),
            _ => {}
        }
        sight
    }

    pub fn check(&mut self, tally: &mut Tally, r: &mut Random, words: impl Fn() -> String) {
        let Some(own) = &self.own else {
            // Nothing sound is there to be made wrong.
            check(tally, &self.table, || {
                format!("{}: {:?}", words(), self.table)
            });
            return;
        };
        let fault = match r.once_in(3) {
            true => r.pick(&FAULTS),
            false => r.pick(&["none", "unused"]),
        };
        let sound = FlatTable::from(own);
        let theirs = faulty(fault, r.next(), &sound);
        let found = check(tally, &theirs, || {
            format!("{}, {fault}: {theirs:?}", words())
        });
        if let Some(judged) = by_rust(&theirs, own) {
            tally.by_rust += 1;
            if found != told(&judged) {
                tally.differs(format!(
                    "check, {}, {fault}: {found:?}, spline.rs {judged:?}",
                    words()
                ));
            }
        }
        // What is accepted is taken in place of our own.
        if found.0 == 0 && theirs.height == self.table.height {
            self.table.row_starts = theirs.row_starts;
            self.table.entries = theirs.entries;
            self.table.entry_count = theirs.entry_count;
        }
    }

    pub fn draw(&mut self, tally: &mut Tally, r: &mut Random, words: impl Fn() -> String) {
        let (table, sight) = (self.lent(r), self.sight(r));
        let row = &mut self.rows[sight.desk as usize % 2];
        if r.once_in(4) {
            row.y = some_row(&table, r);
            let cell = r.pick(&[0.0, 0.5, -1.0]);
            row.cells = [(); 3].map(|()| vec![cell; WIDTH as usize]);
        }
        let x0 = r.below(u64::from(WIDTH)) as u32;
        let left = WIDTH - x0;
        let any = r.below(u64::from(left) + 1) as u32;
        let n = r.pick(&[any, any, any, any, any, any, left, left, left, left + 1]);
        let part = row
            .cells
            .each_ref()
            .map(|cells| cells[x0 as usize..].to_vec());
        let expected = expected_part(&table, &sight, row.y, x0, n, &part);
        let drawn = drawn_part(&table, &sight, row.y, x0, n, &part);
        let y = row.y;
        let said = || {
            format!(
                "{}: row {y}, part {x0}, {n} of {table:?}, {sight:?}",
                words()
            )
        };
        check_part(tally, &expected, &drawn, said);
        if expected.0.is_ok() {
            let judge = Judge::of(without_hidden(&table, &sight, y));
            check_with_rust(tally, &judge.draw(y, x0, n, &part), &drawn, said);
        }
        for (cells, new) in row.cells.iter_mut().zip(&drawn.2) {
            cells[x0 as usize..].copy_from_slice(new);
        }
    }

    pub fn reach(&mut self, tally: &mut Tally, r: &mut Random, words: impl Fn() -> String) {
        let (table, sight) = (self.lent(r), self.sight(r));
        let y = some_row(&table, r);
        let width = self.some_width(r);
        let wrong = |reach| Probe::of(&without_hidden(&table, &sight, y), y).wrong(width, reach);
        compare_reach(tally, &table, &sight, y, width, wrong, || {
            format!("{}: {table:?} {sight:?}", words())
        });
    }

    /// Mostly the picture's.
    fn some_width(&self, r: &mut Random) -> u32 {
        let other = width_by_turns(r.next());
        match r.below(16) {
            0 => (1 << 23) + 1,
            1..=3 => other,
            _ => self.width,
        }
    }

    pub fn hide(&mut self, tally: &mut Tally, r: &mut Random) {
        let desk = r.pick(&[0, 0, 0, 0, 0, 1, 1, 1, 1, 1, 2]);
        let bytes = self.bits.len() as u64;
        let inside = r.below(bytes.max(1));
        let spline = r.pick(&[
            inside,
            inside,
            inside,
            inside,
            inside,
            inside,
            bytes,
            u64::MAX,
        ]);
        one_hide(tally, &mut self.bits, desk, spline, r.once_in(2));
    }

    pub fn bands(&mut self, tally: &mut Tally, r: &mut Random, words: impl Fn() -> String) {
        let (table, sight) = (self.lent(r), self.sight(r));
        let width = self.some_width(r);
        let cells = &mut self.bands[sight.desk as usize % 2];
        let lent = room(r, cells.len() as u64).min(cells.len() as u64);
        making(
            tally,
            &table,
            &sight,
            width,
            &mut cells[..lent as usize],
            &words,
        );
        if r.once_in(4) {
            judged(tally, &table, &sight, width, words);
        }
    }

    /// One band of the desk's; or a hide, all bands that list the spline, and then the whole as the port makes it afresh.
    pub fn band(&mut self, tally: &mut Tally, r: &mut Random, words: impl Fn() -> String) {
        if self.own.is_some() && self.splines > 0 && r.once_in(8) {
            return self.after_a_hide(tally, r, words);
        }
        let (table, sight) = (self.lent(r), self.sight(r));
        let width = self.some_width(r);
        let cells = &mut self.bands[sight.desk as usize % 2];
        let bands = bands_of(table.height.min(1 << 23));
        let any = r.below(u64::from(bands.max(1))) as u32;
        let band = r.pick(&[any, any, any, any, any, any, bands, u32::MAX]);
        refresh(tally, &table, &sight, width, cells, band, words);
    }

    fn after_a_hide(&mut self, tally: &mut Tally, r: &mut Random, words: impl Fn() -> String) {
        let desk = r.below(2) as u32;
        let spline = r.below(self.splines);
        let mut sight = Sight {
            splines: self.splines,
            bits: self.bits.clone(),
            desk,
        };
        let width = self.width;
        let cells = &mut self.bands[desk as usize];
        making(tally, &self.table, &sight, width, cells, &words);
        one_hide(tally, &mut sight.bits, desk, spline, r.once_in(2));
        for band in listing(&self.table, spline) {
            refresh(tally, &self.table, &sight, width, cells, band, &words);
        }
        let mut fresh = cells.clone();
        making(tally, &self.table, &sight, width, &mut fresh, &words);
        if fresh != *cells {
            tally.differs(format!(
                "bands, {}: refreshed {cells:?}, afresh {fresh:?}",
                words()
            ));
        }
        self.bits = sight.bits;
    }
}

/// A row of the picture, or one below it.
fn some_row(table: &FlatTable, r: &mut Random) -> u32 {
    r.below(u64::from(table.height.min(1 << 12)) + 1) as u32
}

/// What the second reading builds, by profile where there is an edition.
fn built_by(case: &BuildCase, edition: Option<u32>, rooms: &BuildRooms) -> Result<Table, Unmet> {
    let BuildCase { description, given } = case;
    let plain = |refusal: Refusal| Unmet { refusal, rule: 0 };
    match edition {
        None => model::build(description, given, rooms).map_err(plain),
        Some(edition) => model::build_profile(description, given, edition, rooms),
    }
}
