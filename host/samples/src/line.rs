//! What the example programs of a day on the sampling line have to say of the plain fibres, and the files that they pass on, made of what spline.rs and the second reading answer.

use crate::judged::{without, Judged, Size};
use crate::said::{brightest, built, counts, open, traces};
use crate::{picture, put, said};
use cases::desks::Sight;
use cases::{FlatTable, Refusal};
use model::bands::{BAND_ROWS, NUMBERS};

/// The names of the desks, by their numbers.
const DESKS: [&str; 2] = ["operator", "checker"];

/// A refusal as the examples say it.
fn refused(refusal: Refusal) -> String {
    format!(
        "refused with code {} at {}",
        refusal.code as u32, refusal.place
    )
}

fn taken<T>(what: &str, answer: Result<T, Refusal>) -> Result<T, String> {
    answer.map_err(|refusal| format!("{what}: {refusal:?}"))
}

/// The whole day.
pub fn line(judged: &Judged, size: Size, prefix: &str) -> Result<String, String> {
    let mut day = Day::new(judged, size);
    let mut text = day.list()?;
    text += &day.their_table(prefix)?;
    text += &day.pictures()?;
    let (pixel, trace) = day.touched()?;
    text += &pixel;
    text += &day.change(0, trace, true)?;
    text += &day.change(1, 0, true)?;
    text += &day.change(0, trace, false)?;
    text += &day.files(prefix, trace)?;
    Ok(text)
}

struct Day<'a> {
    judged: &'a Judged,
    size: Size,
    flat: FlatTable,
    /// The shared bytes, and the desk whose turn it is.
    sight: Sight,
}

impl Day<'_> {
    fn new(judged: &Judged, size: Size) -> Day<'_> {
        Day {
            judged,
            size,
            flat: FlatTable::from(&judged.table),
            sight: open(judged),
        }
    }

    /// The list read, a damaged one refused, the profile asked, and the build.
    fn list(&self) -> Result<String, String> {
        let Judged {
            description, list, ..
        } = self.judged;
        let pixels = self.size.width.saturating_mul(self.size.height);
        let room = model::ListRooms {
            counts: u64::MAX,
            starts: u64::MAX,
            deltas: u64::MAX,
            coefficients: u64::MAX,
        };
        let cut = model::read(&list[..list.len() - 1], 1 << 20, pixels, &room);
        let Err(cut) = cut else {
            return Err(String::from("a list that is cut short is read"));
        };
        model::profile(description, 1).map_err(|unmet| format!("the profile: {unmet:?}"))?;
        Ok(format!(
            "list: {} values, {}\ndamaged list: {}, nothing is left of it\nprofile: edition 1 is met\nbuild by profile: {}\n",
            list.len(),
            counts(description),
            refused(cut),
            built(&self.judged.table)
        ))
    }

    /// The other maker's table: spoiled, and as it is.
    fn their_table(&self, prefix: &str) -> Result<String, String> {
        put(
            &format!("{prefix}.table"),
            said::table(self.judged).as_bytes(),
        )?;
        let mut spoiled = self.flat.clone();
        let middle = spoiled.entries.len() / 2;
        spoiled.entries.swap(middle, middle + 1);
        let Err(refusal) = model::check(&spoiled) else {
            return Err(String::from("a spoiled table is taken"));
        };
        let entries = taken("the table", model::check(&self.flat))?;
        Ok(format!(
            "their table, spoiled: {}\ntheir table: taken, {entries} entries\n",
            refused(refusal)
        ))
    }

    /// The bands, and each desk's picture with nothing hidden.
    fn pictures(&self) -> Result<String, String> {
        let bands = self.bands()?;
        let shown: Vec<String> = bands
            .chunks(NUMBERS)
            .map(|five| five[0].to_string())
            .collect();
        let mut text = format!("bands: {} entries\n", shown.join(", "));
        for (desk, name) in (0..).zip(DESKS) {
            let sight = Sight {
                desk,
                ..self.sight.clone()
            };
            text += &format!(
                "{name} draws: {} updates, picture {:016x}\n",
                self.updates(&sight)?,
                self.picture(&sight)?
            );
        }
        Ok(text)
    }

    fn bands(&self) -> Result<Vec<u32>, String> {
        let width = self.size.width;
        taken(
            "the bands",
            model::bands(&self.flat, &self.sight, width, u64::MAX),
        )
    }

    fn updates(&self, sight: &Sight) -> Result<u64, String> {
        let mut row = [(); 3].map(|()| vec![0.0; self.size.width as usize]);
        let [r0, r1, r2] = &mut row;
        let drawn = (0..self.size.height)
            .map(|y| model::draw(&self.flat, sight, y, 0, self.size.width, [r0, r1, r2]));
        taken("a row", drawn.sum())
    }

    /// The picture as spline.rs draws the description without what is hidden, as one number.
    fn picture(&self, sight: &Sight) -> Result<u64, String> {
        let bits = (0..).zip(&sight.bits);
        let hidden: Vec<u64> = bits
            .filter(|(_, byte)| *byte >> sight.desk & 1 == 1)
            .map(|(spline, _)| spline)
            .collect();
        let shown = without(self.judged, self.size, &hidden)?;
        let rows = picture::rows(&shown.table, self.size)?;
        let mut number = 0xcbf2_9ce4_8422_2325u64;
        for channel in 0..3 {
            for cell in rows.iter().flat_map(|row| &row[channel]) {
                number = (number ^ u64::from(cell.to_bits())).wrapping_mul(0x100_0000_01b3);
            }
        }
        Ok(number)
    }

    /// The brightest pixel, in words, and its trace.
    fn touched(&self) -> Result<(String, u64), String> {
        let rows = picture::rows(&self.judged.table, self.size)?;
        let (_, (x, y)) = brightest(&rows);
        let traces = traces(&self.judged.table, x, y);
        let (_, trace) = *traces.first().ok_or("no trace has the brightest pixel")?;
        let text = format!("operator touches column {x}, row {y}: trace {trace}\n");
        Ok((text, trace))
    }

    /// A desk hides or shows a trace, makes the bands again that list it, and repaints their rows: of each the columns that it had or has.
    fn change(&mut self, desk: u32, trace: u64, hidden: bool) -> Result<String, String> {
        self.sight.desk = desk;
        let before = self.sight.clone();
        taken(
            "a bit",
            model::hide(&mut self.sight.bits, desk, trace, hidden),
        )?;
        let bands: Vec<u32> = (0..self.size.height.div_ceil(BAND_ROWS))
            .filter(|&band| self.lists(band, trace))
            .collect();
        let (mut rows, mut columns) = (0, 0);
        for y in bands.iter().flat_map(|&band| self.rows_of(band)) {
            let old = taken(
                "a row",
                model::reach(&self.flat, &before, y, self.size.width),
            )?;
            let new = taken(
                "a row",
                model::reach(&self.flat, &self.sight, y, self.size.width),
            )?;
            let hull = hull(old, new);
            rows += u32::from(hull.0 < hull.1);
            columns += u64::from(hull.1 - hull.0);
        }
        let shown: u32 = self.bands()?.chunks(NUMBERS).map(|five| five[0]).sum();
        let (name, does) = (DESKS[desk as usize], if hidden { "hides" } else { "shows" });
        Ok(format!(
            "{name} {does} trace {trace}: {} bands made again, {shown} entries shown, {rows} rows repainted in {columns} columns, picture {:016x}\n",
            bands.len(),
            self.picture(&self.sight)?
        ))
    }

    fn rows_of(&self, band: u32) -> std::ops::Range<u32> {
        BAND_ROWS * band..(BAND_ROWS * (band + 1)).min(self.size.height)
    }

    fn lists(&self, band: u32, trace: u64) -> bool {
        let rows = self.rows_of(band);
        let start = |row: u32| self.flat.row_starts[row as usize] as usize;
        let entries = &self.flat.entries[start(rows.start)..start(rows.end)];
        (entries.iter()).any(|&entry| self.flat.owners[entry as usize] == trace)
    }

    /// What goes out and comes back: trace files of both versions, the points of a trace, and the list.
    fn files(&self, prefix: &str, trace: u64) -> Result<String, String> {
        let description = &self.judged.description;
        let first = taken("the file", model::trace_write2(description, 1, 1, u64::MAX))?;
        let second = taken("the file", model::trace_write2(description, 2, 2, u64::MAX))?;
        let points = taken(
            "the points",
            model::points_write(description, trace, u64::MAX),
        )?;
        let rooms = model::ListRooms {
            counts: u64::MAX,
            starts: u64::MAX,
            deltas: u64::MAX,
            coefficients: u64::MAX,
        };
        let Err(older) = model::trace_read(&second, &rooms) else {
            return Err(String::from("the older reader reads version 2"));
        };
        for (file, bytes) in [
            ("1.trace", &first),
            ("2.trace", &second),
            ("points", &points),
        ] {
            put(&format!("{prefix}.{file}"), bytes)?;
        }
        Ok(format!(
            "trace file of version 1: {} bytes, comes back the same\ntrace file of version 2, edition 2: {} bytes, comes back the same; the older reader: {}\npoints of trace {trace}: {} pairs, {} bytes, come back the same\nlist: written back, {} values, the same\n",
            first.len(),
            second.len(),
            refused(older),
            description.counts[trace as usize] + 1,
            points.len(),
            self.judged.list.len()
        ))
    }
}

/// The columns from the first to the last of two reaches, either of which may be empty.
fn hull(a: (u32, u32), b: (u32, u32)) -> (u32, u32) {
    match (a.0 < a.1, b.0 < b.1) {
        (false, _) => b,
        (_, false) => a,
        _ => (a.0.min(b.0), a.1.max(b.1)),
    }
}
