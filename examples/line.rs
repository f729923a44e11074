//! A day on the sampling line: a list comes in, is held against the profile and built; the other maker's table is taken; two desks draw the picture in strips, hide and show
//! traces and repaint no more than they must; trace files, points and the list go out and come back. docs/TOUR.md walks through it. From the repository's top:
//!
//!     ./library && ./gauge table samples/plain.values 640 400 >target/plain.table
//!     cargo run --release --manifest-path host/Cargo.toml -p aktyrbuz --example line -- samples/plain.values target/plain.table 640 400 target/day

use aktyrbuz::{Bands, Description, Desk, Edition, Hidden, Image, Limit, Profile, Refusal, Table};
use std::error::Error;
use std::ops::Range;

type Done<T> = Result<T, Box<dyn Error>>;

/// Columns of a strip.
const STRIP: u32 = 100;

/// What a desk has on its screen: three channels, the columns that each row shows, and its bands.
struct Screen {
    desk: Desk,
    name: &'static str,
    picture: [Vec<f32>; 3],
    reach: Vec<Range<u32>>,
    bands: Bands,
}

impl Screen {
    fn new(table: &Table, desk: Desk, name: &'static str) -> Screen {
        let Image { width, height, .. } = table.image();
        Screen {
            desk,
            name,
            picture: [(); 3].map(|()| vec![0.0; width as usize * height as usize]),
            reach: vec![0..0; height as usize],
            bands: table.bands(desk),
        }
    }

    /// The whole picture in strips: the operator's from left to right, the checker's from right to left. Bands that hold nothing are passed over.
    fn draw_all(&mut self, table: &Table, hidden: &Hidden) -> Done<()> {
        let Image { width, height, .. } = table.image();
        let mut strips: Vec<u32> = (0..width).step_by(STRIP as usize).collect();
        if self.desk == Desk::Checker {
            strips.reverse();
        }
        let mut updates = 0;
        for first in strips {
            let held = self.bands.iter().filter(|band| band.entries > 0);
            for y in held.flat_map(|band| band.rows).collect::<Vec<u32>>() {
                updates += self.paint((table, hidden), y, first..(first + STRIP).min(width))?;
            }
        }
        for y in 0..height {
            self.reach[y as usize] = table.reach_for(self.desk, hidden, y)?;
        }
        let (name, picture) = (self.name, self.number());
        println!("{name} draws: {updates} updates, picture {picture:016x}");
        Ok(())
    }

    /// These columns of a row, cleared and drawn again.
    fn paint(&mut self, seen: (&Table, &Hidden), y: u32, columns: Range<u32>) -> Done<u64> {
        let (table, hidden) = seen;
        let row = y as usize * table.image().width as usize;
        let part = row + columns.start as usize..row + columns.end as usize;
        let channels = (self.picture.each_mut()).map(|cells| &mut cells[part.clone()]);
        let channels = channels.map(|cells| {
            cells.fill(0.0);
            cells
        });
        Ok(table.draw_row_for(self.desk, hidden, y, columns.start, channels)?)
    }

    /// The desk hides a trace or shows it again. The bands that list it are made again, and in their rows the columns are repainted that were shown
    /// before or are now.
    fn change(&mut self, table: &Table, hidden: &mut Hidden, trace: u64, hide: bool) -> Done<()> {
        match hide {
            true => hidden.hide(self.desk, trace)?,
            false => hidden.show(self.desk, trace)?,
        }
        self.bands.refresh_after(table, hidden, trace)?;
        let (mut rows, mut columns) = (0, 0);
        let again = table.bands_listing(trace);
        for y in (again.iter()).flat_map(|&band| {
            Bands::ROWS * band..(Bands::ROWS * (band + 1)).min(table.image().height)
        }) {
            let now = table.reach_for(self.desk, hidden, y)?;
            let before = std::mem::replace(&mut self.reach[y as usize], now.clone());
            let both = hull(before, now);
            if !both.is_empty() {
                rows += 1;
                columns += both.len();
                self.paint((table, hidden), y, both)?;
            }
        }
        let (name, does) = (self.name, if hide { "hides" } else { "shows" });
        let shown: u32 = self.bands.iter().map(|band| band.entries).sum();
        println!(
            "{name} {does} trace {trace}: {} bands made again, {shown} entries shown, {rows} rows repainted in {columns} columns, picture {:016x}",
            again.len(),
            self.number()
        );
        Ok(())
    }

    /// The trace of the brightest pixel.
    fn touch(&self, table: &Table) -> Done<u64> {
        let (mut brightest, mut at) = (0.0, 0);
        for (pixel, &luma) in (0..).zip(&self.picture[1]) {
            if luma > brightest {
                (brightest, at) = (luma, pixel);
            }
        }
        let (x, y) = (at % table.image().width, at / table.image().width);
        let near = table.at(x, y);
        let trace = near.first().ok_or("no trace is there")?.trace;
        println!("{} touches column {x}, row {y}: trace {trace}", self.name);
        Ok(trace)
    }

    /// One number for the picture.
    fn number(&self) -> u64 {
        let cells = self.picture.iter().flatten();
        cells.fold(0xcbf2_9ce4_8422_2325, |number, cell| {
            (number ^ u64::from(cell.to_bits())).wrapping_mul(0x100_0000_01b3)
        })
    }
}

/// From the first to the last column of both, either of which may be empty.
fn hull(a: Range<u32>, b: Range<u32>) -> Range<u32> {
    match (a.is_empty(), b.is_empty()) {
        (true, _) => b,
        (_, true) => a,
        _ => a.start.min(b.start)..a.end.max(b.end),
    }
}

fn numbers(path: &str) -> Done<Vec<u32>> {
    let text = std::fs::read_to_string(path).map_err(|why| format!("{path}: {why}"))?;
    let words = text.split_whitespace();
    Ok(words.map(str::parse).collect::<Result<_, _>>()?)
}

/// Writes bytes to a file and reads them again.
fn pass_on(path: String, bytes: &[u8]) -> Done<Vec<u8>> {
    std::fs::write(&path, bytes)?;
    Ok(std::fs::read(&path)?)
}

fn refused(refusal: Refusal) -> String {
    let Refusal { code, place } = refusal;
    format!("refused with code {} at {place}", code as u32)
}

/// Reads the list, and a damaged one beside it, and builds what meets the profile.
fn table_of(list: &[u32], image: &Image, limit: Limit) -> Done<(Description, Table)> {
    let description = Description::read(list, limit)?;
    println!(
        "list: {} values, {} splines, {} points, adjustment {}",
        list.len(),
        description.counts.len(),
        description.deltas.len() / 2,
        description.adjustment
    );
    let cut = Description::read(&list[..list.len() - 1], limit).expect_err("a value is missing");
    println!("damaged list: {}, nothing is left of it", refused(cut));
    match description.profile(Edition::One)? {
        Profile::Met => println!("profile: edition 1 is met"),
        Profile::Broken(broken) => return Err(broken.to_string().into()),
    }
    let table = Table::build_profile(&description, image, Edition::One)?;
    let counts = table.counts();
    println!(
        "build by profile: {} segments, {} of them faint, {} entries, estimate {}",
        counts.segments, counts.faint, counts.entries, counts.estimate
    );
    Ok((description, table))
}

/// The other maker's row starts and entries, of which two have changed places at first: once they are right they are those of the table.
fn check_theirs(table: &Table, mut theirs: Vec<u32>) -> Done<()> {
    let rows = table.image().height as usize + 1;
    if theirs.len() < rows + 2 {
        return Err("their table is too short".into());
    }
    let mut entries = theirs.split_off(rows);
    let middle = entries.len() / 2;
    entries.swap(middle, middle + 1);
    let spoiled = table.check(&theirs, &entries).expect_err("two are swapped");
    println!("their table, spoiled: {}", refused(spoiled));
    entries.swap(middle, middle + 1);
    table.check(&theirs, &entries)?;
    println!("their table: taken, {} entries", entries.len());
    Ok(())
}

/// What goes out and comes back.
fn pass_all(traces: &Description, list: &[u32], limit: Limit, trace: u64, to: &str) -> Done<()> {
    let file = pass_on(format!("{to}.1.trace"), &traces.to_trace()?)?;
    assert_eq!(Description::from_trace(&file)?, *traces);
    let bytes = file.len();
    println!("trace file of version 1: {bytes} bytes, comes back the same");
    let file = pass_on(format!("{to}.2.trace"), &traces.to_trace2(Edition::Two)?)?;
    let (back, edition) = Description::from_trace2(&file)?;
    assert_eq!(back, *traces);
    let older = Description::from_trace(&file).expect_err("it knows version 1 alone");
    let (edition, bytes, older) = (edition.number(), file.len(), refused(older));
    println!("trace file of version 2, edition {edition}: {bytes} bytes, comes back the same; the older reader: {older}");
    let file = pass_on(format!("{to}.points"), traces.points(trace)?.as_bytes())?;
    let points = aktyrbuz::points::read(std::str::from_utf8(&file)?)?;
    let before = traces.counts[..trace as usize].iter().sum::<u32>() as usize;
    assert_eq!(points.start[..], traces.starts[2 * trace as usize..][..2]);
    let own = &traces.deltas[2 * before..][..points.deltas.len()];
    assert_eq!(points.deltas, own);
    let (pairs, bytes) = (own.len() / 2 + 1, file.len());
    println!("points of trace {trace}: {pairs} pairs, {bytes} bytes, come back the same");
    assert_eq!(traces.write(limit)?, list);
    println!("list: written back, {} values, the same", list.len());
    Ok(())
}

fn run(values: &str, theirs: &str, image: &Image, prefix: &str) -> Done<()> {
    let list = numbers(values)?;
    let limit = Limit::of_pixels(image.width.saturating_mul(image.height));
    let (description, table) = table_of(&list, image, limit)?;
    check_theirs(&table, numbers(theirs)?)?;
    let mut hidden = Hidden::nothing(description.counts.len())?;
    let mut operator = Screen::new(&table, Desk::Operator, "operator");
    let mut checker = Screen::new(&table, Desk::Checker, "checker");
    let shown = operator.bands.iter().map(|band| band.entries.to_string());
    println!("bands: {} entries", shown.collect::<Vec<_>>().join(", "));
    operator.draw_all(&table, &hidden)?;
    checker.draw_all(&table, &hidden)?;
    let trace = operator.touch(&table)?;
    operator.change(&table, &mut hidden, trace, true)?;
    checker.change(&table, &mut hidden, 0, true)?;
    operator.change(&table, &mut hidden, trace, false)?;
    pass_all(&description, &list, limit, trace, prefix)
}

fn main() -> Done<()> {
    let words: Vec<String> = std::env::args().skip(1).collect();
    let [values, theirs, width, height, prefix] = &words[..] else {
        return Err("usage: line VALUES TABLE WIDTH HEIGHT PREFIX".into());
    };
    let image = Image::new(width.parse()?, height.parse()?);
    run(values, theirs, &image, prefix)
}
