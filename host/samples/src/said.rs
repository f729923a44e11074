//! What the example programs and `gauge` have to say of the sample, made of what spline.rs and the second reading answer.

use crate::judged::{Judged, Size};
use crate::picture;
use cases::desks::Sight;
use cases::{Description, FlatTable, Segment, Table};
use model::bands::{BAND_ROWS, NUMBERS};
use model::segments::{all_rows, columns};
use std::collections::BTreeMap;

/// The operator's, who has hidden nothing.
pub fn open(judged: &Judged) -> Sight {
    Sight::open(judged.description.counts.len() as u64)
}

/// One update for each segment at each pixel, by the second reading.
fn updates(judged: &Judged, size: Size) -> Result<u64, String> {
    let (flat, sight) = (FlatTable::from(&judged.table), open(judged));
    let mut row = [(); 3].map(|()| vec![0.0; size.width as usize]);
    let mut updates = 0;
    for y in 0..size.height {
        let [r0, r1, r2] = &mut row;
        updates += model::draw(&flat, &sight, y, 0, size.width, [r0, r1, r2])
            .map_err(|refusal| format!("row {y} is refused: {refusal:?}"))?;
    }
    Ok(updates)
}

pub fn built(table: &Table) -> String {
    format!(
        "{} segments, {} of them faint, {} entries, estimate {}",
        table.segments.len(),
        table.faint,
        table.entries.len(),
        table.estimate
    )
}

/// How many splines and points, and the adjustment.
pub fn counts(description: &Description) -> String {
    format!(
        "{} splines, {} points, adjustment {}",
        description.counts.len(),
        description.deltas.len() / 2,
        description.adjustment
    )
}

/// What making and checking a sample tell of it.
pub fn sample(file: &str, judged: &Judged) -> String {
    format!(
        "{file}: {} values, {}; {}\n",
        judged.list.len(),
        counts(&judged.description),
        built(&judged.table)
    )
}

/// examples/fibres.c and examples/fibres.rs.
pub fn examples(judged: &Judged, size: Size) -> Result<String, String> {
    let rows = picture::rows(&judged.table, size)?;
    let (brightest, (x, y)) = brightest(&rows);
    let traces = traces(&judged.table, x, y);
    let (_, trace) = traces.first().ok_or("no trace has the brightest pixel")?;
    Ok(format!(
        "read: {}\nbuild: {}\ndraw: {} updates, the brightest Y is {brightest:.3}\ntouch: column {x}, row {y} is of trace {trace}\n",
        counts(&judged.description),
        built(&judged.table),
        updates(judged, size)?
    ))
}

/// The greatest Y, and the first pixel that has it.
pub fn brightest(rows: &[[Vec<f32>; 3]]) -> (f32, (u32, u32)) {
    let (mut brightest, mut at) = (0.0f32, (0, 0));
    for (y, [_, row, _]) in (0..).zip(rows) {
        for (x, &luma) in (0..).zip(row) {
            if luma > brightest {
                (brightest, at) = (luma, (x, y));
            }
        }
    }
    (brightest, at)
}

/// The traces that have this pixel, by the second reading of a segment's rows and columns, and how far the nearest centre of each is, in hundredths
/// of a pixel; the nearest first.
pub fn traces(table: &Table, x: u32, y: u32) -> Vec<(u64, u64)> {
    let has = |segment: &Segment| {
        all_rows(segment).contains(&y.into()) && columns(segment).contains(&x.into())
    };
    let far = |segment: &Segment| {
        let (dx, dy) = (segment[0] - x as f32, segment[1] - y as f32);
        (100.0 * (dx * dx + dy * dy).sqrt()).round() as u64
    };
    let mut nearest = BTreeMap::new();
    for (segment, &owner) in table.segments.iter().zip(&table.owners) {
        if has(segment) {
            let least = nearest.entry(owner).or_insert(u64::MAX);
            *least = far(segment).min(*least);
        }
    }
    let mut traces: Vec<(u64, u64)> = nearest
        .into_iter()
        .map(|(owner, far)| (far, owner))
        .collect();
    traces.sort_unstable();
    traces
}

/// `gauge touch`.
pub fn touch(judged: &Judged, x: u32, y: u32) -> String {
    let traces = traces(&judged.table, x, y);
    if traces.is_empty() {
        return String::from("no trace\n");
    }
    let line = |(far, trace): &(u64, u64)| {
        let (pixels, hundredths) = (far / 100, far % 100);
        format!("trace {trace}, {pixels}.{hundredths:02} pixels away\n")
    };
    traces.iter().map(line).collect()
}

/// `gauge read`.
pub fn read(judged: &Judged) -> String {
    let description = &judged.description;
    let mut text = format!("{} values: {}\n", judged.list.len(), counts(description));
    let splines = description.starts.chunks(2).zip(&description.counts);
    for (k, (start, points)) in splines.enumerate() {
        text += &format!(
            "spline {k} starts at {}, {} and has {points} points\n",
            start[0], start[1]
        );
    }
    text
}

/// tools/trace_reader.py of the sample's trace file: every number, spline by spline.
pub fn trace(judged: &Judged) -> String {
    let description = &judged.description;
    let mut text = counts(description) + "\n";
    let mut rest = &description.deltas[..];
    for (k, &points) in description.counts.iter().enumerate() {
        let start = &description.starts[2 * k..];
        text += &format!(
            "spline {k} starts at {}, {} and has {points} points\n",
            start[0], start[1]
        );
        let (own, others) = rest.split_at(2 * points as usize);
        rest = others;
        text += &numbers("double deltas", own);
        let rows = description.coefficients[128 * k..].chunks(32);
        for (name, row) in ["X", "Y", "B", "sigma"].into_iter().zip(rows) {
            text += &numbers(name, row);
        }
    }
    text
}

fn numbers(name: &str, numbers: &[i32]) -> String {
    let words: Vec<String> = numbers.iter().map(i32::to_string).collect();
    format!("{name}: {}\n", words.join(" "))
}

/// `gauge rows`: the entries by the table of spline.rs, the reach of them by the second reading, since the Rust has none.
/// Of the whole table the counts, the rows of what is shown of it.
pub fn rows(whole: &Judged, shown: &Judged, size: Size) -> Result<String, String> {
    let (flat, sight) = (FlatTable::from(&shown.table), open(shown));
    let mut text = built(&whole.table) + "\n";
    for (y, entries) in (0..).zip(held(&shown.table)).filter(|&(_, held)| held > 0) {
        let (first, past) = model::reach(&flat, &sight, y, size.width)
            .map_err(|refusal| format!("the reach of row {y} is refused: {refusal:?}"))?;
        text += &format!("row {y}: {entries} entries, columns from {first} up to {past}\n");
    }
    Ok(text)
}

/// `gauge bands`: of the whole table the counts, then a line a band of what is shown of it. The segment numbers and the columns are the second reading's, since the
/// Rust has no bands; the entries it says must be as many as the table has that spline.rs builds without what is hidden.
pub fn bands(whole: &Judged, shown: &Judged, size: Size, hidden: &[u64]) -> Result<String, String> {
    let mut sight = open(whole);
    for &spline in hidden {
        if let Some(byte) = sight.bits.get_mut(spline as usize) {
            *byte = 1;
        }
    }
    let numbers = model::bands(&FlatTable::from(&whole.table), &sight, size.width, u64::MAX)
        .map_err(|refusal| format!("the bands are refused: {refusal:?}"))?;
    let mut text = built(&whole.table) + "\n";
    for (band, five) in (0..).zip(numbers.chunks(NUMBERS)) {
        let (first, past) = (BAND_ROWS * band, (BAND_ROWS * (band + 1)).min(size.height));
        let starts = &shown.table.row_starts;
        if starts[past as usize] - starts[first as usize] != five[0] {
            return Err(format!("spline.rs has other entries in band {band}"));
        }
        let (last, shown) = (past - 1, band_shown(five));
        text += &format!("band {band}, rows {first} to {last}: {shown}\n");
    }
    Ok(text)
}

/// What a band shows, by its five numbers; the last column is said, not the one past it.
fn band_shown(five: &[u32]) -> String {
    let columns = match (five[3], five[4]) {
        (_, 0) => String::from("no column"),
        (first, past) => format!("columns {first} to {}", past - 1),
    };
    match five[0] {
        0 => String::from("nothing"),
        entries => format!(
            "{entries} entries, segments {} to {}, {columns}",
            five[1], five[2]
        ),
    }
}

/// `gauge draw`: of the whole table the counts, the updates and rows of what is shown of it.
pub fn draw(whole: &Judged, shown: &Judged, size: Size) -> Result<String, String> {
    let rows = held(&shown.table).filter(|&held| held > 0).count();
    Ok(format!(
        "{}\n{} updates, {rows} rows that hold anything\n",
        built(&whole.table),
        updates(shown, size)?
    ))
}

/// `gauge table`: the row starts and the entries of spline.rs, a number a line.
pub fn table(judged: &Judged) -> String {
    let numbers = judged.table.row_starts.iter().chain(&judged.table.entries);
    numbers.map(|number| format!("{number}\n")).collect()
}

/// How many entries each row has.
fn held(table: &Table) -> impl Iterator<Item = u32> + '_ {
    table.row_starts.windows(2).map(|ends| ends[1] - ends[0])
}
