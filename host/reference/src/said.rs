//! The figures as text.

use crate::figures::{alone, changed, ladder, touched, Apart, Figures, Touched, RULES};
use crate::files::File;
use crate::rules::{parted_turns, Picture};
use std::fmt::Write;

/// The table of all files.
pub fn total(total: &Figures, refused: &[String]) -> String {
    let mut text = format!(
        "{} files compared, {} pixels, the brightest float is {:.3}; libjxl refuses {} more: {}\n\n",
        total.files,
        total.pixels,
        total.brightest,
        refused.len(),
        refused.join(", ")
    );
    let [low, high] = &total.touched;
    let mut line = |what: &str, low: String, high: String| {
        let _ = writeln!(text, "{what:40}{low:>15}{high:>16}");
    };
    line(
        "pixels touched",
        "low precision".into(),
        "high precision".into(),
    );
    line("on both sides", low.both.to_string(), high.both.to_string());
    for (side, low, high) in [
        ("libjxl", low.there, high.there),
        ("spline.rs", low.here, high.here),
    ] {
        let sums = [low, high].map(|counts| counts.iter().sum::<u64>().to_string());
        let [low_sum, high_sum] = sums;
        line(&format!("by {side} alone"), low_sum, high_sum);
        for (rule, name) in RULES.iter().enumerate() {
            line(
                &format!("  {name}"),
                low[rule].to_string(),
                high[rule].to_string(),
            );
        }
    }
    text + &differences(total)
}

fn differences(total: &Figures) -> String {
    let mut text = format!("\n{:44}{:>12}{:>12}\n", "differences", "greatest", "pixels");
    let mut line = |what: &str, apart: &Apart| {
        let _ = writeln!(text, "{what:44}{:12.2e}{:12}", apart.greatest, apart.pixels);
    };
    let [low, high, b, c, d] = &total.ladder;
    line("libjxl and spline.rs in low precision", low);
    line("  with (a), which is high precision", high);
    line("  and with (b)", b);
    line("  and with (c)", c);
    line("  and with (d), which are libjxl's rules", d);
    for (alone, apart) in alone().iter().zip(&total.alone) {
        line(&format!("alone: {}", alone.name), apart);
    }
    text + &format!("multiples of pi/32 that part: {:?}\n", parted_turns())
}

/// A line for each kind of file.
pub fn kinds(kinds: &[(&str, Figures)]) -> String {
    let head = ["files", "pixels", "low", "high", "brightest"];
    let mut text = format!("\n{:14}", "of each kind");
    for word in head {
        let _ = write!(text, "{word:>10}");
    }
    for (kind, figures) in kinds {
        let [low, high, ..] = figures.ladder.map(|apart| apart.greatest);
        let _ = write!(text, "\n{kind:14}{:10}{:10}", figures.files, figures.pixels);
        let _ = write!(text, "{low:10.1e}{high:10.1e}{:10.3}", figures.brightest);
    }
    text + "\n"
}

/// A file by itself.
pub fn shown(file: &File, figures: &Figures, there: &Picture) -> Result<String, String> {
    let mut text = format!("  {}, {} by {}\n", file.name, file.width, file.height);
    let ladder = ladder(file)?;
    let width = file.width as usize;
    let sides = [("libjxl", there), ("low", &ladder[0]), ("high", &ladder[1])];
    for (name, picture) in sides {
        let rows = picture.chunks(width);
        let rows = rows.filter(|row| row.iter().any(touched)).count();
        let pixels = picture.iter().filter(|pixel| touched(pixel)).count();
        let _ = writeln!(text, "    {name}: {rows} rows, {pixels} pixels touched");
    }
    for ((name, picture), touched) in sides[1..].iter().zip(&figures.touched) {
        if let Some(at) = parted(picture, there) {
            let _ = writeln!(text, "    {name}, alone: {}", rules(touched));
            text += &at_pixel(at, width, ["libjxl", name], [there, picture]);
        }
    }
    for alone in alone() {
        let (before, after) = (changed(file, alone.before)?, changed(file, alone.after)?);
        if let Some(at) = (0..before.len()).find(|&at| before[at] != after[at]) {
            let name = format!("with {}", alone.name);
            text += &at_pixel(at, width, ["without", &name], [&before, &after]);
        }
    }
    Ok(text)
}

/// How many pixels of either side each rule explains.
fn rules(touched: &Touched) -> String {
    let counts = |rule: usize| (touched.there[rule], touched.here[rule]);
    let rules = (0..RULES.len()).filter(|&rule| counts(rule) != (0, 0));
    let rules = rules.map(|rule| {
        let (there, here) = counts(rule);
        format!("{}: libjxl {there}, spline.rs {here}", RULES[rule])
    });
    rules.collect::<Vec<String>>().join("; ")
}

/// Two pictures at the same pixel.
fn at_pixel(at: usize, width: usize, names: [&str; 2], pictures: [&Picture; 2]) -> String {
    let [one, other] = pictures.map(|picture| picture[at]);
    let [name, other_name] = names;
    format!(
        "      column {}, row {}: {name} {one:?}, {other_name} {other:?}\n",
        at % width,
        at / width
    )
}

/// The first pixel that one alone touches.
fn parted(one: &Picture, other: &Picture) -> Option<usize> {
    (0..one.len()).find(|&at| touched(&one[at]) != touched(&other[at]))
}
