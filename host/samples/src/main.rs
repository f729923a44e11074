//! Makes the list of values in samples/, checks that it is still what is made and that spline.rs reads and builds it, and says
//! what the examples and `gauge` have to say of it. Run from the repository's top.

mod drawing;
mod fibres;
mod judged;
mod line;
mod picture;
mod said;
mod values;

use judged::{judged, judged_plain, without, Judged, Size, WHOLE};
use std::process::ExitCode;

const FILE: &str = "samples/fibres.values";
/// Plain ones, for the day on the sampling line.
const PLAIN: &str = "samples/plain.values";
/// What `gauge read` has to say of it.
const READ: &str = "crates/gauge/stdout";
const USAGE: &str = "\
usage, from the repository's top:
  samples make | check                 samples/fibres.values and samples/plain.values, and what they hold
  samples examples                     what examples/fibres.c and .rs have to print of the first
  samples line WIDTH HEIGHT PREFIX     what examples/line.c and .rs have to print of the second; the files that they write, and the other maker's table that they read, to PREFIX.*
  samples trace                        what tools/trace_reader.py has to print of its trace file
  samples read | [--high] rows [--hide N,N..] WIDTH HEIGHT | [--high] bands [--hide N,N..] WIDTH HEIGHT | [--high] draw [--hide N,N..] WIDTH HEIGHT PICTURE | touch WIDTH HEIGHT X Y | table WIDTH HEIGHT
                                       what ./gauge has to print of it, and its picture
  samples svg out WIDTH HEIGHT | svg in
                                       its line drawing as ./gauge has to write it, and what it has to take back from it
  samples over DRAWN LINES             whether the lines of one picture lie over the strands of the other, which ./gauge has drawn
  samples both DRAWN LINES PICTURE     both in one picture
";

fn put(path: &str, bytes: &[u8]) -> Result<(), String> {
    std::fs::write(path, bytes).map_err(|why| format!("{path}: {why}"))
}

/// What is made: each file and its text.
fn made(judged: &Judged, plain: &Judged) -> [(&'static str, String); 3] {
    let text = |judged: &Judged| values::text(&judged.list, judged.description.counts.len());
    [
        (FILE, text(judged)),
        (PLAIN, text(plain)),
        (READ, said::read(judged)),
    ]
}

fn make() -> Result<String, String> {
    let (judged, plain) = (judged(WHOLE)?, judged_plain(WHOLE)?);
    for (file, text) in made(&judged, &plain) {
        put(file, text.as_bytes())?;
    }
    Ok(said::sample(FILE, &judged) + &said::sample(PLAIN, &plain))
}

fn check() -> Result<String, String> {
    let (judged, plain) = (judged(WHOLE)?, judged_plain(WHOLE)?);
    for (file, text) in made(&judged, &plain) {
        let stored = std::fs::read_to_string(file).map_err(|why| format!("{file}: {why}"))?;
        if stored != text {
            return Err(format!("{file}: it is not what is made today"));
        }
    }
    Ok(said::sample(FILE, &judged) + &said::sample(PLAIN, &plain))
}

fn draw(size: Size, hidden: &[u64], path: &str) -> Result<String, String> {
    let whole = judged(size)?;
    let shown = without(&whole, size, hidden)?;
    let bytes = if path.ends_with(".pfm") {
        picture::pfm(&shown.table, size)?
    } else {
        picture::ppm(&shown.table, size)?
    };
    put(path, &bytes)?;
    said::draw(&whole, &shown, size)
}

fn rows(size: Size, hidden: &[u64]) -> Result<String, String> {
    let whole = judged(size)?;
    said::rows(&whole, &without(&whole, size, hidden)?, size)
}

fn bands(size: Size, hidden: &[u64]) -> Result<String, String> {
    let whole = judged(size)?;
    said::bands(&whole, &without(&whole, size, hidden)?, size, hidden)
}

/// The numbers of hidden fibres, as `3,7`.
fn numbers(text: &str) -> Option<Vec<u64>> {
    text.split(',').map(|word| word.parse().ok()).collect()
}

fn size(width: &str, height: &str, high: bool) -> Option<Size> {
    Some(Size {
        width: width.parse().ok()?,
        height: height.parse().ok()?,
        high,
    })
}

/// What the words ask for, or `None` where they ask for nothing.
fn run(words: &[&str]) -> Option<Result<String, String>> {
    let high = words.first() == Some(&"--high");
    Some(match words[usize::from(high)..] {
        ["make"] => make(),
        ["check"] => check(),
        ["examples"] => judged(WHOLE).and_then(|judged| said::examples(&judged, WHOLE)),
        ["line", width, height, prefix] => {
            let size = size(width, height, high)?;
            judged_plain(size).and_then(|judged| line::line(&judged, size, prefix))
        }
        ["trace"] => judged(WHOLE).map(|judged| said::trace(&judged)),
        ["read"] => judged(WHOLE).map(|judged| said::read(&judged)),
        ["rows", width, height] => rows(size(width, height, high)?, &[]),
        ["rows", "--hide", hidden, width, height] => {
            rows(size(width, height, high)?, &numbers(hidden)?)
        }
        ["bands", width, height] => bands(size(width, height, high)?, &[]),
        ["bands", "--hide", hidden, width, height] => {
            bands(size(width, height, high)?, &numbers(hidden)?)
        }
        ["table", width, height] => {
            judged(size(width, height, high)?).map(|judged| said::table(&judged))
        }
        ["touch", width, height, x, y] => {
            let (x, y) = (x.parse().ok()?, y.parse().ok()?);
            judged(size(width, height, high)?).map(|judged| said::touch(&judged, x, y))
        }
        ["svg", "out", width, height] => {
            let size = size(width, height, high)?;
            judged(size).and_then(|judged| drawing::out(&judged, size))
        }
        ["svg", "in"] => judged(WHOLE).map(|judged| drawing::taken(&judged)),
        ["over", drawn, lines] => {
            judged(WHOLE).and_then(|judged| drawing::over(&judged, drawn, lines))
        }
        ["both", drawn, lines, path] => drawing::both(drawn, lines)
            .and_then(|bytes| put(path, &bytes))
            .map(|()| String::new()),
        ["draw", width, height, path] => draw(size(width, height, high)?, &[], path),
        ["draw", "--hide", hidden, width, height, path] => {
            draw(size(width, height, high)?, &numbers(hidden)?, path)
        }
        _ => return None,
    })
}

fn main() -> ExitCode {
    quiet::end_with_the_reader();
    let words: Vec<String> = std::env::args().skip(1).collect();
    let words: Vec<&str> = words.iter().map(String::as_str).collect();
    oracle::set_ln(model::logarithm::ln);
    match run(&words) {
        None => {
            print!("{USAGE}");
            ExitCode::from(2)
        }
        Some(Ok(text)) => {
            print!("{text}");
            ExitCode::SUCCESS
        }
        Some(Err(why)) => {
            println!("samples: {why}");
            ExitCode::FAILURE
        }
    }
}
