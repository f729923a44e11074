//! Makes the stored answers of the oracle, checks that they are still what it answers, and lists what they hold.
//! Run from the repository's top: `vectors make`, `vectors check` or `vectors list`.

mod frame;
mod kinds;
mod list;
mod numbers;
mod segments;
mod splines;
mod tables;
mod words;

use frame::Case;
use std::process::ExitCode;

const FOLDER: &str = "crates/replay/data";

struct Layer {
    name: &'static str,
    /// Seeds of each kind of case, from 0 on; of the number leaves the seed itself.
    seeds: u64,
    cases: fn(u64) -> Vec<Case>,
}

const LAYERS: [Layer; 5] = [
    Layer {
        name: "numbers",
        seeds: 1,
        cases: numbers::cases,
    },
    Layer {
        name: "list",
        seeds: 8,
        cases: list::cases,
    },
    Layer {
        name: "splines",
        seeds: 6,
        cases: splines::cases,
    },
    Layer {
        name: "segments",
        seeds: 40,
        cases: segments::cases,
    },
    Layer {
        name: "tables",
        seeds: 8,
        cases: tables::cases,
    },
];

fn path(layer: &Layer) -> String {
    format!("{FOLDER}/{}.words", layer.name)
}

fn make(layer: &Layer) -> Result<String, String> {
    let cases = (layer.cases)(layer.seeds);
    let bytes = frame::encode(&cases);
    std::fs::write(path(layer), &bytes).map_err(|why| format!("{}: {why}", path(layer)))?;
    Ok(format!(
        "{}: {} cases, {} bytes",
        path(layer),
        cases.len(),
        bytes.len()
    ))
}

fn stored(layer: &Layer) -> Result<(Vec<u8>, Vec<Case>), String> {
    let bytes = std::fs::read(path(layer)).map_err(|why| format!("{}: {why}", path(layer)))?;
    let cases = frame::decode(&bytes).map_err(|why| format!("{}: {why}", path(layer)))?;
    Ok((bytes, cases))
}

/// The first case in which the stored answers differ from today's.
fn check(layer: &Layer) -> Result<String, String> {
    let (bytes, old) = stored(layer)?;
    let new = (layer.cases)(layer.seeds);
    if bytes == frame::encode(&new) {
        return Ok(format!(
            "{}: {} cases, as the oracle answers today",
            path(layer),
            new.len()
        ));
    }
    let same = |a: &Case, b: &Case| a.kind == b.kind && a.input == b.input && a.output == b.output;
    match old.iter().zip(&new).position(|(a, b)| !same(a, b)) {
        Some(at) => Err(format!(
            "{}: case {at} ({}) is not what the oracle answers today",
            path(layer),
            kinds::name(old[at].kind)
        )),
        None => Err(format!(
            "{}: it has {} cases, and today there are {}",
            path(layer),
            old.len(),
            new.len()
        )),
    }
}

fn list(layer: &Layer) -> Result<String, String> {
    let (bytes, cases) = stored(layer)?;
    let mut lines = vec![format!(
        "{}: {} cases, {} bytes",
        path(layer),
        cases.len(),
        bytes.len()
    )];
    let mut numbers: Vec<u32> = cases.iter().map(|case| case.kind).collect();
    numbers.sort();
    numbers.dedup();
    for kind in numbers {
        let count = cases.iter().filter(|case| case.kind == kind).count();
        lines.push(format!("  {count:4} {}", kinds::name(kind)));
    }
    Ok(lines.join("\n"))
}

fn main() -> ExitCode {
    quiet::end_with_the_reader();
    let words: Vec<String> = std::env::args().skip(1).collect();
    let words: Vec<&str> = words.iter().map(String::as_str).collect();
    let act = match words[..] {
        ["make"] => make,
        ["check"] => check,
        ["list"] => list,
        _ => {
            println!("usage, from the repository's top: vectors make | check | list");
            return ExitCode::from(2);
        }
    };
    oracle::set_ln(model::logarithm::ln);
    let mut good = true;
    for layer in &LAYERS {
        match act(layer) {
            Ok(line) => println!("{line}"),
            Err(line) => {
                println!("{line}");
                good = false;
            }
        }
    }
    if good {
        ExitCode::SUCCESS
    } else {
        ExitCode::FAILURE
    }
}
