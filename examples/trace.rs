//! Writes a list of values as a trace file, reads the file back, and prints what it holds. From the repository's top:
//!
//!     ./library
//!     cargo run --release --manifest-path host/Cargo.toml -p aktyrbuz --example trace -- samples/fibres.values target/fibres.trace

use aktyrbuz::{Description, Limit};
use std::error::Error;
use std::process::ExitCode;

fn run(values: &str, trace: &str) -> Result<(), Box<dyn Error>> {
    let text = std::fs::read_to_string(values)?;
    let list = text
        .split_whitespace()
        .map(str::parse)
        .collect::<Result<Vec<u32>, _>>()?;
    let description = Description::read(&list, Limit::of_pixels(u32::MAX))?;
    std::fs::write(trace, description.to_trace()?)?;

    let file = std::fs::read(trace)?;
    let back = Description::from_trace(&file)?;
    println!(
        "{} values, {} bytes: {} splines, {} points, adjustment {}",
        list.len(),
        file.len(),
        back.counts.len(),
        back.deltas.len() / 2,
        back.adjustment
    );
    Ok(())
}

fn main() -> ExitCode {
    let words: Vec<String> = std::env::args().skip(1).collect();
    let [values, trace] = &words[..] else {
        eprintln!("usage: trace VALUES TRACE");
        return ExitCode::from(2);
    };
    match run(values, trace) {
        Ok(()) => ExitCode::SUCCESS,
        Err(why) => {
            eprintln!("{values}: {why}");
            ExitCode::FAILURE
        }
    }
}
