//! Reads samples/fibres.values, builds its table and draws every row, and prints the counts of each call. From the repository's top:
//!
//!     ./library
//!     cargo run --release --manifest-path host/Cargo.toml -p aktyrbuz --example fibres -- samples/fibres.values 640 400

use aktyrbuz::{Description, Image, Limit, Table};
use std::error::Error;
use std::process::ExitCode;

fn run(path: &str, width: u32, height: u32) -> Result<(), Box<dyn Error>> {
    let text = std::fs::read_to_string(path)?;
    let list = text
        .split_whitespace()
        .map(str::parse)
        .collect::<Result<Vec<u32>, _>>()?;

    let description = Description::read(&list, Limit::of_pixels(width.saturating_mul(height)))?;
    println!(
        "read: {} splines, {} points, adjustment {}",
        description.counts.len(),
        description.deltas.len() / 2,
        description.adjustment
    );

    let table = Table::build(&description, &Image::new(width, height))?;
    let counts = table.counts();
    println!(
        "build: {} segments, {} of them faint, {} entries, estimate {}",
        counts.segments, counts.faint, counts.entries, counts.estimate
    );

    let (mut updates, mut brightest, mut at) = (0, 0.0f32, (0, 0));
    for y in 0..height {
        let [mut x, mut luma, mut b] = [(); 3].map(|()| vec![0.0; width as usize]);
        updates += table.draw_row(y, 0, [&mut x, &mut luma, &mut b])?;
        for (x, luma) in (0..).zip(luma) {
            if luma > brightest {
                (brightest, at) = (luma, (x, y));
            }
        }
    }
    println!("draw: {updates} updates, the brightest Y is {brightest:.3}");
    // Which fibre an operator touches there.
    if let Some(near) = table.at(at.0, at.1).first() {
        println!(
            "touch: column {}, row {} is of trace {}",
            at.0, at.1, near.trace
        );
    }
    Ok(())
}

fn main() -> ExitCode {
    let words: Vec<String> = std::env::args().skip(1).collect();
    let size = |word: &str| word.parse().ok();
    let [path, width, height] = &words[..] else {
        eprintln!("usage: fibres VALUES WIDTH HEIGHT");
        return ExitCode::from(2);
    };
    let (Some(width), Some(height)) = (size(width), size(height)) else {
        eprintln!("usage: fibres VALUES WIDTH HEIGHT");
        return ExitCode::from(2);
    };
    match run(path, width, height) {
        Ok(()) => ExitCode::SUCCESS,
        Err(why) => {
            eprintln!("{path}: {why}");
            ExitCode::FAILURE
        }
    }
}
