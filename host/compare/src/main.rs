//! The standing comparison: each party's answers held against the model's, layer by layer, on fixed cases.
//!
//! `compare` runs all layers, `compare LAYER..` only some. Prints a table; ends with 1, and the smallest input, where an
//! answer differs in a way that docs/DIFFERENCES.md does not list.

use compare::tally::Tally;
use compare::{
    bands, build, check, curve, dequantize, desks, draw, numbers, polyline, profile, reach, read,
    segments, trace, transform, write,
};
use std::process::ExitCode;

/// A layer's name, and what runs its cases.
type Layer = (&'static str, fn(&mut Tally));

const LAYERS: [Layer; 20] = [
    ("numbers", numbers::compare),
    ("read", read::compare),
    ("write", write::compare),
    ("dequantize", dequantize::compare),
    ("curve", curve::compare_curve),
    ("walk", curve::compare_walk),
    ("transform", transform::compare),
    ("segment", segments::compare_making),
    ("along", segments::compare_along),
    ("columns", segments::compare_columns),
    ("build", build::compare),
    ("draw", draw::compare),
    ("reach", reach::compare),
    ("desks", desks::compare),
    ("check", check::compare),
    ("bands", bands::compare),
    ("trace", trace::compare),
    ("trace2", trace::compare2),
    ("points", polyline::compare),
    ("profile", profile::compare),
];

fn main() -> ExitCode {
    quiet::end_with_the_reader();
    let asked: Vec<String> = std::env::args().skip(1).collect();
    let known = |name: &String| LAYERS.iter().any(|(layer, _)| layer == name);
    if let Some(unknown) = asked.iter().find(|name| !known(name)) {
        let layers = LAYERS.map(|(layer, _)| layer).join(" ");
        eprintln!(
            "compare: no layer is called {unknown}; usage: compare [LAYER..], layers: {layers}"
        );
        return ExitCode::from(2);
    }
    let chosen: Vec<&Layer> = LAYERS
        .iter()
        .filter(|(layer, _)| asked.is_empty() || asked.iter().any(|name| name == layer))
        .collect();
    let all = compare(&chosen);
    let never = all.never_given();
    if asked.is_empty() && !never.is_empty() {
        println!("\nThe cases have holes: none gives {}", never.join(", "));
        return ExitCode::FAILURE;
    }
    match all.smallest {
        None => ExitCode::SUCCESS,
        Some(difference) => {
            println!("\nThe smallest input with another answer:\n{difference}");
            ExitCode::FAILURE
        }
    }
}

/// Runs these layers, printing a line or more for each and for all.
fn compare(layers: &[&Layer]) -> Tally {
    println!("spline.rs against the second reading of the scope");
    println!("{}", Tally::HEAD);
    let mut all = Tally::new("all");
    for (name, run) in layers {
        let mut tally = Tally::new(name);
        run(&mut tally);
        println!("{tally}");
        all.join(&tally);
    }
    println!("{all}");
    all
}
