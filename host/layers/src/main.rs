//! The port's layers, each by itself, against spline.rs, and against the second reading of the scope where that does not decide: bit for bit, any NaN counting as NaN.
//!
//! `layers` runs all, `layers LAYER..` only some. Prints how many cases came to what; ends with 1 where an answer differs, an outcome never came up, or cases are missing.

mod curve;
mod dequantize;
mod expected;
mod exported;
mod lent;
mod limits;
mod readings;
mod refused;
mod segments;
mod symbols;
mod tally;
mod transform;
mod walk;

use std::process::ExitCode;
use tally::Tally;

struct Layer {
    name: &'static str,
    compare: fn(&mut Tally),
    /// So many cases are due at least, and each of these outcomes.
    least: u64,
    outcomes: &'static [&'static str],
}

const LAYERS: [Layer; 11] = [
    Layer {
        name: "readings",
        compare: readings::compare,
        least: readings::READINGS,
        outcomes: &readings::OUTCOMES,
    },
    Layer {
        name: "limits",
        compare: limits::compare,
        least: limits::LIMITS,
        outcomes: &limits::OUTCOMES,
    },
    Layer {
        name: "dequantize",
        compare: dequantize::compare_splines,
        least: dequantize::SPLINES,
        outcomes: &dequantize::SPLINE_OUTCOMES,
    },
    Layer {
        name: "judge",
        compare: dequantize::compare_descriptions,
        least: dequantize::DESCRIPTIONS,
        outcomes: &dequantize::DESCRIPTION_OUTCOMES,
    },
    Layer {
        name: "curve",
        compare: curve::compare,
        least: curve::CURVES,
        outcomes: &curve::OUTCOMES,
    },
    Layer {
        name: "walk",
        compare: walk::compare,
        least: walk::WALKS,
        outcomes: &walk::OUTCOMES,
    },
    Layer {
        name: "transform",
        compare: transform::compare,
        least: transform::TRANSFORMS,
        outcomes: &transform::OUTCOMES,
    },
    Layer {
        name: "segment",
        compare: segments::compare_making,
        least: segments::SEGMENTS,
        outcomes: &segments::OUTCOMES,
    },
    Layer {
        name: "along",
        compare: segments::compare_along,
        least: segments::WALKS,
        outcomes: &segments::WALK_OUTCOMES,
    },
    Layer {
        name: "record",
        compare: segments::compare_records,
        least: segments::RECORDS,
        outcomes: &segments::RECORD_OUTCOMES,
    },
    Layer {
        name: "refused",
        compare: refused::compare,
        least: refused::REFUSED,
        outcomes: &refused::OUTCOMES,
    },
];

fn main() -> ExitCode {
    quiet::end_with_the_reader();
    let asked: Vec<String> = std::env::args().skip(1).collect();
    if let Some(unknown) = asked
        .iter()
        .find(|name| LAYERS.iter().all(|l| l.name != **name))
    {
        eprintln!("layers: no layer is called {unknown}; usage: layers [LAYER..]");
        return ExitCode::from(2);
    }
    oracle::set_ln(port::ln);
    model::set_ln(port::ln);
    println!("{}", Tally::HEAD);
    let mut code = ExitCode::SUCCESS;
    for layer in &LAYERS {
        if asked.is_empty() || asked.iter().any(|name| name == layer.name) {
            let mut tally = Tally::new(layer.name);
            (layer.compare)(&mut tally);
            tally.done();
            println!("{tally}");
            if let Some(fault) = tally.fault(layer.least, layer.outcomes) {
                println!("{}: {fault}", layer.name);
                code = ExitCode::FAILURE;
            }
        }
    }
    code
}
