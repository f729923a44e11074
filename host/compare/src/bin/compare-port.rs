//! The port through its C interface on fixed cases: reading and writing with both round trips, building, drawing whole and in parts,
//! reach, two desks that hide and draw by turns, bands made and refreshed, tables of another maker, trace files of both versions and texts of points with both round trips, the fineness profile, and the logarithm; every cell of every lent buffer, and each buffer against an inaccessible page. Before that, empty buffers by NULL.
//!
//! `compare-port` runs the standing cases, `compare-port --long` more than a million of other seeds, with lines of progress, and
//! `compare-port --one-in N` the first N-th of each kind's standing cases. Names of calls behind that leave the others out.
//! `compare-port --mixed SEED COUNT` makes so many calls of every kind at random, each on what earlier ones left, with lines of progress where they are many.
//! Prints a table; ends with 1, and the smallest input, where an answer differs.

use compare::port::tally::Tally;
use compare::port::{
    bands, build, check, desks, draw, limits, ln, mixed, null, pages, polyline, profile, reach,
    read, trace, trace2, write,
};
use std::process::ExitCode;

/// A call's name, and what runs its cases.
type Call = (&'static str, fn(&mut Tally));

const CALLS: [Call; 20] = [
    ("read", read::compare),
    ("write", write::compare),
    ("build", build::compare),
    ("draw", draw::compare),
    ("reach", reach::compare),
    ("desks", desks::compare),
    ("hide", desks::compare_hide),
    ("bands", bands::compare),
    ("band", bands::compare_runs),
    ("limits", limits::compare),
    ("check", check::compare),
    ("trace-in", trace::compare_read),
    ("trace-out", trace::compare_write),
    ("trace2-in", trace2::compare_read),
    ("trace2-out", trace2::compare_write),
    ("line-in", polyline::compare_read),
    ("line-out", polyline::compare_write),
    ("profile", profile::compare_check),
    ("by-profile", profile::compare_build),
    ("ln", ln::compare),
];

/// The seeds of a long run begin past all others, and there are so many times as many.
const LONG_FIRST_SEED: u64 = 1 << 32;
const LONG_TIMES: u64 = 5;

fn main() -> ExitCode {
    quiet::end_with_the_reader();
    let words: Vec<String> = std::env::args().skip(1).collect();
    let words: Vec<&str> = words.iter().map(String::as_str).collect();
    let (long, names) = match words[..] {
        ["--mixed", seed, count] => {
            return match (seed.parse(), count.parse()) {
                (Ok(seed), Ok(count)) => mixed(seed, count),
                _ => usage(),
            }
        }
        ["--long", ref names @ ..] => {
            cases::set_seeds(LONG_FIRST_SEED, LONG_TIMES);
            (true, names)
        }
        ["--one-in", many, ref names @ ..] => match many.parse() {
            Ok(many) if many > 0 => {
                cases::set_one_in(many);
                (false, names)
            }
            _ => return usage(),
        },
        ref names => (false, names),
    };
    if !names
        .iter()
        .all(|name| CALLS.iter().any(|call| call.0 == *name))
    {
        return usage();
    }
    ready();
    compare(long, names)
}

/// Tries the guards and the empty slices, and gives both readings the port's logarithm.
fn ready() {
    pages::check_guards();
    null::check();
    oracle::set_ln(port::ln);
    model::set_ln(port::ln);
}

/// More calls than this take a while, and tell how far they are.
const LONG_DAY: u64 = 100_000;

fn mixed(seed: u64, count: u64) -> ExitCode {
    ready();
    println!("{count} calls of every kind, seed {seed}, on what earlier ones left: the port against spline.rs where that decides, and against the second reading of the scope");
    told(mixed::run(seed, count, count > LONG_DAY).into_iter())
}

fn usage() -> ExitCode {
    let calls = CALLS.map(|call| call.0).join(" ");
    eprintln!("compare-port: usage: compare-port [--long | --one-in N] [CALL..] | --mixed SEED COUNT, calls: {calls}");
    ExitCode::from(2)
}

/// Runs every call, or those with these names, printing lines for each and for all.
fn compare(long: bool, names: &[&str]) -> ExitCode {
    println!("the port against spline.rs where that decides, and against the second reading of the scope");
    let chosen = |name| names.is_empty() || names.contains(&name);
    let calls = CALLS.into_iter().filter(|call| chosen(call.0));
    told(calls.map(|(name, run)| {
        let mut tally = Tally::new(name, long);
        run(&mut tally);
        tally
    }))
}

/// Prints the lines of each call as it comes to its end, and those of all.
fn told(tallies: impl Iterator<Item = Tally>) -> ExitCode {
    println!("{}", Tally::HEAD);
    let mut code = ExitCode::SUCCESS;
    let mut all = Tally::new("all", false);
    for tally in tallies {
        println!("{tally}");
        all.join(&tally);
        if let Some(difference) = tally.smallest() {
            println!("\nThe smallest input with another answer:\n{difference}");
            code = ExitCode::FAILURE;
        }
    }
    println!("{all}");
    code
}
