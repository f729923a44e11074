//! What drawing a picture, drawing it for a desk that has hidden half of its splines, drawing a strip again and again, and building cost, against spline.rs on the same prepared input, and what the calls that it lacks cost: processor time of the thread, runs by turns; or
//! under an emulator, where times say nothing, instructions.
//!
//! `bench` prints the table of times, `bench counts` that of instructions (started by tools/counts). `bench CALL SIDE WIDTH`
//! makes one run of these, for another counter of instructions, which finds it as the function `counted_run`; the port's says its first count.

mod alone;
mod building;
mod clock;
mod counter;
mod drawing;
mod picture;

use alone::Alone;
use building::Building;
use counter::Counter;
use drawing::Drawing;
use picture::{SIDE, WIDTHS};
use std::process::ExitCode;

/// Runs of each side.
const RUNS: usize = 15;

/// One call on one picture: each side takes the same input, and its buffers are cleared beforehand.
pub trait Work {
    fn clear(&mut self);
    fn by_rust(&mut self);
    /// The first count that the port answers: updates, or segments.
    fn by_port(&mut self) -> i64;
}

#[derive(Clone, Copy)]
enum Side {
    Rust,
    Port,
}

fn main() -> ExitCode {
    quiet::end_with_the_reader();
    oracle::set_ln(port::ln);
    let words: Vec<String> = std::env::args().skip(1).collect();
    match words.iter().map(String::as_str).collect::<Vec<_>>()[..] {
        [] if counter::emulated() => {
            refuse("times under an emulator say nothing: tools/counts counts instructions")
        }
        [] => times(),
        ["counts"] => match Counter::find() {
            Some(counter) => counts(&counter),
            None => refuse("nobody counts the instructions here: start this by tools/counts"),
        },
        [call, side, width] => one_run(call, side, width),
        _ => usage(),
    }
}

fn usage() -> ExitCode {
    refuse("usage: bench [counts | CALL SIDE WIDTH]: draw, half, strip or build, rust or port, 5 or 17 or 48")
}

fn refuse(why: &str) -> ExitCode {
    eprintln!("bench: {why}");
    ExitCode::from(2)
}

fn one_run(call: &str, side: &str, width: &str) -> ExitCode {
    let picture = WIDTHS.iter().find(|named| named.0.to_string() == width);
    let side = match side {
        "rust" => Side::Rust,
        "port" => Side::Port,
        _ => return usage(),
    };
    let (Some((_, sigmas)), "draw" | "half" | "strip" | "build") = (picture, call) else {
        return usage();
    };
    let mut work = work_of(call, sigmas);
    work.clear();
    if let Some(count) = counted_run(&mut *work, side) {
        println!("{count}");
    }
    ExitCode::SUCCESS
}

/// By this name callgrind tells a run from its preparation.
#[no_mangle]
#[inline(never)]
fn counted_run(work: &mut dyn Work, side: Side) -> Option<i64> {
    match side {
        Side::Rust => {
            work.by_rust();
            None
        }
        Side::Port => Some(work.by_port()),
    }
}

fn work_of(call: &str, sigmas: &[i32]) -> Box<dyn Work> {
    match call {
        "draw" => Box::new(Drawing::of(sigmas)),
        "half" => Box::new(Drawing::half(sigmas)),
        "strip" => Box::new(Drawing::strip(sigmas)),
        _ => Box::new(Building::of(sigmas)),
    }
}

/// What the pictures hold.
fn pictures() {
    for drawing in [Drawing::of, Drawing::strip] {
        for (_, sigmas) in WIDTHS {
            println!("{}", drawing(sigmas).words());
        }
    }
}

/// Each call on each picture, with its line's first words.
fn each(mut measure: impl FnMut(&str, &mut dyn Work)) {
    for call in ["draw", "half", "strip", "build"] {
        for (width, sigmas) in WIDTHS {
            measure(
                &format!("{call:<6} {width:>5}"),
                &mut *work_of(call, sigmas),
            );
        }
    }
}

/// Each call that spline.rs has nothing beside, on each picture, on a table of 2^20 entries and on the widest segments in the tallest image, with its line's first words.
fn each_alone(mut measure: impl FnMut(&str, &mut Alone, &str)) {
    println!(
        "calls of the port alone, band on the middle one of the picture; 2^20 is a table of so many entries, 2^23 the tallest image, with so many rows and the segments of width 48"
    );
    for call in alone::CALLS {
        for (width, sigmas) in WIDTHS {
            let mut alone = Alone::of(sigmas);
            let words = format!("{call:<6} {width:>5} {:>8}", alone.entries(call));
            measure(&words, &mut alone, call);
        }
        for (name, mut alone) in [
            ("2^20", Alone::million()),
            ("2^23", Alone::tall(WIDTHS[2].1)),
        ] {
            let words = format!("{call:<6} {name:>5} {:>8}", alone.entries(call));
            measure(&words, &mut alone, call);
        }
    }
}

fn times() -> ExitCode {
    println!("{SIDE} by {SIDE} pixels, milliseconds of processor time, {RUNS} runs of each side by turns");
    pictures();
    println!("call   width  Rust least  median  port least  median  port / Rust, least  medians");
    each(|line, work| {
        let (mut rust, mut port) = (Vec::new(), Vec::new());
        for _ in 0..RUNS {
            work.clear();
            rust.push(clock::taken(|| work.by_rust()));
            work.clear();
            port.push(clock::taken(|| work.by_port()));
        }
        let [rust, port] = [rust, port].map(least_and_median);
        println!(
            "{line} {:>11.1} {:>7.1} {:>11.1} {:>7.1} {:>19.2} {:>8.2}",
            rust[0],
            rust[1],
            port[0],
            port[1],
            port[0] / rust[0],
            port[1] / rust[1],
        );
    });
    println!("call   width  entries  port least  median");
    each_alone(|line, alone, call| {
        let taken = (0..RUNS).map(|_| clock::taken(|| alone.call(call)));
        let [least, median] = least_and_median(taken.collect());
        println!("{line} {least:>11.3} {median:>7.3}");
    });
    ExitCode::SUCCESS
}

fn least_and_median(mut times: Vec<f64>) -> [f64; 2] {
    times.sort_by(f64::total_cmp);
    [times[0], times[times.len() / 2]]
}

fn counts(counter: &Counter) -> ExitCode {
    println!("{SIDE} by {SIDE} pixels, instructions, not times: counted by the emulator, one run of each side");
    pictures();
    println!("call   width           Rust           port  port / Rust");
    each(|line, work| {
        let [rust, port] = [Side::Rust, Side::Port].map(|side| {
            work.clear();
            counter.taken(|| {
                counted_run(work, side);
            })
        });
        println!(
            "{line} {rust:>14} {port:>14} {:>12.2}",
            port as f64 / rust as f64
        );
    });
    println!("call   width  entries           port");
    each_alone(|line, alone, call| {
        println!("{line} {:>14}", counter.taken(|| alone.call(call)));
    });
    ExitCode::SUCCESS
}
