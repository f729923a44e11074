//! The judge judged: the scope's readings that concern spline.rs, one line each; exits 1 if one does not hold.

use cases::descriptions::one_spline;
use oracle::{Description, Given, Outcome, Rows, Segment, Table, Why};
use std::fmt::Debug;
use std::hint::black_box;
use std::process::ExitCode;

/// Counts what holds and what does not.
#[derive(Default)]
struct Readings {
    held: u32,
    failed: u32,
}

impl Readings {
    /// One reading: the original's answer beside the expected one.
    fn check<T: PartialEq + Debug>(&mut self, what: &str, got: T, expected: T) {
        if got == expected {
            self.held += 1;
            println!("holds: {what}");
        } else {
            self.failed += 1;
            println!("FAILS: {what}: {got:?}, expected {expected:?}");
        }
    }

    fn verdict(self) -> ExitCode {
        let Readings { held, failed } = self;
        if failed == 0 {
            println!("{held} readings hold");
            ExitCode::SUCCESS
        } else {
            println!("{failed} of {} readings fail", held + failed);
            ExitCode::FAILURE
        }
    }
}

fn main() -> ExitCode {
    quiet::end_with_the_reader();
    let mut readings = Readings::default();
    for group in [
        machine,
        numbers,
        limits,
        list,
        refused_lists,
        positions,
        too_much,
        coinciding,
        starts,
        walks,
        curves,
        rows,
        no_segments,
        columns,
        tables,
        without_memory,
    ] {
        group(&mut readings);
    }
    readings.verdict()
}

/// What the scope's "The oracle" asks of the build.
fn machine(readings: &mut Readings) {
    readings.check("release build", cfg!(debug_assertions), false);
    let wrapped = std::panic::catch_unwind(|| black_box(i32::MAX) + black_box(1)).ok();
    readings.check("no overflow checks", wrapped, Some(i32::MIN));
    // Fused, 2^-24 would be left over.
    let a = black_box(1.0f32 + f32::powi(2.0, -12));
    let c = black_box(-(1.0f32 + f32::powi(2.0, -11)));
    readings.check("a product is rounded before a sum", a * a + c, 0.0);
    let stepwise = (0..10_000)
        .map(|i| i as f32 * 1e-3)
        .all(|x| oracle::fast_erff(x) == erff_in_steps(x));
    readings.check("fast_erff is made in separate steps", stepwise, true);
    // At -0.5 every cosine is that of 0.
    let sum = oracle::transform(&[-0.0; 32], -0.5);
    let minus_zero = sum == 0.0 && sum.is_sign_negative();
    readings.check("a float sum starts from minus zero", minus_zero, true);
}

/// `fast_erff_simd` of a number that is not negative, each product out of the compiler's sight before it is added to.
fn erff_in_steps(x: f32) -> f32 {
    let mul_add = |a: f32, b: f32, c: f32| black_box(a * b) + c;
    let denom1 = mul_add(x, 7.773_943_7e-2, 2.052_600_2e-4);
    let denom2 = mul_add(denom1, x, 2.321_202_2e-1);
    let denom3 = mul_add(denom2, x, 2.778_208e-1);
    let denom4 = mul_add(denom3, x, 1.0);
    let inverse = 1.0 / black_box(denom4 * denom4);
    1.0 - black_box(inverse * inverse)
}

fn numbers(readings: &mut Readings) {
    for (whole, expected) in [(16777217, 16777216.0), (16777219, 16777220.0)] {
        let what = format!("{whole} to f32 is {expected:.0}");
        readings.check(&what, black_box(whole) as f32, expected);
    }
    for (packed, expected) in [(3, -2), (4294967295, -2147483648)] {
        let what = format!("unpack {packed} is {expected}");
        readings.check(&what, oracle::unpack_signed(packed), expected);
    }
    for (adjustment, expected) in [(8, 0.5), (-8, 2.0)] {
        let what = format!("adjustment {adjustment} gives {expected}");
        readings.check(&what, oracle::inv_adjusted_quant(adjustment), expected);
    }
    let length = oracle::length(3.0, 4.0);
    readings.check("difference (3,4) has length 5", length, 5.0);
    let near = |x: f32| (oracle::fast_cos(x) - x.cos()).abs() < 1e-4;
    let all_near = (0..10_000).all(|i| near(i as f32 * 0.01));
    readings.check("fast_cos stays near the cosine", all_near, true);
    let signs = [oracle::fast_erff(0.75), -oracle::fast_erff(-0.75)];
    readings.check("fast_erff is odd", signs[0], signs[1]);
}

fn limits(readings: &mut Readings) {
    for (level10, area, expected) in [
        (false, 0, 33554432),
        (false, 130023423, 1073741816),
        (false, 130023424, 1073741824),
        (true, 0, 1 << 32),
        (true, 4290772991, 4398046510080),
        (true, 4290772992, 1 << 42),
    ] {
        let what = format!(
            "Level{} area {area}: {expected}",
            if level10 { 10 } else { 5 }
        );
        readings.check(&what, oracle::spline_area_limit(level10, area), expected);
    }
    for (x, expected) in [(1, 0), (4, 2), (5, 3), (u64::MAX, 64)] {
        let what = format!("ceil_log2 of {x} is {expected}");
        readings.check(&what, oracle::ceil_log2(x), expected);
    }
}

/// A list of two splines: starts (1,2) and (0,4), adjustment -1, a double delta (-4,4) of the first, 128 numbers each.
fn two_splines() -> Vec<u32> {
    let mut list = vec![1, 1, 2, 1, 4, 1];
    list.extend([1, 7, 8]);
    list.extend(0..128);
    list.push(0);
    list.extend(0..128);
    list
}

fn list(readings: &mut Readings) {
    let list = two_splines();
    let all = list.len();
    let read = oracle::read(&list, 1 << 20, 100);
    readings.check(
        "a list is read whole",
        (read.consumed, read.ran_short),
        (all, false),
    );
    let Description {
        counts,
        starts,
        deltas,
        coefficients,
        adjustment,
    } = read.outcome.done().unwrap_or_default();
    readings.check("its counts", counts, vec![1, 0]);
    readings.check("its starts", starts, vec![1.0, 2.0, 0.0, 4.0]);
    readings.check("its double deltas", deltas, vec![-4, 4]);
    readings.check("its adjustment", adjustment, -1);
    readings.check(
        "its coefficients",
        coefficients[..4].to_vec(),
        vec![0, -1, 1, -2],
    );
    let cut = oracle::read(&list[..all - 1], 1 << 20, 100);
    readings.check(
        "a list cut short",
        (cut.consumed, cut.ran_short),
        (all - 1, true),
    );
}

fn refused_lists(readings: &mut Readings) {
    // What is refused, the list that ends where it is refused, the pixels.
    let cases: [(&str, &[u32], u32, Why); 4] = [
        (
            "2 splines in 3 pixels: SPLINES",
            &[1],
            3,
            Why::SplinesTooMany,
        ),
        (
            "start 8388608: COORD",
            &[0, 1 << 23, 0],
            9,
            Why::SplinesCoordinatesLimit,
        ),
        (
            "2 points in 2 pixels: POINTS",
            &[0, 0, 0, 0, 2],
            2,
            Why::SplinesTooManyControlPoints,
        ),
        (
            "a double delta of 2^30: DELTA",
            &[0, 0, 0, 0, 1, 0, 1 << 31],
            9,
            Why::SplinesDeltaLimit,
        ),
    ];
    for (what, list, pixels, why) in cases {
        let longer = [list, &[0; 9]].concat();
        let read = oracle::read(&longer, 1 << 20, pixels);
        let got = (read.outcome.map(|_| ()), read.consumed);
        readings.check(what, got, (Outcome::Refused(why), list.len()));
    }
}

fn build(start: [f32; 2], deltas: &[i32], sigma: i32) -> Outcome<()> {
    oracle::build(&one_spline(start, deltas, sigma), &Given::of(64, 64)).map(|_| ())
}

fn positions(readings: &mut Readings) {
    let cases: [(&str, f32, &[i32], bool); 5] = [
        (
            "start 8388607 then delta 1: POSITION",
            8388607.0,
            &[1, 0],
            false,
        ),
        ("start 8388607 alone is taken", 8388607.0, &[], true),
        ("start 8388608: POSITION", 8388608.0, &[], false),
        ("start -8388608 is taken", -8388608.0, &[], true),
        ("start -8388609: POSITION", -8388609.0, &[], false),
    ];
    for (what, start, deltas, taken) in cases {
        let refused = Outcome::Refused(Why::SplinesPointOutOfRange);
        let expected = if taken { Outcome::Done(()) } else { refused };
        readings.check(what, build([start, 0.0], deltas, 1), expected);
    }
    let panicked = matches!(build([f32::NAN, 0.0], &[], 1), Outcome::Panicked(_));
    readings.check("a NaN start: the Rust panics", panicked, true);
}

fn too_much(readings: &mut Readings) {
    let three_steps = [8388607, 8388607, -16777214, -16777214, 16777214, 16777214];
    let walked = build([0.0, 0.0], &three_steps, 0);
    let refused = Outcome::Refused(Why::SplinesDistanceTooLarge);
    readings.check(
        "50331642 to and fro, limit 33587200: DISTANCE",
        walked,
        refused,
    );
    let broad = build([0.0, 0.0], &[1000, 1000], 1 << 20);
    let refused = Outcome::Refused(Why::SplinesAreaTooLarge);
    readings.check("a broad spline: AREA", broad, refused);
}

fn coinciding(readings: &mut Readings) {
    let stand = build([0.0, 0.0], &[1, 0, -1, 0], 1);
    let refused = Outcome::Refused(Why::SplineAdjacentCoincidingControlPoints);
    readings.check("double deltas (1,0),(-1,0): COINCIDE", stand, refused);
    // The same after a sound spline.
    let mut second = one_spline([5.0, 5.0], &[1, 0], 1);
    second.counts.push(2);
    second.starts.extend([0.0, 0.0]);
    second.deltas.extend([1, 0, -1, 0]);
    second.coefficients.extend([0; 128]);
    let number = oracle::refused_spline(&second, &Given::of(64, 64));
    readings.check("the refused spline is found again", number, Some(1));
}

fn starts(readings: &mut Readings) {
    let points = |start: [f32; 2], deltas: &[i32]| {
        let judged = oracle::dequantize(start, deltas, &[0; 128], 0, 0.0, 0.0, 1 << 30);
        judged.map(|spline| spline.points)
    };
    let rounded = points([2.5, -0.5], &[]);
    readings.check(
        "R(2.5) is 3, R(-0.5) is -1",
        rounded,
        Outcome::Done(vec![[3.0, -1.0]]),
    );
    let stepped = points([0.0, 0.0], &[8388607, 0]);
    let expected = vec![[0.0, 0.0], [8388607.0, 0.0]];
    readings.check("a step of 8388607", stepped, Outcome::Done(expected));
}

fn walks(readings: &mut Readings) {
    let cases: [(&str, &[[f32; 2]], &[f32], f32); 3] = [
        (
            "(0,0),(2.5,0)",
            &[[0.0, 0.0], [2.5, 0.0]],
            &[1.0, 1.0, 1.0, 0.5],
            2.5,
        ),
        (
            "(0,0),(1,0)",
            &[[0.0, 0.0], [1.0, 0.0]],
            &[1.0, 1.0, 0.0],
            1.0,
        ),
        ("one point", &[[4.0, 4.0]], &[1.0, 0.0], 0.0),
    ];
    for (what, path, expected, length) in cases {
        let walk = oracle::walk(path, 1 << 10).done().unwrap_or_default();
        let multipliers: Vec<f32> = walk.iter().map(|point| point[2]).collect();
        readings.check(
            &format!("multipliers of {what}"),
            &multipliers[..],
            expected,
        );
        readings.check(
            &format!("length of {what}"),
            oracle::length_of_walk(&walk),
            length,
        );
    }
    let long = oracle::walk(&[[0.0, 0.0], [1e6, 0.0]], 1 << 10);
    readings.check("a walk past its cap has no memory", long, Outcome::NoMemory);
}

fn curves(readings: &mut Readings) {
    let curve = |points: &[[f32; 2]]| oracle::curve(points).done().unwrap_or_default();
    readings.check(
        "a curve of one point",
        curve(&[[1.0, 2.0]]),
        vec![[1.0, 2.0]],
    );
    let points = [[0.0, 0.0], [5.0, 5.0], [9.0, 2.0]];
    let path = curve(&points);
    readings.check("a curve of three points has 33", path.len(), 33);
    let met: Vec<[f32; 2]> = path.into_iter().step_by(16).collect();
    readings.check("it meets its control points", &met[..], &points[..]);
}

/// The rows of a segment at `cy` with sigma 1 and logarithms that make the distance 2.5: the root of -2 · (0 · 3 - 3.125).
fn rows_at_two_and_a_half(cy: f32) -> (f32, Rows) {
    oracle::set_ln(|x| if x == 0.1 { 0.0 } else { 3.125 });
    let made = oracle::segment([0.0, cy], 1.0, [0.0; 3], 1.0, false, 1 << 10);
    oracle::set_ln(f32::ln);
    distance_and_rows(made)
}

fn distance_and_rows(made: Outcome<Option<(Segment, Rows)>>) -> (f32, Rows) {
    let made = made.done().flatten();
    made.map_or((0.0, Rows::TooMany), |(segment, rows)| (segment[2], rows))
}

fn rows(readings: &mut Readings) {
    for (cy, first, past) in [(5.0, 3, 9), (-5.0, 0, 0), (-2.5, 0, 1)] {
        let what = format!("cy {cy}, d 2.5: rows from {first} up to {past}");
        readings.check(
            &what,
            rows_at_two_and_a_half(cy),
            (2.5, Rows::Run { first, past }),
        );
    }
    let made = oracle::segment([0.0, 5.0], 0.0, [0.0; 3], 1.0, false, 1 << 10);
    let (distance, found) = distance_and_rows(made);
    let expected = (true, Rows::Run { first: 0, past: 1 });
    readings.check(
        "a NaN distance: row 0",
        (distance.is_nan(), found),
        expected,
    );
}

fn no_segments(readings: &mut Readings) {
    for (what, multiplier, sigma) in [
        ("sigma 0: no segment", 1.0, 0.0),
        ("sigma infinite: no segment", 1.0, f32::INFINITY),
        ("1/sigma infinite: no segment", 1.0, 1e-39),
        ("multiplier infinite: no segment", f32::INFINITY, 1.0),
    ] {
        let made = oracle::segment([0.0, 5.0], multiplier, [0.0; 3], sigma, false, 1 << 10);
        readings.check(what, made, Outcome::Done(None));
    }
}

/// The columns of a lone segment that drawing changes, of eight.
fn columns_of(cx: f32, d: f32) -> Vec<usize> {
    let segments: Vec<Segment> = vec![[cx, 0.0, d, 1.0, 1.0, 1.0, 1.0, 1.0]];
    let table = Table {
        segments,
        row_starts: vec![0, 1],
        entries: vec![0],
        ..Table::default()
    };
    let channel = || vec![f32::MIN_POSITIVE; 8];
    let drawn = oracle::draw(&table, 0, 0, [channel(), channel(), channel()]);
    let drawn = drawn.done().unwrap_or_default();
    (0..8)
        .filter(|&x| drawn[0].get(x) != Some(&f32::MIN_POSITIVE))
        .collect()
}

fn columns(readings: &mut Readings) {
    for (what, cx, d, expected) in [
        (
            "cx 5, d 2.5: columns 3 to 7 of 8",
            5.0,
            2.5,
            vec![3, 4, 5, 6, 7],
        ),
        ("cx 2, d 1.5: columns 1 to 4", 2.0, 1.5, vec![1, 2, 3, 4]),
        ("cx -5, d 2: column 0", -5.0, 2.0, vec![0]),
        ("a NaN distance: column 0", 5.0, f32::NAN, vec![0]),
        (
            "an infinite distance: no column",
            5.0,
            f32::INFINITY,
            vec![],
        ),
    ] {
        readings.check(what, columns_of(cx, d), expected);
    }
}

fn tables(readings: &mut Readings) {
    let built = oracle::build(&one_spline([3.0, 3.0], &[1, 0], 10), &Given::of(64, 64));
    let table = built.done().map(|built| built.table).unwrap_or_default();
    readings.check(
        "a spline of length 1 has 3 segments",
        table.segments.len(),
        3,
    );
    let starts = table.row_starts.len();
    readings.check("a table of 64 rows has 65 starts", starts, 65);
    let row =
        |y: usize| &table.entries[table.row_starts[y] as usize..table.row_starts[y + 1] as usize];
    readings.check("row 0 has the NaN distance too", row(0), &[0, 1, 2][..]);
    readings.check("row 3 has the others, ascending", row(3), &[0, 1][..]);
}

fn without_memory(readings: &mut Readings) {
    let made = oracle::segment([0.0; 2], 1.0, [1.0; 3], f32::powi(2.0, 38), false, 1 << 10);
    let (distance, found) = distance_and_rows(made);
    let far = distance > f32::powi(2.0, 39);
    readings.check(
        "2^39 rows and more: the floats only",
        (far, found),
        (true, Rows::TooMany),
    );
    // Some thousand segments of some fifty thousand rows each.
    let broad = one_spline([0.0, 0.0], &[1000, 0], 60_000);
    let given = Given {
        level10: true,
        ..Given::of(1 << 23, 1 << 23)
    };
    let built = oracle::build(&broad, &given).map(|_| ());
    readings.check(
        "a build of some 5 · 10^7 entries: no memory",
        built,
        Outcome::NoMemory,
    );
}
