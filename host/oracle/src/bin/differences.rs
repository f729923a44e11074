//! Figures for docs/DIFFERENCES.md: where spline.rs on this host does something else than the scope asks, with smallest
//! inputs and counts. Seeds are fixed; every line is a finding. Exits 1 if a finding is not what the page says.

use cases::bits;
use cases::descriptions::one_spline;
use cases::random::Random;
use oracle::{Built, Description, Given, Outcome, Table, Why};
use std::process::ExitCode;

fn main() -> ExitCode {
    quiet::end_with_the_reader();
    let sections: [(&str, fn() -> bool); 6] = [
        ("Panics on positions", panics),
        ("Rows below the image", rows_below),
        ("The old table after an error", old_table),
        ("The area sum", area_sum),
        ("hypot", hypot),
        ("The float sum", float_sum),
    ];
    let mut as_said = true;
    for (title, section) in sections {
        println!("{title}");
        as_said &= section();
    }
    if as_said {
        println!("all as the page says");
        ExitCode::SUCCESS
    } else {
        println!("NOT as the page says");
        ExitCode::FAILURE
    }
}

/// Prints a finding and hands on whether it is the known one.
fn finding(text: String, known: bool) -> bool {
    println!("  {}{text}", if known { "" } else { "NEW: " });
    known
}

/// A start that is no i32 after rounding is an unwrapped None.
fn panics() -> bool {
    let outcome =
        |x: f32| oracle::build(&one_spline([x, 0.0], &[], 0), &Given::of(1, 1)).map(|_| ());
    let panicked = |x: f32| matches!(outcome(x), Outcome::Panicked(_));
    let mut known = true;
    for (x, expected) in [
        (2147483520.0, false),
        (2147483648.0, true),
        (-2147483648.0, false),
        (-2147483904.0, true),
        (f32::INFINITY, true),
        (f32::NAN, true),
    ] {
        let text = format!(
            "one spline, no double delta, start ({x:.0}, 0): {:?}",
            outcome(x)
        );
        known &= finding(text, panicked(x) == expected);
    }
    let (count, others) = random_panics(100_000);
    let text = format!("of 100000 random splines {count} panic; for another reason than a start that is no i32: {others}");
    known & finding(text, others == 0)
}

/// How many random splines panic, and on how many a start that is no i32 does not tell whether they do.
fn random_panics(splines: u32) -> (u32, u32) {
    let mut random = Random::new("panics", 1);
    let (mut count, mut others) = (0, 0);
    for _ in 0..splines {
        let start = [random.any_f32(), random.any_f32()];
        let deltas: Vec<i32> = (0..2 * random.below(4)).map(|_| random.any_i32()).collect();
        let coefficients: Vec<i32> = (0..128).map(|_| random.any_i32()).collect();
        let limit = oracle::spline_area_limit(random.once_in(2), random.below(1 << 46));
        let judged = oracle::dequantize(
            start,
            &deltas,
            &coefficients,
            random.any_i32(),
            random.any_f32(),
            random.any_f32(),
            limit,
        );
        let panicked = matches!(judged, Outcome::Panicked(_));
        count += u32::from(panicked);
        others += u32::from(panicked != start.iter().any(|x| !is_i32(x.round())));
    }
    (count, others)
}

fn is_i32(x: f32) -> bool {
    (-2147483648.0..2147483648.0).contains(&x)
}

/// The entries of an image one row high, and those that are stored for rows below it.
fn rows_below() -> bool {
    let built = oracle::build(&one_spline([0.0, 0.0], &[1, 0], 1), &Given::of(1, 1)).done();
    let (segments, entries, below) = built.map_or((0, 0, 0), |b| {
        (b.table.segments.len(), b.table.entries.len(), b.below)
    });
    let text = format!(
        "1x1 image, start (0, 0), double delta (1, 0), first sigma coefficient 1, all else 0: \
         {segments} segments, {entries} entries in the image, {below} below it"
    );
    finding(text, (segments, entries, below) == (3, 3, 2))
}

fn same_table(a: &Table, b: &Table) -> bool {
    let floats = |table: &Table| {
        table
            .segments
            .iter()
            .flatten()
            .map(|&x| bits(x))
            .collect::<Vec<u32>>()
    };
    floats(a) == floats(b) && a.row_starts == b.row_starts && a.entries == b.entries
}

/// What stands after a second, failing `initialize_draw_cache` on the same `Splines`.
fn old_table() -> bool {
    let first = one_spline([0.0, 0.0], &[1, 0], 1);
    let Outcome::Done(Built { table: old, .. }) = oracle::build(&first, &Given::of(1, 1)) else {
        return finding(String::from("the first build fails"), false);
    };
    let kept = |what: &str, second: Description, why: Why| {
        let Ok((outcome, stands)) = oracle::rebuild(&first, &second, &Given::of(1, 1)) else {
            return finding(format!("{what}: the first build fails"), false);
        };
        let kept = same_table(&stands.table, &old);
        let text = format!(
            "{what}: {outcome:?}, segments, entries and row starts stay as they were: {kept}"
        );
        finding(text, kept && outcome == Outcome::Refused(why))
    };
    let zero = [0.0; 2];
    let three = to_and_fro(8388607, 3);
    kept(
        "start (8388608, 0)",
        one_spline([8388608.0, 0.0], &[], 0),
        Why::SplinesPointOutOfRange,
    ) & kept(
        "three steps of (8388607, 8388607)",
        one_spline(zero, &three, 0),
        Why::SplinesDistanceTooLarge,
    ) & kept(
        "a step of (1, 0), sigma 5793",
        one_spline(zero, &[1, 0], 5793),
        Why::SplinesAreaTooLarge,
    ) & kept(
        "a step of (1, 0), a step of (0, 0)",
        one_spline(zero, &[1, 0, -1, 0], 0),
        Why::SplineAdjacentCoincidingControlPoints,
    ) & without_memory(&first, &old)
}

/// Double deltas for steps of (stride, stride) and back again.
fn to_and_fro(stride: i32, steps: usize) -> Vec<i32> {
    let double_delta = |step| match step {
        0 => stride,
        _ if step % 2 == 0 => 2 * stride,
        _ => -2 * stride,
    };
    (0..steps)
        .flat_map(|step| [double_delta(step); 2])
        .collect()
}

/// A table half made: the segments are the new ones, the rest is the old.
fn without_memory(first: &Description, old: &Table) -> bool {
    oracle::set_memory(1 << 16);
    let rebuilt = oracle::rebuild(
        first,
        &one_spline([0.0; 2], &[10, 0], 1000),
        &Given::of(1, 1),
    );
    oracle::set_memory(oracle::DEFAULT_MEMORY);
    let Ok((outcome, Built { table, .. })) = rebuilt else {
        return finding(String::from("without memory: the first build fails"), false);
    };
    let same_rows = table.entries == old.entries && table.row_starts == old.row_starts;
    let text = format!(
        "a step of (10, 0), sigma 1000, in 65536 bytes: {outcome:?}, {} segments become {}, entries and row starts stay: {same_rows}",
        old.segments.len(),
        table.segments.len()
    );
    finding(
        text,
        outcome == Outcome::NoMemory && same_rows && table.segments.len() > old.segments.len(),
    )
}

/// The greatest estimate that can be found, against the bound of the page: 2592 times the limit, below 2^54.
fn area_sum() -> bool {
    let mut random = Random::new("area", 1);
    let mut greatest: [(u64, u64); 2] = [(0, 1); 2];
    let mut wraps = 0;
    for _ in 0..200_000 {
        let level10 = random.once_in(2);
        let limit = oracle::spline_area_limit(level10, random.pick(&[0, 1, 1 << 20, 1 << 46]));
        let Some(estimate) = random_estimate(&mut random, limit) else {
            continue;
        };
        // The sum before it is at most the limit.
        wraps += u32::from(limit.checked_add(estimate).is_none());
        let most = &mut greatest[usize::from(level10)];
        if u128::from(estimate) * u128::from(most.1) > u128::from(most.0) * u128::from(limit) {
            *most = (estimate, limit);
        }
    }
    let mut known = true;
    for (level, (estimate, limit)) in ["Level5", "Level10"].iter().zip(greatest) {
        let times = estimate as f64 / limit as f64;
        let text = format!("{level}: the greatest estimate found is {estimate}, {times:.1} times the limit {limit}");
        known &= finding(text, times < 2592.1);
    }
    known & finding(format!("sums that wrap, of 200000: {wraps}"), wraps == 0)
}

/// The estimate of a spline with a long way or a short one, great colours and sigmas, if it is dequantized.
fn random_estimate(random: &mut Random, limit: u64) -> Option<u64> {
    let stride = random.pick(&[1, 1000, 8388607]);
    let deltas = to_and_fro(stride, random.pick(&[1, 2, 60, 255]));
    let great = random.pick(&[0, 1, 1 << 10, i32::MIN]);
    let sigma = random.pick(&[0, 1 << 4, 1 << 10, i32::MIN]);
    let mut coefficients = vec![great; 96];
    coefficients.extend([sigma; 32]);
    let correlation = random.pick(&[0.0, 1.0, 1e9, f32::INFINITY]);
    let adjustment = random.any_i32();
    let judged = oracle::dequantize(
        [0.0; 2],
        &deltas,
        &coefficients,
        adjustment,
        correlation,
        1.0,
        limit,
    );
    judged.done().map(|spline| spline.estimate)
}

/// The host's `hypot` against the f32 nearest to the root of x²+y².
fn hypot() -> bool {
    let small = (0..=4096).flat_map(|x| (0..=4096).map(move |y| (x, y)));
    let mut random = Random::new("hypot", 1);
    let even = (0..5_000_000).map(move |_| (random.within(0, 1 << 24), random.within(0, 1 << 24)));
    let mut random = Random::new("sizes", 1);
    let mut whole = move || {
        let bits = random.within(1, 24);
        random.within(0, 1 << bits)
    };
    let sizes = (0..5_000_000).map(move |_| (whole(), -whole()));
    count_hypot("pairs from 0 through 4096, all of them", small)
        & count_hypot("pairs from 0 through 2^24, evenly", even)
        & count_hypot("pairs of every size up to 2^24, the second negative", sizes)
        & count_hypot(
            "pairs whose length is halfway between two f32",
            halves().take(1_000_000),
        )
}

fn count_hypot(what: &str, pairs: impl Iterator<Item = (i64, i64)>) -> bool {
    let (mut count, mut differ) = (0, 0);
    for (x, y) in pairs {
        count += 1;
        differ += u32::from(hypot_differs(x, y));
    }
    finding(format!("{count} {what}: {differ} differ"), differ == 0)
}

fn hypot_differs(x: i64, y: i64) -> bool {
    let squares = (x * x + y * y) as u64;
    oracle::length(x as f32, y as f32) != nearest_root(squares)
}

/// Pairs whose length is the very middle of two f32: whole right triangles with an odd long side above 2^24.
fn halves() -> impl Iterator<Item = (i64, i64)> {
    let mut random = Random::new("halves", 1);
    std::iter::repeat_with(move || (random.within(1, 4870), random.within(1, 4870)))
        .map(|(a, b)| (a * a - b * b, 2 * a * b, a * a + b * b))
        .filter(|&(x, y, long)| {
            x.abs() <= 1 << 24 && y <= 1 << 24 && long > 1 << 24 && long % 2 == 1
        })
        .map(|(x, y, _)| (x, y))
}

/// The f32 nearest to the root of a whole number below 2^50, ties to even, by whole numbers only.
fn nearest_root(square: u64) -> f32 {
    let whole = root(square);
    if whole == 0 {
        return 0.0;
    }
    // The root has its leading bit at 2^e; 24 bits of it are kept, the last worth 2^(e-23).
    let e = 63 - whole.leading_zeros();
    if e <= 23 {
        let scaled = square << (2 * (23 - e));
        let below = root(scaled);
        // The middle squared is below² + below + 1/4, which no whole number is.
        let up = u64::from(scaled - below * below > below);
        (below + up) as f32 / (1u32 << (23 - e)) as f32
    } else {
        let below = whole / 2;
        let middle = (2 * below + 1) * (2 * below + 1);
        let up = u64::from(square > middle || (square == middle && below % 2 == 1));
        (2 * (below + up)) as f32
    }
}

/// The whole root, rounded down; the f64 root is a first guess only.
fn root(square: u64) -> u64 {
    let mut r = (square as f64).sqrt() as u64;
    while r * r > square {
        r -= 1;
    }
    while (r + 1) * (r + 1) <= square {
        r += 1;
    }
    r
}

/// A sum of minus zeros, and what it could change.
fn float_sum() -> bool {
    let sum = oracle::transform(&[-0.0; 32], -0.5);
    let text = format!("32 coefficients of -0.0 at t = -0.5, where every product is -0.0: {sum:?}; from plus zero it would be 0.0");
    let mut known = finding(text, bits(sum) == bits(-0.0));
    let drawn = |colour: f32| {
        let segment = [0.0, 0.0, 1.0, 1.0, 1.0, colour, colour, colour];
        let table = Table {
            segments: vec![segment],
            row_starts: vec![0, 1],
            entries: vec![0],
            ..Table::default()
        };
        let channel = || vec![-0.0f32];
        oracle::draw(&table, 0, 0, [channel(), channel(), channel()])
            .done()
            .map_or(f32::NAN, |c| c[0][0])
    };
    let (minus, plus) = (drawn(-0.0), drawn(0.0));
    let text = format!(
        "as a colour over a pixel of -0.0 it leaves {minus:?}, plus zero would leave {plus:?}"
    );
    known &= finding(text, bits(minus) == bits(-0.0) && bits(plus) == bits(0.0));
    known & finding_on_dequantized_rows()
}

/// No dequantized row has a first product of minus zero: there the start of the sum changes nothing.
fn finding_on_dequantized_rows() -> bool {
    let mut random = Random::new("sum", 1);
    let (mut sums, mut differ, mut minus_first) = (0, 0, 0);
    for _ in 0..100_000 {
        let coefficients: Vec<i32> = (0..128).map(|_| random.pick(&[0, 0, 0, 1, -1])).collect();
        let (adjustment, y_to_x, y_to_b) = (random.any_i32(), random.any_f32(), random.any_f32());
        let judged = oracle::dequantize(
            [0.0; 2],
            &[],
            &coefficients,
            adjustment,
            y_to_x,
            y_to_b,
            1 << 30,
        );
        let t = random.between(0.0, 31.0);
        for row in judged.done().map_or(vec![], |spline| spline.rows.to_vec()) {
            let products = row.iter().zip(oracle::cosines(t)).map(|(c, cos)| c * cos);
            let from_plus_zero = products.fold(0.0, |sum, p| sum + p) * std::f32::consts::SQRT_2;
            sums += 1;
            differ += u32::from(bits(from_plus_zero) != bits(oracle::transform(&row, t)));
            minus_first += u32::from(bits(row[0]) == bits(-0.0));
        }
    }
    let text = format!("{sums} sums of dequantized rows: {minus_first} rows begin with -0.0, {differ} sums differ from one that starts at plus zero");
    finding(text, differ == 0 && minus_first == 0)
}
