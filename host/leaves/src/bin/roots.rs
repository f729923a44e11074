//! The table of `root_by`, made again by its rule and held against the one in the port's source, and how many of the 2^24 mantissas and parities its fast path turns down.

use std::process::ExitCode;

/// The number of piece i: A * 2^36 + (B - 2^14) * 2^14 + C, for the parabola a + b u - c u² through sixteen times the root at the three
/// Chebyshev points of the piece; A, B, C are the whole numbers nearest to a - 0.64, b and c.
fn word(i: u64) -> u64 {
    // the pattern's low 24 digits where the piece begins
    let t = i << 17;
    let (first, step) = if t < 1 << 23 {
        (2 * t + (1 << 24), 2)
    } else {
        (t, 1)
    };
    let root = |u: f64| 16.0 * ((first as f64 + ((step << 17) as f64) * u) * 8388608.0).sqrt();
    let h = 3f64.sqrt() / 4.0;
    let u = [0.5 - h, 0.5, 0.5 + h];
    let y = u.map(root);
    let slope = (y[1] - y[0]) / (u[1] - u[0]);
    let bend = ((y[2] - y[1]) / (u[2] - u[1]) - slope) / (u[2] - u[0]);
    let b = slope - bend * (u[0] + u[1]);
    let a = y[0] - b * u[0] - bend * u[0] * u[0];
    let whole = |x: f64| (x + 0.5).floor() as u64;
    (whole(a - 0.64) << 36) + ((whole(b) - 16384) << 14) + whole(-bend)
}

/// The numbers of the port's table, read from its source.
fn stored() -> Option<Vec<u64>> {
    let path = concat!(
        env!("CARGO_MANIFEST_DIR"),
        "/../../crates/roots/src/by_table.rt"
    );
    let text = std::fs::read_to_string(path).ok()?;
    let from = text.find("pub const ROOTS")?;
    let list = &text[from + text[from..].find("= [")? + 3..];
    list[..list.find(']')?]
        .split(',')
        .map(str::trim)
        .filter(|word| !word.is_empty())
        .map(|word| word.parse().ok())
        .collect()
}

/// The guess at the root's 24 digits from the piece's number w, at the fraction f of the piece, as the port's kernel has it.
fn guess(w: u64, f: u64) -> u64 {
    let (c, b) = (w % 16384, (w / 16384) % 4194304 + 16384);
    let d = (c * f / 131072) % 16384;
    ((w / 68719476736 + (b - d) * f / 131072) / 16) % 33554432
}

/// Whether the kernel's exact test accepts the guess, or the number after it, for the pattern `bits`.
fn accepted(table: &[u64], bits: u64) -> bool {
    let t = bits % 16777216;
    let n = (if t < 8388608 { t + t + 16777216 } else { t }) * 8388608;
    let g = guess(table[(bits / 131072 % 128) as usize], bits % 131072);
    let r = if n > g * g + g { g + 1 } else { g };
    n <= r * r + r && r * r < n + r
}

fn main() -> ExitCode {
    quiet::end_with_the_reader();
    let rule: Vec<u64> = (0..128).map(word).collect();
    let Some(table) = stored() else {
        eprintln!("roots: the table of root_by is not in the port's source");
        return ExitCode::FAILURE;
    };
    // exponent fields 126 and 127 hold both parities of every mantissa
    let turned_down = (0..1u64 << 24)
        .filter(|t| !accepted(&table, (126 << 23) + t))
        .count();
    println!(
        "root_by: the table is the rule's: {}; turned down: {turned_down} of {}",
        rule == table,
        1 << 24
    );
    if rule == table && turned_down == 0 {
        ExitCode::SUCCESS
    } else {
        ExitCode::FAILURE
    }
}
