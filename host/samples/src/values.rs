//! A list of values as text: decimal numbers with white space between them.

/// Laid out for reading: count, starts, adjustment, then of each spline its double deltas and four lines of 32.
pub fn text(list: &[u32], splines: usize) -> String {
    let mut lines = Vec::new();
    let mut rest = list;
    let mut line = |n: usize| {
        let (now, later) = rest.split_at(n);
        rest = later;
        let words: Vec<String> = now.iter().map(u32::to_string).collect();
        lines.push(words.join(" "));
        now.last().copied().unwrap_or(0)
    };
    line(1);
    line(2 * splines);
    line(1);
    for _ in 0..splines {
        let points = line(1);
        line(2 * points as usize);
        for _ in 0..4 {
            line(32);
        }
    }
    lines.join("\n") + "\n"
}
