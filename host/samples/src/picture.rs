//! The sample drawn on black by spline.rs, as the program `gauge` writes pictures.

use crate::judged::Size;
use cases::Table;
use oracle::Outcome;

/// Every row's channels X, Y and B, top row first.
pub fn rows(table: &Table, size: Size) -> Result<Vec<[Vec<f32>; 3]>, String> {
    let loaded = oracle::load(table);
    let mut rows = Vec::new();
    for y in 0..size.height {
        let mut row = [(); 3].map(|()| vec![0.0; size.width as usize]);
        let [r0, r1, r2] = &mut row;
        match loaded.draw(y, 0, [r0, r1, r2]) {
            Outcome::Done(()) => rows.push(row),
            other => return Err(format!("row {y} is not drawn: {other:?}")),
        }
    }
    Ok(rows)
}

/// A tone of the preview: 0 to 1 becomes 0 to 255, what lies outside is cut, NaN is black.
fn tone(v: f32) -> u8 {
    (v * 255.0).round().clamp(0.0, 255.0) as u8
}

/// A preview: red is Y + X, green Y - X, blue B.
pub fn ppm(table: &Table, size: Size) -> Result<Vec<u8>, String> {
    let mut bytes = format!("P6\n{} {}\n255\n", size.width, size.height).into_bytes();
    for [xs, ys, bs] in rows(table, size)? {
        for ((x, y), b) in xs.into_iter().zip(ys).zip(bs) {
            bytes.extend([tone(y + x), tone(y - x), tone(b)]);
        }
    }
    Ok(bytes)
}

/// The floats as they are, X, Y and B of a pixel together; a PFM's bottom row comes first.
pub fn pfm(table: &Table, size: Size) -> Result<Vec<u8>, String> {
    let mut bytes = format!("PF\n{} {}\n-1.0\n", size.width, size.height).into_bytes();
    for [xs, ys, bs] in rows(table, size)?.into_iter().rev() {
        for ((x, y), b) in xs.into_iter().zip(ys).zip(bs) {
            bytes.extend([x, y, b].into_iter().flat_map(f32::to_le_bytes));
        }
    }
    Ok(bytes)
}
