//! Pictures as `djxl` writes them.

use crate::rules::Picture;

/// The floats of a colour PFM, top row first.
pub fn read(bytes: &[u8], width: u32, height: u32) -> Result<Picture, String> {
    let mut parts = bytes.splitn(4, |&byte| byte == b'\n');
    let mut line = || String::from_utf8_lossy(parts.next().unwrap_or_default()).into_owned();
    let (kind, size, scale) = (line(), line(), line());
    if kind != "PF" || size != format!("{width} {height}") {
        return Err(format!("it is {kind} {size}, not PF {width} {height}"));
    }
    let float = match scale.parse::<f32>() {
        Ok(scale) if scale < 0.0 => f32::from_le_bytes,
        Ok(_) => f32::from_be_bytes,
        Err(why) => return Err(format!("its scale is {scale}: {why}")),
    };
    let floats = parts.next().unwrap_or_default();
    let row = 12 * width as usize;
    if floats.len() != row * height as usize {
        return Err(format!("it has {} bytes of floats", floats.len()));
    }
    let channel = |pixel: &[u8], c: usize| {
        let bytes = &pixel[4 * c..4 * c + 4];
        float([bytes[0], bytes[1], bytes[2], bytes[3]])
    };
    let pixels = floats.chunks(row).rev().flat_map(|row| row.chunks(12));
    Ok(pixels
        .map(|pixel| [0, 1, 2].map(|c| channel(pixel, c)))
        .collect())
}
