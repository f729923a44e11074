//! The sample as a line drawing, made of what spline.rs makes of each spline; and whether a picture of such a drawing lies over the drawn sample.

use crate::judged::{Judged, Size};
use cases::Description;
use oracle::Outcome;

/// A trace as a line: its control points, and how thick it is, in hundredths of a pixel.
struct Line {
    points: Vec<(i64, i64)>,
    hundredths: u64,
}

/// Start and double deltas of each spline.
fn starts(description: &Description) -> Vec<([f32; 2], &[i32])> {
    let mut rest = &description.deltas[..];
    let mut splines = Vec::new();
    for (start, &points) in description.starts.chunks(2).zip(&description.counts) {
        let (own, others) = rest.split_at(2 * points as usize);
        rest = others;
        splines.push(([start[0], start[1]], own));
    }
    splines
}

/// Twice the mean that spline.rs gives sigma at the 32 places of its transform, in hundredths of a pixel.
fn thickness(sigma: &[f32; 32]) -> u64 {
    let at = |t: u8| f64::from(oracle::transform(sigma, f32::from(t)));
    let mean = (0..32).map(at).sum::<f64>() / 32.0;
    (200.0 * mean.abs()).round() as u64
}

fn line(judged: &Judged, k: usize, start: [f32; 2], deltas: &[i32]) -> Result<Line, String> {
    let description = &judged.description;
    let own = &description.coefficients[128 * k..][..128];
    let adjustment = description.adjustment;
    let Outcome::Done(spline) =
        oracle::dequantize(start, deltas, own, adjustment, 0.0, 1.0, u64::MAX)
    else {
        return Err(format!("spline.rs does not dequantize spline {k}"));
    };
    Ok(Line {
        points: spline
            .points
            .iter()
            .map(|p| (p[0] as i64, p[1] as i64))
            .collect(),
        hundredths: thickness(&spline.rows[3]),
    })
}

fn lines(judged: &Judged) -> Result<Vec<Line>, String> {
    let splines = starts(&judged.description).into_iter().enumerate();
    splines
        .map(|(k, (start, deltas))| line(judged, k, start, deltas))
        .collect()
}

/// The points of a line, which the second reading writes too.
fn points(judged: &Judged, k: usize, line: &Line) -> Result<String, String> {
    let pairs: Vec<String> = line
        .points
        .iter()
        .map(|(x, y)| format!("{x},{y}"))
        .collect();
    let text = pairs.join(" ");
    let second = model::polyline::points_write(&judged.description, k as u64, u64::MAX);
    if second.as_deref() != Ok(text.as_bytes()) {
        return Err(format!(
            "the second reading writes other points of trace {k}"
        ));
    }
    Ok(text)
}

/// `gauge svg out`: the drawing, byte for byte.
pub fn out(judged: &Judged, size: Size) -> Result<String, String> {
    let Size { width, height, .. } = size;
    let mut text = String::from("<?xml version=\"1.0\" encoding=\"UTF-8\"?>\n");
    text += &format!("<svg xmlns=\"http://www.w3.org/2000/svg\" width=\"{width}\" height=\"{height}\" viewBox=\"-0.5 -0.5 {width} {height}\">\n");
    for (k, line) in lines(judged)?.iter().enumerate() {
        let (pixels, parts) = (line.hundredths / 100, line.hundredths % 100);
        let points = points(judged, k, line)?;
        text += &format!("<polyline id=\"trace-{k}\" fill=\"none\" stroke=\"black\" stroke-linejoin=\"round\" stroke-width=\"{pixels}.{parts:02}\" points=\"{points}\"/>\n");
    }
    Ok(text + "</svg>\n")
}

/// `gauge svg in`: the start and the double deltas of each trace, as they were.
pub fn taken(judged: &Judged) -> String {
    let mut text = String::new();
    for (k, (start, deltas)) in starts(&judged.description).into_iter().enumerate() {
        let [x, y] = start;
        let count = deltas.len() / 2;
        text +=
            &format!("trace {k} starts at {x}, {y} and has {count} double deltas\ndouble deltas:");
        for delta in deltas {
            text += &format!(" {delta}");
        }
        text += "\n";
    }
    text
}

/// Where a picture has ink, row by row, and how much.
struct Picture {
    width: usize,
    height: usize,
    ink: Vec<f32>,
}

impl Picture {
    /// Whether there is ink in the pixel of a point, or in one beside it.
    fn has_near(&self, (x, y): (i64, i64)) -> bool {
        let beside = [(0, 0), (1, 0), (-1, 0), (0, 1), (0, -1)];
        beside.iter().any(|(dx, dy)| self.has((x + dx, y + dy)))
    }

    fn has(&self, point: (i64, i64)) -> bool {
        self.inside(point) && self.ink[point.1 as usize * self.width + point.0 as usize] > 0.0
    }

    fn inside(&self, (x, y): (i64, i64)) -> bool {
        (0..self.width as i64).contains(&x) && (0..self.height as i64).contains(&y)
    }
}

/// The next word of a picture's head, and what comes behind the one byte that ends it. A comment goes to the end of its line.
fn word(bytes: &[u8]) -> Option<(&str, &[u8])> {
    let first = bytes.iter().position(|byte| !byte.is_ascii_whitespace())?;
    let bytes = &bytes[first..];
    if bytes[0] == b'#' {
        return word(&bytes[bytes.iter().position(|&byte| byte == b'\n')?..]);
    }
    let past = bytes.iter().position(u8::is_ascii_whitespace)?;
    Some((
        std::str::from_utf8(&bytes[..past]).ok()?,
        &bytes[past + 1..],
    ))
}

/// A picture that is a preview or floats as `gauge draw` writes them, or lines on white, in tones or colours.
fn picture(bytes: &[u8]) -> Option<Picture> {
    let (kind, rest) = word(bytes)?;
    let (width, rest) = word(rest)?;
    let (height, rest) = word(rest)?;
    let (_, cells) = word(rest)?;
    let (width, height): (usize, usize) = (width.parse().ok()?, height.parse().ok()?);
    let ink: Vec<f32> = match kind {
        // The floats: the bottom row comes first, and Y is the second of three.
        "PF" => {
            let rows = cells.chunks(12 * width).rev().flatten().copied();
            let bytes: Vec<u8> = rows.collect();
            let luma = |cell: &[u8]| f32::from_le_bytes([cell[4], cell[5], cell[6], cell[7]]);
            bytes.chunks(12).map(luma).collect()
        }
        // Dark is ink.
        "P5" => cells
            .iter()
            .map(|&tone| if tone < 128 { 1.0 } else { 0.0 })
            .collect(),
        "P6" => {
            let dark = |cell: &[u8]| if cell[1] < 128 { 1.0 } else { 0.0 };
            cells.chunks(3).map(dark).collect()
        }
        _ => return None,
    };
    (ink.len() == width * height).then_some(Picture { width, height, ink })
}

fn load(path: &str) -> Result<Picture, String> {
    let bytes = std::fs::read(path).map_err(|why| format!("{path}: {why}"))?;
    picture(&bytes).ok_or(format!("{path}: neither .pfm nor .pgm nor .ppm"))
}

/// The vertices of each trace in the picture: each is within a pixel of the middle of its own strand, of what is drawn, and of the ink of the lines.
fn judge_vertices(judged: &Judged, drawn: &Picture, inked: &Picture) -> Result<usize, String> {
    let mut vertices = 0;
    for (k, line) in lines(judged)?.iter().enumerate() {
        let own = judged.table.segments.iter().zip(&judged.table.owners);
        let centres: Vec<[f32; 2]> = own
            .filter(|&(_, &owner)| owner == k as u64)
            .map(|(segment, _)| [segment[0], segment[1]])
            .collect();
        for &(x, y) in line.points.iter().filter(|&&point| drawn.inside(point)) {
            let near =
                |centre: &[f32; 2]| (centre[0] - x as f32).hypot(centre[1] - y as f32) <= 1.0;
            if !centres.iter().any(near) {
                return Err(format!(
                    "vertex {x},{y} of trace {k} is not within a pixel of its strand"
                ));
            }
            if !drawn.has_near((x, y)) {
                return Err(format!(
                    "nothing is drawn within a pixel of vertex {x},{y} of trace {k}"
                ));
            }
            if !inked.has_near((x, y)) {
                return Err(format!(
                    "no line is within a pixel of vertex {x},{y} of trace {k}"
                ));
            }
            vertices += 1;
        }
    }
    Ok(vertices)
}

/// Whether the lines of one picture lie over the strands of another: every vertex, and every pixel of ink has something drawn within a pixel.
pub fn over(judged: &Judged, drawn: &str, lines: &str) -> Result<String, String> {
    let (drawn, inked) = (load(drawn)?, load(lines)?);
    if (drawn.width, drawn.height) != (inked.width, inked.height) {
        return Err(format!("{lines}: a picture of another size"));
    }
    let vertices = judge_vertices(judged, &drawn, &inked)?;
    let (mut pixels, mut bare) = (0, 0);
    for y in 0..inked.height as i64 {
        for x in 0..inked.width as i64 {
            if inked.has((x, y)) {
                pixels += 1;
                bare += u32::from(!drawn.has_near((x, y)));
            }
        }
    }
    if bare > 0 {
        return Err(format!(
            "{lines}: of {pixels} pixels of its lines {bare} have nothing drawn within a pixel"
        ));
    }
    Ok(format!(
        "{vertices} vertices and {pixels} pixels of lines lie over the drawn strands\n"
    ))
}

/// Both in one picture: what is drawn in red, brighter than it is so that its edges show, and the lines in blue on it.
pub fn both(drawn: &str, lines: &str) -> Result<Vec<u8>, String> {
    let (drawn, inked) = (load(drawn)?, load(lines)?);
    let mut bytes = format!("P6\n{} {}\n255\n", drawn.width, drawn.height).into_bytes();
    for (&luma, &ink) in drawn.ink.iter().zip(&inked.ink) {
        let red = (4.0 * 255.0 * luma) as u8;
        bytes.extend(if ink > 0.0 {
            [0, 160, 255]
        } else {
            [red, red / 4, 0]
        });
    }
    Ok(bytes)
}
