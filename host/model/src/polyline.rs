//! Line drawings (document 02, request (iv)): a spline's control points as the value of an SVG `points` attribute, and such a value read back.
//!
//! A comment in quotes is a sentence of that request, or of document 01 with its heading in brackets.

use crate::dequantize::{control_points, position, splines};
use crate::list::well_shaped;
use cases::{Code, Description, Polyline, Refusal};

fn refuse<T>(code: Code, place: usize) -> Result<T, Refusal> {
    let place = place as u64;
    Err(Refusal { code, place })
}

/// "decimal whole numbers, a minus where needed, no leading zeros, no -0".
fn is_number(text: &[u8]) -> bool {
    let digits = text.strip_prefix(b"-").unwrap_or(text);
    let plain = digits.iter().all(u8::is_ascii_digit) && !digits.starts_with(b"0");
    text == b"0" || plain && !digits.is_empty()
}

/// "pairs x,y with one comma".
fn is_pair(text: &[u8]) -> bool {
    let numbers: Vec<&[u8]> = text.split(|&byte| byte == b',').collect();
    numbers.len() == 2 && numbers.into_iter().all(is_number)
}

/// Where each pair begins and ends: "one space between pairs".
fn pairs(text: &[u8]) -> Vec<(usize, &[u8])> {
    let mut first = 0;
    let mut pairs = Vec::new();
    for pair in text.split(|&byte| byte == b' ') {
        pairs.push((first, pair));
        first += pair.len() + 1;
    }
    pairs
}

/// What can end a pair that has begun, whatever it has got to: a pair that none of these ends is the beginning of none.
const ENDINGS: [&[u8]; 6] = [b"", b"0", b"1", b",0", b"0,0", b"1,0"];

/// Whether some pair begins so.
fn begins_a_pair(text: &[u8]) -> bool {
    ENDINGS
        .iter()
        .any(|ending| is_pair(&[text, ending].concat()))
}

/// "18 TEXT, place the first byte that no legal text could have there after the bytes before it, or the text's length if it stops early".
fn judge_form(text: &[u8]) -> Result<(), Refusal> {
    for (first, pair) in pairs(text) {
        for length in 1..=pair.len() {
            if !begins_a_pair(&pair[..length]) {
                return refuse(Code::Text, first + length - 1);
            }
        }
        // Its space came too early, or the text did not come to its end.
        if !is_pair(pair) {
            return refuse(Code::Text, first + pair.len());
        }
    }
    Ok(())
}

/// A number of the form, or none where it passes 32 bits: no position is so great.
fn value(text: &[u8]) -> Option<i64> {
    let number: i32 = std::str::from_utf8(text).ok()?.parse().ok()?;
    Some(number.into())
}

fn point(pair: &[u8]) -> Option<(i64, i64)> {
    let comma = pair.iter().position(|&byte| byte == b',')?;
    Some((value(&pair[..comma])?, value(&pair[comma + 1..])?))
}

/// "Accepted exactly if the text has this form and building would find the points legal apart from distance and area."
/// "then POSITION and COINCIDE pair by pair, place the first byte of the later pair concerned, then ROOM, place 0".
pub fn points_read(text: &[u8], start_room: u64, delta_room: u64) -> Result<Polyline, Refusal> {
    judge_form(text)?;
    let mut points: Vec<(i64, i64)> = Vec::new();
    for (place, pair) in pairs(text) {
        let Some(point) = point(pair) else {
            return refuse(Code::Position, place);
        };
        if let Err(code) = judge_next(points.last().copied(), point) {
            return refuse(code, place);
        }
        points.push(point);
    }
    let deltas = double_deltas(&points);
    if start_room < 2 || delta_room < deltas.len() as u64 {
        return refuse(Code::Room, 0);
    }
    let (x, y) = points[0];
    Ok(Polyline {
        start: [x as f32, y as f32],
        deltas,
    })
}

/// A point after the one before it, where there is one.
fn judge_next(before: Option<(i64, i64)>, point: (i64, i64)) -> Result<(), Code> {
    let Some(before) = before else {
        return position(point.0, point.1);
    };
    position(point.0 - before.0, point.1 - before.1)?;
    position(point.0, point.1)?;
    if point == before {
        return Err(Code::Coincide);
    }
    Ok(())
}

/// "Import gives the start and double deltas": what each step has more than the one before, x and y.
fn double_deltas(points: &[(i64, i64)]) -> Vec<i32> {
    let mut before = (0, 0);
    let mut doubles = Vec::new();
    for pair in points.windows(2) {
        let step = (pair[1].0 - pair[0].0, pair[1].1 - pair[0].1);
        doubles.extend([step.0 - before.0, step.1 - before.1].map(|double| double as i32));
        before = step;
    }
    doubles
}

/// "on export, which looks at one spline by its number, SHAPE (also for no such spline), then DELTA, POSITION and COINCIDE in building's order,
/// ROOM, place the spline (SHAPE: 0)".
pub fn points_write(description: &Description, spline: u64, room: u64) -> Result<Vec<u8>, Refusal> {
    let shape = Refusal {
        code: Code::Shape,
        place: 0,
    };
    if !well_shaped(description) {
        return Err(shape);
    }
    let splines = splines(description);
    let quantized = usize::try_from(spline).ok().and_then(|k| splines.get(k));
    let refuse = |code| Refusal {
        code,
        place: spline,
    };
    // No sum of so few steps passes this limit, so that DISTANCE is never given.
    let (points, _) = control_points(quantized.ok_or(shape)?, u64::MAX).map_err(refuse)?;
    // "After a spline: .. COINCIDE" (Dequantizing).
    if points.windows(2).any(|pair| pair[0] == pair[1]) {
        return Err(refuse(Code::Coincide));
    }
    let pairs: Vec<String> = points.iter().map(|(x, y)| format!("{x},{y}")).collect();
    let text = pairs.join(" ").into_bytes();
    if text.len() as u64 > room {
        return Err(refuse(Code::Room));
    }
    Ok(text)
}

#[cfg(test)]
mod tests {
    use super::*;

    fn read(text: &str) -> Result<([f32; 2], Vec<i32>), (Code, u64)> {
        points_read(text.as_bytes(), u64::MAX, u64::MAX)
            .map(|line| (line.start, line.deltas))
            .map_err(|refusal| (refusal.code, refusal.place))
    }

    #[test]
    fn texts_of_the_form() {
        assert_eq!(read("0,0"), Ok(([0.0, 0.0], vec![])));
        assert_eq!(read("-3,10 0,12"), Ok(([-3.0, 10.0], vec![3, 2])));
        assert_eq!(
            read("1,1 2,3 2,3000"),
            Ok(([1.0, 1.0], vec![1, 2, -1, 2995]))
        );
        assert_eq!(
            read("-8388608,8388607").map(|line| line.0),
            Ok([-8_388_608.0, 8_388_607.0])
        );
    }

    #[test]
    fn the_first_byte_that_no_text_could_have() {
        for (text, place) in [
            ("", 0),
            (" ", 0),
            (",", 0),
            ("-", 1),
            ("-0", 1),
            ("--1,0", 1),
            ("00,0", 1),
            ("01,0", 1),
            ("0", 1),
            ("0,", 2),
            ("0,0 ", 4),
            ("0,0  1,1", 4),
            ("0,0,", 3),
            ("0,0 1 1,1", 5),
            ("0 0", 1),
            ("+1,0", 0),
            ("1.5,0", 1),
            ("0,0\n", 3),
            ("10,-", 4),
            ("10,-,", 4),
            ("1,2 3", 5),
            ("99999999999999999999999999,1 x", 29),
        ] {
            assert_eq!(read(text), Err((Code::Text, place)), "{text:?}");
        }
    }

    #[test]
    fn positions_and_coinciding_pairs() {
        let far = "123456789012345678901234567890123456789012345678901234567890";
        for (text, code, place) in [
            ("8388608,0", Code::Position, 0),
            ("0,-8388609", Code::Position, 0),
            ("0,0 8388608,0", Code::Position, 4),
            ("-1,0 8388607,0", Code::Position, 5),
            ("1,0 -8388608,0", Code::Position, 4),
            ("0,0 0,0", Code::Coincide, 4),
            ("0,0 0,0 8388608,0", Code::Coincide, 4),
            ("0,0 8388608,0 8388608,0", Code::Position, 4),
            (&format!("5,5 {far},5 {far},5"), Code::Position, 4),
            (&format!("-{far},5"), Code::Position, 0),
            (&format!("{far},5 {far},5 6,6 "), Code::Text, 130),
        ] {
            assert_eq!(read(text), Err((code, place)), "{text:?}");
        }
        assert!(read("0,0 -8388608,0").is_ok());
        assert!(read("-1,0 8388606,0").is_ok());
    }

    #[test]
    fn rooms_of_reading() {
        let text = b"0,0 1,1 3,3";
        let room = Some(Refusal {
            code: Code::Room,
            place: 0,
        });
        assert!(points_read(text, 2, 4).is_ok());
        assert_eq!(points_read(text, 1, 4).err(), room);
        assert_eq!(points_read(text, 2, 3).err(), room);
    }

    /// Two splines; the second with a start to be rounded.
    fn description() -> Description {
        Description {
            counts: vec![2, 0],
            starts: vec![5.0, -6.0, 2.5, -0.4],
            deltas: vec![1, 0, -3, 4],
            coefficients: vec![0; 256],
            adjustment: 0,
        }
    }

    fn written(edit: fn(&mut Description), spline: u64) -> Result<String, (Code, u64)> {
        let mut description = description();
        edit(&mut description);
        points_write(&description, spline, 17)
            .map(|text| String::from_utf8(text).expect("plain text"))
            .map_err(|refusal| (refusal.code, refusal.place))
    }

    #[test]
    fn exports() {
        assert_eq!(written(|_| {}, 0), Ok("5,-6 6,-6 4,-2".into()));
        assert_eq!(written(|_| {}, 1), Ok("3,0".into()));
        for (edit, spline, refusal) in [
            ((|_| {}) as fn(&mut Description), 2, (Code::Shape, 0)),
            (|_| {}, u64::MAX, (Code::Shape, 0)),
            (|d| d.counts[1] = 1, 1, (Code::Shape, 0)),
            (|d| d.deltas[3] = 1 << 30, 0, (Code::Delta, 0)),
            (|d| d.starts[2] = f32::NAN, 1, (Code::Position, 1)),
            (|d| d.starts[0] = -8_388_607.0, 0, (Code::Room, 0)),
            (|d| d.deltas[0] = 0, 0, (Code::Coincide, 0)),
        ] {
            assert_eq!(written(edit, spline), Err(refusal));
        }
        // The other spline's faults are its own.
        assert!(written(|d| d.starts[2] = f32::NAN, 0).is_ok());
        // A later position comes before an earlier pair that coincides.
        assert_eq!(
            written(|d| d.deltas[..3].copy_from_slice(&[0, 0, 1 << 23]), 0),
            Err((Code::Position, 0))
        );
    }
}
