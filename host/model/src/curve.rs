//! The curve (the scope, "Curve and walk"): from control points to the path.

use crate::left_open::between;
use crate::numbers::length;
use cases::Code;

/// x and y.
pub type Point = [f32; 2];

/// ROOM also beyond "2^23 path points, 2^23 walk points".
pub const MOST_POINTS: u64 = 1 << 23;

pub fn plus(a: Point, b: Point) -> Point {
    [a[0] + b[0], a[1] + b[1]]
}

pub fn minus(a: Point, b: Point) -> Point {
    [a[0] - b[0], a[1] - b[1]]
}

pub fn times(a: Point, factor: f32) -> Point {
    [a[0] * factor, a[1] * factor]
}

/// The path through these control points, of which there is at least one, if there is room for so many points: "16(n-1)+1
/// points, or 1 if n = 1".
pub fn curve(control: &[(i64, i64)], room: u64) -> Result<Vec<Point>, Code> {
    let needed = 16 * (control.len() as u64 - 1) + 1;
    if needed > room.min(MOST_POINTS) {
        return Err(Code::Room);
    }
    let control: Vec<Point> = control.iter().map(|&(x, y)| [x as f32, y as f32]).collect();
    let mut path = Vec::new();
    for window in extended(&control).windows(4) {
        path.extend(piece([window[0], window[1], window[2], window[3]]));
    }
    // "the last control point closes the path"
    path.extend(control.last());
    Ok(path)
}

/// "Both ends are extended by reflection": the end plus the way to it from its neighbour. One point has no neighbour.
fn extended(control: &[Point]) -> Vec<Point> {
    let beyond = |end: Point, neighbour: Point| plus(end, minus(end, neighbour));
    let [first, second, ..] = *control else {
        return control.to_vec();
    };
    let n = control.len();
    let mut extended = vec![beyond(first, second)];
    extended.extend(control);
    extended.push(beyond(control[n - 1], control[n - 2]));
    extended
}

/// "Each window gives its second point and 15 interpolated ones"; "d_k is the root of the length from point k to k+1;
/// t_0 = 0, t_(k+1) = t_k + d_k".
fn piece(window: [Point; 4]) -> [Point; 16] {
    let d = [0, 1, 2].map(|k| {
        // "Lengths of control differences are whole-number problems".
        let [x, y] = minus(window[k + 1], window[k]);
        length(x as i64, y as i64).sqrt()
    });
    let t = [0.0, d[0], d[0] + d[1], d[0] + d[1] + d[2]];
    let mut points = [window[1]; 16];
    for (i, point) in points.iter_mut().enumerate().skip(1) {
        *point = between(window, d, t, i as f32);
    }
    points
}

#[cfg(test)]
mod tests {
    use super::*;

    #[test]
    fn path_lengths() {
        assert_eq!(curve(&[(7, -3)], 1), Ok(vec![[7.0, -3.0]]));
        let path = curve(&[(0, 0), (8, 0), (8, 8)], 33).unwrap();
        assert_eq!(path.len(), 33);
        assert_eq!(
            (path[0], path[16], path[32]),
            ([0.0, 0.0], [8.0, 0.0], [8.0, 8.0])
        );
        assert_eq!(curve(&[(0, 0), (8, 0), (8, 8)], 32), Err(Code::Room));
    }
}
