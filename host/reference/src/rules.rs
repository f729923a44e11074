//! Splines drawn by rules that can be changed one by one: with none changed as spline.rs draws them, with all changed as libjxl 0.7 does.
//!
//! Both ends are held against the real thing: with no rule changed the picture must be that of spline.rs, bit for bit; how
//! near it comes to that of djxl with all changed is a figure of the run. That no float is left apart is what the rules of
//! libjxl rest on; where to look for them was seen in the machine code of Debian's library for Arm.

use cases::{Description, Given};
use oracle::{Dequantized, Outcome};
use std::f32::consts::{PI, SQRT_2};

/// Which rules are libjxl's.
#[derive(Clone, Copy)]
pub struct Rules {
    /// (a) The distance's exponent is 5, as in high precision.
    pub far: bool,
    /// (b) A segment that ends left of the image has no column.
    pub left: bool,
    /// (c) The colour's floor is 0.01, whatever the multiplier.
    pub floor: bool,
    /// The orders of operations.
    pub orders: Orders,
}

/// The orders of operations that are libjxl's.
#[derive(Clone, Copy)]
pub struct Orders {
    /// π/32·k is a product of f64 rounded once, not the f32 number π/32 times k.
    pub turns: bool,
    /// √2 goes into every term of a transform, and the terms go into four sums; not one sum times √2.
    pub root: bool,
    /// The intensity is s·(f·f), not (s·f)·f.
    pub square: bool,
    /// A product and a sum are rounded together.
    pub fused: bool,
    /// The distance is found in f64 with the logarithm of the host, not in f32 with the port's.
    pub double: bool,
    /// Rows and columns end where 0.5 is added and the rest cut, not at R.
    pub halves: bool,
}

impl Rules {
    /// spline.rs in low precision.
    pub const LOW: Rules = Rules {
        far: false,
        left: false,
        floor: false,
        orders: Orders::NONE,
    };
    /// spline.rs in high precision.
    pub const HIGH: Rules = Rules {
        far: true,
        ..Rules::LOW
    };
    /// libjxl's rules in the orders of spline.rs.
    pub const ABC: Rules = Rules {
        left: true,
        floor: true,
        ..Rules::HIGH
    };
    /// libjxl.
    pub const ALL: Rules = Rules {
        orders: Orders::ALL,
        ..Rules::ABC
    };
}

impl Orders {
    pub const NONE: Orders = Orders {
        turns: false,
        root: false,
        square: false,
        fused: false,
        double: false,
        halves: false,
    };
    const ALL: Orders = Orders {
        turns: true,
        root: true,
        square: true,
        fused: true,
        double: true,
        halves: true,
    };
}

type Point = [f32; 2];

/// The k whose multiples of π/32 part.
pub fn parted_turns() -> Vec<usize> {
    let parted = |&k: &usize| Orders::NONE.turn(k) != Orders::ALL.turn(k);
    (0..32).filter(parted).collect()
}

/// A segment as both sides keep it.
pub struct Piece {
    center: Point,
    distance: f32,
    inv_sigma: f32,
    strength: f32,
    colour: [f32; 3],
}

/// X, Y and B of every pixel, row after row.
pub type Picture = Vec<[f32; 3]>;

/// The picture on black, or why spline.rs does not dequantize the splines.
pub fn picture(description: &Description, given: &Given, rules: Rules) -> Result<Picture, String> {
    let pieces = pieces(description, given, rules)?;
    let (width, height) = (i64::from(given.width), i64::from(given.height));
    let mut picture = vec![[0.0; 3]; (width * height) as usize];
    for piece in &pieces {
        let [_, cy] = piece.center;
        let rows = rules.orders.ends(cy - piece.distance, cy + piece.distance);
        for y in rows.0.max(0)..rows.1.min(height) {
            let columns = columns(piece, rules);
            for x in columns.0.max(0)..columns.1.min(width) {
                let pixel = &mut picture[(y * width + x) as usize];
                rules.orders.add(piece, x as f32, y as f32, pixel);
            }
        }
    }
    Ok(picture)
}

/// The first column and the one past the last. spline.rs makes negative ends 0 before it adds the one.
fn columns(piece: &Piece, rules: Rules) -> (i64, i64) {
    let [cx, _] = piece.center;
    let (first, past) = rules.orders.ends(cx - piece.distance, cx + piece.distance);
    (first, if rules.left { past } else { past.max(1) })
}

/// The segments of all splines in order. Dequantizing is spline.rs's own: there is nothing in it on which the two part.
fn pieces(description: &Description, given: &Given, rules: Rules) -> Result<Vec<Piece>, String> {
    let area = u64::from(given.width) * u64::from(given.height);
    let limit = oracle::spline_area_limit(given.level10, area);
    let mut pieces = Vec::new();
    let mut deltas = &description.deltas[..];
    for (k, &count) in description.counts.iter().enumerate() {
        let (now, later) = deltas.split_at(2 * count as usize);
        deltas = later;
        let dequantized = oracle::dequantize(
            [description.starts[2 * k], description.starts[2 * k + 1]],
            now,
            &description.coefficients[128 * k..128 * (k + 1)],
            description.adjustment,
            given.y_to_x,
            given.y_to_b,
            limit,
        );
        match dequantized {
            Outcome::Done(spline) => rules.along(&spline, &mut pieces),
            other => return Err(format!("spline {k}: {:?}", other.map(|_| ()))),
        }
    }
    Ok(pieces)
}

impl Rules {
    /// The segments of one spline.
    fn along(self, spline: &Dequantized, pieces: &mut Vec<Piece>) {
        let walk = self.orders.walk(&self.orders.curve(&spline.points));
        let [.., (_, last)] = walk[..] else { return };
        let length = (walk.len() as isize - 2) as f32 + last;
        if length <= 0.0 {
            return;
        }
        let inv_length = 1.0 / length;
        for (k, &(center, multiplier)) in walk.iter().enumerate() {
            let t = 31.0 * (k as f32 * inv_length).min(1.0);
            let [x, y, b, sigma] = spline.rows.map(|row| self.orders.transform(&row, t));
            pieces.extend(self.piece(center, multiplier, [x, y, b], sigma));
        }
    }

    fn piece(self, center: Point, multiplier: f32, colour: [f32; 3], sigma: f32) -> Option<Piece> {
        let inv_sigma = 1.0 / sigma;
        if sigma.is_infinite() || sigma == 0.0 || inv_sigma.is_infinite() {
            return None;
        }
        let floor = if self.floor { 0.01 } else { 0.01 * multiplier };
        let brightest = colour.map(|c| (c * multiplier).abs());
        let brightest = brightest.into_iter().fold(floor, f32::max);
        Some(Piece {
            center,
            distance: self.distance(sigma, brightest),
            inv_sigma,
            strength: 0.25 * sigma * multiplier,
            colour,
        })
    }

    fn distance(self, sigma: f32, brightest: f32) -> f32 {
        let exponent: f32 = if self.far { 5.0 } else { 3.0 };
        let square = -2.0 * sigma * sigma;
        if self.orders.double {
            let fall = 0.1f64.ln() * f64::from(exponent) - f64::from(brightest.ln());
            (f64::from(square) * fall).sqrt() as f32
        } else {
            let ln = model::logarithm::ln;
            (square * (ln(0.1) * exponent - ln(brightest))).sqrt()
        }
    }
}

impl Orders {
    /// a·b + c.
    fn sum(self, a: f32, b: f32, c: f32) -> f32 {
        if self.fused {
            a.mul_add(b, c)
        } else {
            a * b + c
        }
    }

    /// From p towards q by a part of the way.
    fn towards(self, p: Point, q: Point, part: f32) -> Point {
        [0, 1].map(|i| self.sum(q[i] - p[i], part, p[i]))
    }

    fn curve(self, points: &[Point]) -> Vec<Point> {
        let [first, .., last] = points[..] else {
            return points.to_vec();
        };
        let beyond = |p: Point, q: Point| [p[0] + (p[0] - q[0]), p[1] + (p[1] - q[1])];
        let mut extended = vec![beyond(first, points[1])];
        extended.extend(points);
        extended.push(beyond(last, points[points.len() - 2]));
        let mut path = Vec::new();
        for p in extended.windows(4) {
            path.push(p[1]);
            let step = |k: usize| oracle::length(p[k + 1][0] - p[k][0], p[k + 1][1] - p[k][1]);
            let d = [0, 1, 2].map(|k| step(k).sqrt());
            let t = [0.0, d[0], d[0] + d[1], d[0] + d[1] + d[2]];
            path.extend((1..16).map(|i| self.between(p, d, t, i as f32 / 16.0)));
        }
        path.push(last);
        path
    }

    fn between(self, p: &[Point], d: [f32; 3], t: [f32; 4], part: f32) -> Point {
        let tt = self.sum(part, d[1], d[0]);
        let a = [0, 1, 2].map(|k| self.towards(p[k], p[k + 1], (tt - t[k]) / d[k]));
        let b = [0, 1].map(|k| self.towards(a[k], a[k + 1], (tt - t[k]) / (d[k] + d[k + 1])));
        self.towards(b[0], b[1], (tt - t[1]) / d[1])
    }

    /// Points a unit of length apart, each with its multiplier.
    fn walk(self, path: &[Point]) -> Vec<(Point, f32)> {
        let mut walk = vec![(path[0], 1.0)];
        let (mut previous, mut gone, mut next) = (path[0], 0.0, 0);
        while next < path.len() {
            let [dx, dy] = [0, 1].map(|i| path[next][i] - previous[i]);
            let length = self.sum(dx, dx, dy * dy).sqrt();
            if gone + length >= 1.0 {
                previous = self.towards(previous, path[next], (1.0 - gone) / length);
                gone = 0.0;
                walk.push((previous, 1.0));
            } else {
                gone += length;
                previous = path[next];
                next += 1;
            }
        }
        walk.push((previous, gone));
        walk
    }

    fn transform(self, coefficients: &[f32; 32], t: f32) -> f32 {
        let cos = |k: usize| self.cos(self.turn(k) * (t + 0.5));
        let term = |k: usize| coefficients[k] * cos(k);
        if !self.root {
            return (1..32).map(term).fold(term(0), |sum, term| sum + term) * SQRT_2;
        }
        let mut lanes = [0.0; 4];
        for k in 0..32 {
            lanes[k % 4] = self.sum(SQRT_2, term(k), lanes[k % 4]);
        }
        (lanes[0] + lanes[1]) + (lanes[2] + lanes[3])
    }

    fn turn(self, k: usize) -> f32 {
        if self.turns {
            (std::f64::consts::PI / 32.0 * k as f64) as f32
        } else {
            PI / 32.0 * k as f32
        }
    }

    fn cos(self, x: f32) -> f32 {
        let turn = PI * 2.0;
        let within = self.sum(-(x * (0.5 / PI)).floor(), turn, x);
        let half = within.min(turn - within);
        let over = half >= PI / 2.0;
        let quarter = 0.25 * if over { PI - half } else { half };
        let x2 = quarter * quarter;
        let scaled = self.sum(x2 * x2, 0.06960438, self.sum(x2, -0.84087373, 1.681_792_68));
        let doubled = self.sum(scaled, scaled, -SQRT_2);
        let cos = self.sum(doubled, doubled, -1.0);
        if over {
            -cos
        } else {
            cos
        }
    }

    fn erf(self, x: f32) -> f32 {
        let size = x.abs();
        let d1 = self.sum(size, 7.773_943_69e-2, 2.052_600_15e-4);
        let d2 = self.sum(d1, size, 2.321_202_16e-1);
        let d3 = self.sum(d2, size, 2.778_208_01e-1);
        let d4 = self.sum(d3, size, 1.0);
        let part = 1.0 / (d4 * d4);
        self.sum(-part, part, 1.0).copysign(x)
    }

    /// The first whole number of a run and the one past the last.
    fn ends(self, from: f32, to: f32) -> (i64, i64) {
        if self.halves {
            ((from + 0.5) as i64, (to + 1.5) as i64)
        } else {
            (from.round() as i64, (to.round() as i64).saturating_add(1))
        }
    }

    /// What a segment adds to a pixel.
    fn add(self, piece: &Piece, x: f32, y: f32, pixel: &mut [f32; 3]) {
        let [dx, dy] = [x - piece.center[0], y - piece.center[1]];
        let distance = self.sum(dx, dx, dy * dy).sqrt();
        let edge = |side: f32| self.erf(self.sum(distance, 0.5, side) * piece.inv_sigma);
        let factor = edge(0.353_553_38) - edge(-0.353_553_38);
        let intensity = if self.square {
            piece.strength * (factor * factor)
        } else {
            piece.strength * factor * factor
        };
        for (channel, colour) in pixel.iter_mut().zip(piece.colour) {
            *channel = self.sum(colour, intensity, *channel);
        }
    }
}
