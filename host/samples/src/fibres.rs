//! Wool fibres as a gauge traces them: a spline a fibre, gently crimped, fine ones and coarse ones.

use cases::descriptions::push;
use cases::random::Random;
use cases::Description;

pub const WIDTH: u32 = 640;
pub const HEIGHT: u32 = 400;

/// Divides every coefficient's step by four: sigma goes in twelfths of a pixel.
const ADJUSTMENT: i32 = 24;
/// How far outside the picture a fibre begins and ends.
const MARGIN: f64 = 24.0;
const FIBRES: usize = 18;

type Pair = (f64, f64);

/// The way of a fibre, before the crimp is laid on it.
struct Way {
    at: Pair,
    /// Of length 1.
    heading: Pair,
    /// How much the heading turns in a pixel.
    turn: f64,
}

impl Way {
    fn step(&mut self, length: f64) {
        let (dx, dy) = self.heading;
        self.at = (self.at.0 + dx * length, self.at.1 + dy * length);
        let by = self.turn * length;
        self.heading = unit((dx - by * dy, dy + by * dx));
    }

    fn beside(&self, offset: f64) -> Pair {
        let (dx, dy) = self.heading;
        (self.at.0 - dy * offset, self.at.1 + dx * offset)
    }

    fn has_left(&self) -> bool {
        let (x, y) = self.at;
        let outside = |v: f64, last: u32| v < -MARGIN || v > f64::from(last) + MARGIN;
        outside(x, WIDTH) || outside(y, HEIGHT)
    }
}

fn unit((x, y): Pair) -> Pair {
    let length = (x * x + y * y).sqrt();
    (x / length, y / length)
}

/// A wave of period 1 and height 1, by parabolas: the same on every machine.
fn wave(t: f64) -> f64 {
    let t = t - t.floor();
    if t < 0.5 {
        16.0 * t * (0.5 - t)
    } else {
        -16.0 * (t - 0.5) * (1.0 - t)
    }
}

fn between(r: &mut Random, first: f64, last: f64) -> f64 {
    f64::from(r.between(first as f32, last as f32))
}

/// Most fibres lie along the staple, a few across it.
fn way(r: &mut Random, number: usize) -> Way {
    let turn = between(r, -0.0006, 0.0006);
    // The first start of a list is unsigned: that fibre ends inside the picture.
    if number == 0 {
        return Way {
            at: (118.0, 96.0),
            heading: unit((1.0, 0.31)),
            turn: 0.0006,
        };
    }
    if number % 8 == 5 {
        let slope = between(r, -0.7, 0.7);
        let x = between(r, 60.0, f64::from(WIDTH) - 60.0);
        return Way {
            at: (x, -MARGIN),
            heading: unit((slope, 1.0)),
            turn,
        };
    }
    // One in each strip of the left edge, so that they spread.
    let strip = f64::from(HEIGHT + 80) / FIBRES as f64;
    let y = strip * (number as f64 + between(r, 0.1, 0.9)) - 40.0;
    let heading = unit((
        1.0,
        between(r, -0.22, 0.22) + (f64::from(HEIGHT / 2) - y) * 0.0005,
    ));
    Way {
        at: (-MARGIN, y),
        heading,
        turn,
    }
}

/// The control points, whole pixels: one at each quarter of a crimp.
fn trace(r: &mut Random, mut way: Way) -> Vec<(i32, i32)> {
    let period = between(r, 64.0, 104.0);
    let height = between(r, 0.06, 0.1) * period;
    let mut phase = between(r, 0.0, 1.0);
    let mut points = Vec::new();
    loop {
        let uneven = between(r, 0.75, 1.15);
        let (x, y) = way.beside(height * uneven * wave(phase));
        points.push((x.round() as i32, y.round() as i32));
        if way.has_left() && points.len() > 2 {
            return points;
        }
        let part = between(r, 0.23, 0.27);
        way.step(period * part);
        phase += part;
    }
}

/// Double deltas: the change of the step from point to point.
fn double_deltas(points: &[(i32, i32)]) -> Vec<i32> {
    let mut last = (0, 0);
    let mut deltas = Vec::new();
    for pair in points.windows(2) {
        let step = (pair[1].0 - pair[0].0, pair[1].1 - pair[0].1);
        deltas.extend([step.0 - last.0, step.1 - last.1]);
        last = step;
    }
    deltas
}

/// Brightness in Y and width in sigma, both a little uneven along the fibre.
fn coefficients(r: &mut Random, number: usize) -> Vec<i32> {
    let mut values = vec![0; 128];
    // In twelfths of a pixel: fine, medium and coarse ones.
    let sigma = match number % 6 {
        1 => r.within(13, 17),
        4 => r.within(38, 52),
        _ => r.within(20, 32),
    };
    let bright = r.within(40, 54);
    values[32] = bright as i32;
    values[33] = r.within(-5, 5) as i32;
    values[34] = r.within(-4, 4) as i32;
    values[96] = sigma as i32;
    values[97] = r.within(-2, 2) as i32;
    values[98] = r.within(-1, 1) as i32;
    values[99] = r.within(-1, 1) as i32;
    values
}

/// The same ways as plain fibres, which meet edition 1 of the profile: one brightness and one width along each, in thirds of a pixel.
pub fn plain() -> Description {
    let mut description = fibres();
    description.adjustment = 0;
    for own in description.coefficients.chunks_mut(128) {
        let (bright, sigma) = (own[32] / 4, own[96] / 4);
        own.fill(0);
        (own[32], own[96]) = (bright, sigma);
    }
    description
}

/// All of them.
pub fn fibres() -> Description {
    let mut description = Description {
        adjustment: ADJUSTMENT,
        ..Description::default()
    };
    for number in 0..FIBRES {
        let mut random = Random::new("staple", number as u64);
        let r = &mut random;
        let way = way(r, number);
        let points = trace(r, way);
        let start = (points[0].0 as f32, points[0].1 as f32);
        push(
            &mut description,
            start,
            &double_deltas(&points),
            &coefficients(r, number),
        );
    }
    description
}
