//! The port's logarithm, a fixed sequence of f64 steps: it stands in where the port's own is not linked.

const SERIES: [f64; 10] = [
    0.047619047619047616,
    0.05263157894736842,
    0.058823529411764705,
    0.06666666666666667,
    0.07692307692307693,
    0.09090909090909091,
    0.1111111111111111,
    0.14285714285714285,
    0.2,
    0.3333333333333333,
];

/// ln(z · 2^k), z near 1.
fn ln_at(z: f64, k: f64) -> f64 {
    let s = (z - 1.0) / (z + 1.0);
    let w = s * s;
    let p = SERIES[1..].iter().fold(SERIES[0], |p, c| p * w + c);
    let t = s + s;
    k * 0.6931471805599453 + (t + t * (p * w))
}

pub fn ln(x: f32) -> f32 {
    if x.is_nan() || x < 0.0 {
        return f32::NAN;
    }
    if x == 0.0 {
        return f32::NEG_INFINITY;
    }
    if x.is_infinite() {
        return x;
    }
    let b = (x as f64).to_bits();
    let z = f64::from_bits((b & 0x000f_ffff_ffff_ffff) + 0x3ff0_0000_0000_0000);
    let k = (b >> 52) as f64 - 1023.0;
    if z > std::f64::consts::SQRT_2 {
        ln_at(z * 0.5, k + 1.0) as f32
    } else {
        ln_at(z, k) as f32
    }
}
