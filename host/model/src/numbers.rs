//! Numbers: R, the rounded root of a whole number, the greatest by total order, the lesser of two, the logarithm.

use std::sync::RwLock;

/// Stands for every whole number from 2^100 on, plus infinity among them.
pub const BEYOND: i128 = 1 << 100;

/// "R rounds half away from zero, NaN to 0; an infinity lies beyond every whole number" (Segments and rows).
pub fn round(x: f32) -> i128 {
    let magnitude = x.abs();
    // The whole part and the fraction of a float are floats themselves, so nothing is lost in taking them apart.
    let rounded = if magnitude.is_nan() {
        0
    } else if magnitude < BEYOND as f32 {
        magnitude.trunc() as i128 + i128::from(magnitude.fract() >= 0.5)
    } else {
        BEYOND
    };
    if x < 0.0 {
        -rounded
    } else {
        rounded
    }
}

/// "R0 is R with negatives made 0" (Segments and rows).
pub fn round_from_zero(x: f32) -> i128 {
    round(x).max(0)
}

/// "the f32 nearest to the root of x²+y², ties to even" (Curve and walk).
pub fn length(x: i64, y: i64) -> f32 {
    let square = u128::from(x.unsigned_abs()).pow(2) + u128::from(y.unsigned_abs()).pow(2);
    if square == 0 {
        return 0.0;
    }
    // The unit is the power of two in which the root is a number of 24 bits: 2^23 up to but not including 2^24 of it.
    let unit = (square.ilog2() as i32 / 2) - 23;
    // The square in units of that size is scaled / divisor.
    let (scaled, divisor) = if unit <= 0 {
        (square << (-2 * unit), 1)
    } else {
        (square, 1u128 << (2 * unit))
    };
    let below = whole_root(scaled / divisor);
    let half_way = (2 * below + 1).pow(2) * divisor;
    let up = match (4 * scaled).cmp(&half_way) {
        std::cmp::Ordering::Less => 0,
        std::cmp::Ordering::Equal => below % 2,
        std::cmp::Ordering::Greater => 1,
    };
    (below + up) as f32 * 2f32.powi(unit)
}

/// The greatest whole number whose square is at most n, bit by bit.
fn whole_root(n: u128) -> u128 {
    (0..64).rev().fold(0, |root, bit| {
        let tried = root | 1 << bit;
        if tried.checked_mul(tried).is_some_and(|square| square <= n) {
            tried
        } else {
            root
        }
    })
}

/// "the greatest .. by total order" (Segments and rows).
pub fn greatest(magnitudes: [f32; 4]) -> f32 {
    let rank = |x: &f32| {
        // IEEE 754's total order is that of the bits, with those of negative numbers turned round.
        let bits = x.to_bits();
        if bits >> 31 == 1 {
            !bits
        } else {
            bits | 1 << 31
        }
    };
    magnitudes.into_iter().max_by_key(rank).unwrap_or(f32::NAN)
}

/// min; of a NaN and a number the number, which the words leave open.
pub fn lesser(a: f32, b: f32) -> f32 {
    if b.is_nan() || a <= b {
        a
    } else {
        b
    }
}

static LN: RwLock<fn(f32) -> f32> = RwLock::new(f32::ln);

/// Puts another logarithm in place of the host's.
pub fn set_ln(ln: fn(f32) -> f32) {
    *LN.write().unwrap_or_else(|held| held.into_inner()) = ln;
}

/// The logarithm that is in place. "The port's logarithm is a fixed sequence of f64 steps" that the scope does not give,
/// so it comes from the host, or is lent.
pub fn ln(x: f32) -> f32 {
    let ln = *LN.read().unwrap_or_else(|held| held.into_inner());
    ln(x)
}

#[cfg(test)]
mod tests {
    use super::*;

    #[test]
    fn rounding_is_half_away_from_zero() {
        assert_eq!(round(2.5), 3);
        assert_eq!(round(-0.5), -1);
        assert_eq!(round(0.49999997), 0);
        assert_eq!(round(f32::NAN), 0);
        assert_eq!(round(f32::INFINITY), BEYOND);
        assert_eq!(round(f32::MIN), -BEYOND);
        assert_eq!(round_from_zero(-3.0), 0);
    }

    #[test]
    fn rounding_is_the_hosts() {
        for step in 0..(1u32 << 20) {
            let x = f32::from_bits(step.wrapping_mul(4093));
            let host = if x.is_nan() { 0.0 } else { x.round() };
            let mine = round(x);
            if mine.abs() < BEYOND {
                assert_eq!(mine as f64, f64::from(host), "{x}");
            } else {
                assert!(host.abs() >= 2f32.powi(100), "{x}");
            }
        }
    }

    #[test]
    fn lengths() {
        assert_eq!(length(3, 4), 5.0);
        assert_eq!(length(0, 0), 0.0);
        assert_eq!(length(1, 0), 1.0);
        assert_eq!(length(-8388608, 0), 8388608.0);
        // Ties: 2^24 + 1 and 2^24 + 3 lie between two floats each.
        assert_eq!(length(16777217, 0), 16777216.0);
        assert_eq!(length(0, -16777219), 16777220.0);
        assert_eq!(length(8192, 16777215), 16777216.0);
    }

    #[test]
    fn lengths_are_nearest() {
        for step in 1..200_000i64 {
            let (x, y) = (step * 7919 % 8388608, step * 104729 % 8388608 - 4194304);
            let mine = length(x, y);
            // Half way to either neighbour, which an f64 holds: 2^26 times that is a whole number.
            let half_way = |to: u32| (f64::from(mine) + f64::from(f32::from_bits(to))) / 2.0;
            let square = |edge: f64| ((edge * 2f64.powi(26)) as u128).pow(2);
            let exact = ((x * x + y * y) as u128) << 52;
            assert!(square(half_way(mine.to_bits() - 1)) <= exact, "{x} {y}");
            assert!(exact <= square(half_way(mine.to_bits() + 1)), "{x} {y}");
        }
    }

    #[test]
    fn order_and_lesser() {
        assert_eq!(greatest([0.0, 1.0, f32::INFINITY, 2.0]), f32::INFINITY);
        assert!(greatest([f32::INFINITY, 1.0, f32::NAN, 2.0]).is_nan());
        assert_eq!(lesser(1.0, f32::NAN), 1.0);
        assert_eq!(lesser(f32::NAN, 1.0), 1.0);
    }
}
