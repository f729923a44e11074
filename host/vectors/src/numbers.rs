//! The number leaves: each answer is the host's own f32 operation, but for the two that fast_math.rs gives and for `ln`, the port's fixed sequence.

use crate::frame::Case;
use crate::kinds;
use crate::words::halves;
use cases::bits;
use cases::random::Random;
use model::logarithm::ln;

/// Values where an answer turns: zeros, halves, neighbours of powers of two, the ends of the format, infinities, NaN.
fn edges() -> Vec<f32> {
    let mut values = vec![
        0.0,
        f32::from_bits(1),
        f32::from_bits(0x007f_ffff),
        f32::MIN_POSITIVE,
        0.1,
        0.49999997,
        0.5,
        0.50000006,
        0.99999994,
        1.0,
        1.5,
        2.5,
        3.5,
        std::f32::consts::FRAC_PI_2,
        std::f32::consts::PI,
        f32::MAX,
        f32::INFINITY,
    ];
    for power in [22, 23, 24, 31, 32, 63, 64] {
        let whole = 2f32.powi(power);
        values.extend([
            f32::from_bits(whole.to_bits() - 1),
            whole,
            f32::from_bits(whole.to_bits() + 1),
        ]);
    }
    values.extend([4194303.5, 4194304.5, 8388606.5, 8388607.5]);
    let negatives: Vec<f32> = values.iter().map(|x| -x).collect();
    values.extend(negatives);
    values.push(f32::NAN);
    values
}

/// Edges, then numbers of moderate size, then any bit patterns.
fn floats(random: &mut Random) -> Vec<f32> {
    let mut values = edges();
    values.extend((0..20).map(|_| random.between(-40.0, 40.0)));
    values.extend((0..20).map(|_| f32::from_bits(random.next() as u32)));
    values
}

/// The f32 nearest to the root of n, ties to even, by whole numbers: n has at most 49 bits, so 26 bits of its root and a sticky bit decide.
fn rounded_root(n: u64) -> f32 {
    let scaled = (n as u128) << 64;
    let mut root = ((scaled as f64).sqrt()) as u128;
    while root * root > scaled {
        root -= 1;
    }
    while (root + 1) * (root + 1) <= scaled {
        root += 1;
    }
    // A root that is not exact lies between two neighbours: the last bit stands for what is left.
    let sticky = u128::from(root * root != scaled);
    ((root | sticky) as f32) * 2f32.powi(-32)
}

type Leaf = fn(f32) -> Vec<u32>;

const LEAVES: [(u32, Leaf); 9] = [
    (kinds::FLOOR, |x| vec![bits(x.floor())]),
    (kinds::CEIL, |x| vec![bits(x.ceil())]),
    (kinds::ROUND, |x| vec![bits(x.round())]),
    (kinds::TO_I64, |x| halves(x as i64 as u64)),
    (kinds::TO_U64, |x| halves(x as u64)),
    (kinds::ROOT, |x| vec![bits(x.sqrt())]),
    (kinds::COS, |x| vec![bits(oracle::fast_cos(x))]),
    (kinds::ERF, |x| vec![bits(oracle::fast_erff(x))]),
    (kinds::LN, |x| vec![bits(ln(x))]),
];

/// Whole numbers about each power of two, and any.
fn wholes(random: &mut Random) -> Vec<u64> {
    let mut values = vec![0, 1, 2, 3, 5, 16777217, 16777219, u64::MAX, u64::MAX - 1];
    for power in [23, 24, 25, 31, 32, 40, 52, 63] {
        let n = 1u64 << power;
        values.extend([
            n - 1,
            n,
            n + 1,
            n + (n >> 24),
            n + (n >> 24) + 1,
            n + 3 * (n >> 24),
        ]);
    }
    values.extend((0..30).map(|_| random.next() >> (random.below(64))));
    values
}

/// f64 numbers about the halves of f32, at the ends of its range, and any.
fn doubles(random: &mut Random) -> Vec<f64> {
    let mut values = vec![
        0.0,
        -0.0,
        1.0,
        f64::MAX,
        f64::MIN_POSITIVE,
        f64::INFINITY,
        f64::NEG_INFINITY,
        f64::NAN,
    ];
    for x in [
        1.0f32,
        1.0000001,
        f32::MAX,
        f32::MIN_POSITIVE,
        f32::from_bits(1),
        f32::from_bits(2),
    ] {
        let (at, next) = (x as f64, f32::from_bits(x.to_bits() + 1));
        let next = if next.is_infinite() {
            2f64.powi(128)
        } else {
            next as f64
        };
        let half = (at + next) / 2.0;
        values.extend([
            f64::from_bits(half.to_bits() - 1),
            half,
            f64::from_bits(half.to_bits() + 1),
            -half,
            at / 2.0,
        ]);
    }
    values.extend((0..30).map(|_| f64::from_bits(random.next())));
    values.extend((0..20).map(|_| random.between(-1000.0, 1000.0) as f64 / 3.0));
    values
}

/// Differences of control points: whole numbers below 2^24 in magnitude.
fn differences(random: &mut Random) -> Vec<(i32, i32)> {
    let far = (1 << 24) - 1;
    let mut values = vec![
        (0, 0),
        (1, 0),
        (0, -1),
        (3, 4),
        (-5, 12),
        (1, 1),
        (far, 0),
        (far, far),
        (-far, 1),
        (far, far - 1),
    ];
    for _ in 0..50 {
        let cut = random.below(24);
        let mut one = || (random.below(1 << 24) >> cut) as i32;
        values.push((one(), -one()));
    }
    values
}

pub fn cases(seed: u64) -> Vec<Case> {
    let mut random = Random::new("vectors of numbers", seed);
    let mut all = Vec::new();
    let mut add = |kind, input, output| {
        all.push(Case {
            kind,
            input,
            output,
        })
    };
    for (kind, answer) in LEAVES {
        for x in floats(&mut random) {
            add(kind, vec![bits(x)], answer(x));
        }
    }
    for n in wholes(&mut random) {
        add(kinds::FROM_U64, halves(n), vec![bits(n as f32)]);
    }
    for x in doubles(&mut random) {
        let pattern = if x.is_nan() {
            0x7ff8_0000_0000_0000
        } else {
            x.to_bits()
        };
        add(kinds::NARROW, halves(pattern), vec![bits(x as f32)]);
    }
    for (x, y) in differences(&mut random) {
        let square = (x as i64 * x as i64 + y as i64 * y as i64) as u64;
        add(
            kinds::LENGTH,
            vec![x as u32, y as u32],
            vec![bits(rounded_root(square))],
        );
    }
    for a in floats(&mut random) {
        let b = random.between(-3.0, 3.0);
        let top = if a.abs().total_cmp(&b.abs()).is_gt() {
            a.abs()
        } else {
            b.abs()
        };
        add(kinds::TOP, vec![bits(a), bits(b)], vec![bits(top)]);
    }
    all
}
