//! Pictures as a shift paints them: 4096 by 4096, some 20,000 segments of a chosen width.

use cases::descriptions::push;
use cases::random::Random;
use cases::{Description, Given};

pub const SIDE: u32 = 4096;

/// Fibres in a picture, each some 200 pixels long.
const FIBRES: u64 = 121;

/// Mean widths of a segment in pixels, and the sigma coefficients that lead to them, by turns.
pub const WIDTHS: [(u32, &[i32]); 3] = [(5, &[1, 1, 2]), (17, &[5, 5, 6]), (48, &[14, 16, 17])];

pub fn given() -> Given {
    Given {
        width: SIDE,
        height: SIDE,
        y_to_x: 0.0,
        y_to_b: 1.0,
        high_precision: false,
        level10: true,
    }
}

/// Fibres all over the picture, with these sigma coefficients by turns.
pub fn description(sigmas: &[i32]) -> Description {
    let mut description = Description::default();
    for fibre in 0..FIBRES {
        let r = &mut Random::new("bench", fibre);
        let start = (r.within(200, 3800) as f32, r.within(200, 3800) as f32);
        let mut deltas = vec![r.within(-50, 50) as i32, r.within(-50, 50) as i32];
        for _ in 1..4 {
            deltas.extend([r.within(-12, 12) as i32, r.within(-12, 12) as i32]);
        }
        let mut coefficients = [0; 128];
        for first in [0, 32, 64] {
            coefficients[first] = r.within(20, 200) as i32;
            for later in &mut coefficients[first + 1..first + 4] {
                *later = r.within(-9, 9) as i32;
            }
        }
        coefficients[96] = sigmas[fibre as usize % sigmas.len()];
        push(&mut description, start, &deltas, &coefficients);
    }
    description
}
